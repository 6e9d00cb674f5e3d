"""Tests of `python3 -m ijson_proved`: the output and the status of each command, and the positions of errors."""

import os
import pathlib
import pty
import random
import signal
import subprocess
import sys
import tempfile
import threading
import time
import unittest

import ijson_proved

FOLDER = pathlib.Path(ijson_proved.__file__).parent.parent
ENVIRONMENT = {**os.environ, "PYTHONPATH": str(FOLDER)}
LINES = b'[1.0, 2 ]\n{"b":1,"a":[]}\n[1 2]\n[1,2.0]\n{"a":[],"b":1e0}\n'

# A replacement for tqdm, which prints how many bytes were counted, and of how many.
BAR = b"""
import contextlib, sys

class tqdm(contextlib.AbstractContextManager):
    def __init__(self, total, **options):
        self.total, self.count = total, 0

    def update(self, count):
        self.count += count

    def __exit__(self, *exception):
        print(self.count, "of", self.total, file=sys.stderr)
"""


def random_line(chance):
    """Returns a number, and a line with the number in one of many spellings."""
    number = chance.randrange(1, 3000)
    spelled = chance.choice([f"{number}", f"{number}.0", f"{number}e0", f"{number}0E-1"])
    return number, chance.choice(['{"a":%s,"b":[]}', '{ "b" : [ ] , "a" : %s }', '{"a":null,"b":[],"a":%s}']) % spelled


class Command(unittest.TestCase):
    def setUp(self):
        folder = tempfile.TemporaryDirectory()
        self.addCleanup(folder.cleanup)
        self.folder = pathlib.Path(folder.name)

    def file(self, name, content):
        (self.folder / name).write_bytes(content)
        return name

    def run_with(self, *arguments, stdin=b"", **options):
        return subprocess.run([sys.executable, "-B", "-m", "ijson_proved", *arguments], input=stdin, capture_output=True, cwd=self.folder,
                              env=ENVIRONMENT, **options)

    def check(self, arguments, out, status=0, err=b"", stdin=b""):
        done = self.run_with(*arguments, stdin=stdin)
        # assertTrue, since assertEqual would compute the difference of two long outputs, which takes minutes.
        self.assertTrue(done.stdout == out, (done.stdout[:1000], out[:1000]))
        self.assertEqual((done.stderr, done.returncode), (err, status))

    # ---- one text per file

    def test_a_file_is_a_text(self):
        one, two = self.file("one", b'{"b": 2.0,\n "a": [10, 0.0]}'), self.file("two", b"[ ]\n")
        self.check(["compact", one, two], b'{"b":2.0,"a":[10,0.0]}\n[]\n')
        self.check(["canonical", one], b'{"a":[1e1,0],"b":2e0}\n')
        self.check(["get", "/a/0", one], b"10\n")
        self.check(["merge-patch", self.file("patch", b'{"b":null}'), one], b'{"a":[10,0.0]}\n')
        self.check(["compact"], b"[]\n", stdin=b" [ ]")
        self.check(["compact", two, "-"], b"[]\n1\n", stdin=b"1")

    def test_equal_says_so_by_its_status_too(self):
        one, two = self.file("one", b"[1.0]"), self.file("two", b"[1]")
        self.check(["equal", one, two], b"true\n")
        self.check(["equal", one, "-"], b"false\n", 4, stdin=b"[2]")

    def test_hashes_of_equal_values_are_alike(self):
        one, two = self.file("one", b"[1.0]"), self.file("two", b"[1]")
        done = self.run_with("hash", one, two)
        first, second = done.stdout.split()
        self.assertEqual((first, done.returncode), (second, 0))
        self.check(["hash", "--seed", "7", one], b"%016x\n" % ijson_proved.hash("[1]", 7))
        self.check(["hash", "--seed", "0x7", one], b"%016x\n" % ijson_proved.hash("[1]", 7))

    def test_a_wrong_text_is_named_with_its_place(self):
        bad, good = self.file("bad", "[1,\n \"é\" 02]".encode()), self.file("good", b"[1]")
        self.check(["compact", bad, good], b"[1]\n", 1, b"bad:2:6: not JSON\n")
        self.check(["canonical"], b"", 1, b"-:1:2: not UTF-8\n", stdin=b"[\xff]")
        self.check(["compact"], b"", 1, b"-:1:128: nesting too deep\n", stdin=b"[" * 128)
        self.check(["hash"], b"", 1, b"-:2:1: number out of range\n", stdin=b"\n1e2000000000")
        self.check(["equal", good, bad], b"", 1, b"bad:2:6: not JSON\n")
        self.check(["merge-patch", bad, good], b"", 1, b"bad:2:6: not JSON\n")
        self.check(["get", "/1", good], b"", 4, b"good:1:1: no value at the pointer\n")

    def test_wrong_arguments_are_status_64(self):
        for arguments in [], ["frob"], ["compact", "--frob"], ["hash", "--seed", "-1"], ["hash", "--seed", str(2**64)], ["get", "x", "-"], \
                ["equal", "a"], ["compact", "--jobs", "0"]:
            done = self.run_with(*arguments)
            self.assertEqual((done.stdout, done.returncode), (b"", 64), arguments)
            self.assertTrue(done.stderr.startswith(b"usage: "), done.stderr)

    def test_files_that_fail_are_status_2(self):
        done = self.run_with("compact", "missing")
        self.assertEqual((done.stdout, done.returncode), (b"", 2))
        self.assertIn(b"missing", done.stderr)
        with open("/dev/full", "wb") as full:
            done = subprocess.run([sys.executable, "-B", "-m", "ijson_proved", "compact"], input=b"1", stdout=full, stderr=subprocess.PIPE,
                                  env=ENVIRONMENT)
        self.assertEqual(done.returncode, 2)
        self.assertIn(b"No space left", done.stderr)

    def test_help_lists_the_statuses_and_version_the_version(self):
        done = self.run_with("--help")
        self.assertEqual(done.returncode, 0)
        for status in b"\n  0 ", b"\n  1 ", b"\n  2 ", b"\n  3 ", b"\n  4 ", b"\n  64 ", b"\n  130 ":
            self.assertIn(status, done.stdout)
        self.check(["--version"], f"ijson_proved {ijson_proved.__version__}\n".encode())

    # ---- one text per line

    def test_a_line_is_a_text(self):
        lines, wrong = self.file("lines", LINES), b"lines:3:4: not JSON\n"
        self.check(["compact", "--lines", lines], b'[1.0,2]\n{"b":1,"a":[]}\n[1,2.0]\n{"a":[],"b":1.0}\n', 1, wrong)
        self.check(["canonical", "--lines", lines], b'[1e0,2e0]\n{"a":[],"b":1e0}\n' * 2, 1, wrong)
        self.check(["merge-patch", "--lines", self.file("patch", b'{"b":null}'), lines], b'{}\n{"a":[]}\n{}\n{"a":[]}\n', 1, wrong)
        self.check(["get", "--lines", "/b", lines], b"1\n1.0\n", 1, b"lines:1:1: no value at the pointer\n" + wrong
                   + b"lines:4:1: no value at the pointer\n")
        done = self.run_with("hash", "--lines", lines)
        self.assertEqual(len(set(done.stdout.split())), 2)

    def test_a_missing_value_alone_is_status_4(self):
        lines = self.file("lines", b"[1]\n[]\n")
        self.check(["get", "--lines", "/0", lines], b"1\n", 4, b"lines:2:1: no value at the pointer\n")

    def test_lines_of_two_files_are_compared(self):
        one, two = self.file("one", b"1\n2\n3\n4"), self.file("two", b"1.0\n3\n3e0\n")
        self.check(["equal", "--lines", one, two], b"true\nfalse\ntrue\n", 1, b"two:4:1: not JSON\n")
        self.check(["equal", "--lines", one, one], b"true\n" * 4)
        self.check(["equal", "--lines", self.file("a", b"1\n2\n"), self.file("b", b"1\n1\n")], b"true\nfalse\n", 4)

    def test_dedup_writes_the_first_of_equal_lines(self):
        lines = self.file("lines", LINES)
        self.check(["dedup", "--lines", lines], b'[1.0, 2 ]\n{"b":1,"a":[]}\n', 1, b"lines:3:4: not JSON\n")
        self.check(["dedup", lines, lines], b'[1.0, 2 ]\n{"b":1,"a":[]}\n', 1, b"lines:3:4: not JSON\n" * 2)
        self.check(["dedup", "--lines"], b"1\n2\n", stdin=b"1\n2\n1")

    def test_the_number_of_processes_does_not_change_the_output(self):
        chance = random.Random(1)
        values = [random_line(chance) for _ in range(60_000)]
        lines = self.file("lines", "".join(f"{line}\n" for _, line in values).encode())
        first = {}
        for number, line in values:
            first.setdefault(number, line)
        wanted = "".join(f"{line}\n" for line in first.values()).encode()
        self.check(["dedup", "--lines", "--jobs", "1", lines], wanted)
        self.check(["dedup", "--lines", "--jobs", "3", lines], wanted)
        one, three = (self.run_with("compact", "--lines", "--jobs", jobs, lines) for jobs in ("1", "3"))
        self.assertEqual(one.stdout, three.stdout)
        self.assertEqual([int(line[5:line.index(b",")].partition(b".")[0]) for line in one.stdout.splitlines() if line.startswith(b'{"a"')],
                         [number for number, line in values if line.startswith('{"a"')])

    def test_lines_keep_their_order_and_numbers(self):
        spelled, wanted = ([f"[{number},{space}1]" for number in range(9000)] for space in (" " * 1000, ""))
        spelled[8500] = "[8500"
        del wanted[8500]
        lines = self.file("lines", "\n".join(spelled).encode())
        for processes in "1", "2":
            self.check(["compact", "--lines", "--jobs", processes, lines], "".join(f"{line}\n" for line in wanted).encode(), 1,
                       b"lines:8501:6: not JSON\n")

    def test_a_reader_that_leaves_ends_the_command(self):
        lines = self.file("lines", b"[1, 2]\n" * 500_000)
        command = subprocess.Popen([sys.executable, "-B", "-m", "ijson_proved", "compact", "--lines", lines], cwd=self.folder, env=ENVIRONMENT,
                                   stdout=subprocess.PIPE, stderr=subprocess.PIPE)
        self.assertEqual(command.stdout.readline(), b"[1,2]\n")
        command.stdout.close()
        self.assertEqual((command.stderr.read(), command.wait(60)), (b"", 2))
        command.stderr.close()

    def test_a_terminal_shows_a_bar(self):
        self.file("tqdm.py", BAR)
        lines = self.file("lines", b"[1, 2]\n" * 1000)
        first, second = pty.openpty()
        self.addCleanup(os.close, first)
        done = subprocess.run([sys.executable, "-B", "-m", "ijson_proved", "dedup", lines, lines], cwd=self.folder, env=ENVIRONMENT,
                              stdout=subprocess.PIPE, stderr=second)
        os.close(second)
        self.assertEqual((done.stdout, os.read(first, 100)), (b"[1, 2]\n", b"14000 of 14000\r\n"))
        self.check(["dedup", lines], b"[1, 2]\n")

    def test_an_interrupt_ends_all_processes(self):
        command = subprocess.Popen([sys.executable, "-B", "-m", "ijson_proved", "compact", "--lines", "--jobs", "2"], cwd=self.folder, env=ENVIRONMENT,
                                   stdin=subprocess.PIPE, stdout=subprocess.PIPE, stderr=subprocess.PIPE, start_new_session=True)
        # Five chunks are sent, so that the answers to the first are written. The processes then wait for the sixth
        # chunk, and so does the command.
        line = b"[" + b"1, " * 10_000 + b"1]\n"
        feeder = threading.Thread(target=lambda: (command.stdin.write(line * 175), command.stdin.flush()))
        feeder.start()
        self.assertEqual(command.stdout.readline(), line.replace(b" ", b""))
        time.sleep(2)
        os.killpg(command.pid, signal.SIGINT)
        command.stdout.read()
        self.assertEqual((command.wait(60), command.stderr.read()), (130, b""))
        feeder.join()
        for pipe in command.stdin, command.stdout, command.stderr:
            pipe.close()


if __name__ == "__main__":
    unittest.main()
