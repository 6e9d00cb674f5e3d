"""Compares the output of deduplication over dask with that of a single process, byte for byte."""

import importlib.util
import os
import pathlib
import random
import subprocess
import sys
import tempfile
import unittest

import ijson_proved
from test_command import random_line

FOLDER = pathlib.Path(ijson_proved.__file__).parent.parent


@unittest.skipUnless(importlib.util.find_spec("distributed"), "distributed is missing, in Debian python3-dask and python3-distributed")
class Dask(unittest.TestCase):
    def run_with(self, *command):
        done = subprocess.run([sys.executable, "-B", *command], capture_output=True, env={**os.environ, "PYTHONPATH": str(FOLDER)})
        self.assertEqual(done.returncode, 0, done.stderr.decode())
        return done.stdout

    def test_two_workers_write_what_a_single_process_writes(self):
        chance = random.Random(2)
        with tempfile.TemporaryDirectory() as folder:
            files, first = [os.path.join(folder, name) for name in ("one", "two")], {}
            for name in files:
                lines = [random_line(chance) for _ in range(10_000)]
                pathlib.Path(name).write_text("".join(f"{line}\n" for _, line in lines))
                for number, line in lines:
                    first.setdefault(number, f"{line}\n")
            single = self.run_with("-m", "ijson_proved", "dedup", "--lines", "--jobs", "1", *files)
            # Both files have about 25 blocks.
            dask = self.run_with(FOLDER / "examples" / "dedup_dask.py", "--workers", "2", "--block", "20000", *files)
        self.assertEqual(single.decode(), "".join(first.values()))
        self.assertEqual(dask, single)


if __name__ == "__main__":
    unittest.main()
