"""The functions for files, as a program: arguments, files and statuses."""

from __future__ import annotations

import argparse
import contextlib
import functools
import importlib
import os
import secrets
import sys
from concurrent.futures.process import BrokenProcessPool
from typing import Any, BinaryIO, Callable, Iterable, Iterator, NoReturn, Union

import ijson_proved
from ijson_proved import Error, NotPointerError, NoValueError, _jobs
from ijson_proved._lines import answered, line_chunks, pair_chunks

NOT_JSON, FILES, MEMORY, DIFFERENT, USAGE, INTERRUPTED = 1, 2, 3, 4, 64, 130
EPILOG = """A FILE is one JSON text, or with --lines one a line. Without a FILE, or if it is -, standard input is read. A text at fault is reported as
FILE:LINE:COLUMN: not JSON, and the others are still answered.

exit status:
  0    every text has its result; `equal`: the values are equal
  1    a text is not UTF-8, or not JSON within the limits
  2    a file cannot be read, or the output cannot be written
  3    memory ran out
  4    `equal`: values differ; `get`: a text has no value at the pointer
  64   the arguments are wrong
  130  interrupted"""


JOBS: dict[str, Callable[[Any], bytes]] = {
    "compact": _jobs.compact, "canonical": _jobs.canonical, "equal": _jobs.equal, "dedup": _jobs.digest}


class Parser(argparse.ArgumentParser):
    def error(self, message: str) -> NoReturn:
        self.print_usage(sys.stderr)
        self.exit(USAGE, f"{self.prog}: {message}\n")


# ---- files


def opened(name: str) -> contextlib.AbstractContextManager[BinaryIO]:
    if name == "-":
        return contextlib.nullcontext(sys.stdin.buffer)
    return open(name, "rb")


@contextlib.contextmanager
def progress(names: Iterable[str], shown: bool) -> Iterator[Callable[[int], object]]:
    """Yields a function that counts bytes: on a bar, if standard error is a terminal and tqdm is installed."""
    try:
        tqdm = importlib.import_module("tqdm").tqdm
    except ImportError:
        shown = False
    if not (shown and sys.stderr.isatty()):
        yield lambda count: None
        return
    total = sum(os.path.getsize(name) for name in names if os.path.isfile(name))
    with tqdm(total=total or None, unit="B", unit_scale=True) as bar:
        yield bar.update


class Run:
    """The state of a command: its status, and with `dedup` the digests of the lines written."""

    def __init__(self, options: argparse.Namespace) -> None:
        self.options, self.status = options, 0
        self.seen: set[bytes] = set()

    def report(self, name: str, line: int, error: Error) -> None:
        print(f"{name}:{line}:{error.column}: {error.what}", file=sys.stderr)
        self.status = (self.status or DIFFERENT) if isinstance(error, NoValueError) else NOT_JSON

    def job(self) -> Callable[[Any], bytes] | None:
        """Returns the job of the command, after checking its pointer or patch. Reports an error in these and returns `None`."""
        options = self.options
        if options.command == "get":
            with contextlib.suppress(NoValueError):
                ijson_proved.get("null", options.pointer)
            return functools.partial(_jobs.get, options.pointer)
        if options.command == "merge-patch":
            with opened(options.patch) as file:
                patch = file.read()
            try:
                return functools.partial(_jobs.merge_patch, ijson_proved.compact(patch).encode())
            except Error as error:
                self.report(options.patch, error.line, error)
                return None
        if options.command == "hash":
            return functools.partial(_jobs.hash, options.seed)
        return JOBS[options.command]

    def line_for(self, item: Any, answer: bytes) -> bytes:
        """Returns the line to write for the answer to a text."""
        if self.options.command == "dedup":
            if answer in self.seen:
                return b""
            self.seen.add(answer)
            return bytes(item) + b"\n"
        if answer == b"false" and self.options.command == "equal":
            self.status = self.status or DIFFERENT
        return answer + b"\n"

    def take(self, names: list[str], first: int, items: list[Any], answers: list[Union[bytes, Error]]) -> None:
        """Writes the lines for answers, and reports errors. `names` are the files of the texts, which begin at the line `first`."""
        lines = []
        for number, (item, answer) in enumerate(zip(items, answers), first):
            if isinstance(answer, Error):
                self.report(names[min(answer.text, len(names) - 1)], number + answer.line - 1, answer)
            else:
                lines.append(self.line_for(item, answer))
        sys.stdout.buffer.write(b"".join(lines))

    def take_lines(self, names: list[str], files: list[BinaryIO], job: Callable[[Any], bytes], count: Callable[[int], object]) -> None:
        chunks: Iterable[list[Any]] = line_chunks(files[0])
        if len(files) == 2:
            chunks = pair_chunks(files[0], files[1])
        first = 1
        for items, answers in answered(self.options.jobs, job, chunks):
            self.take(names, first, items, answers)
            first += len(items)
            count(sum(len(item) + 1 if isinstance(item, bytes) else sum(map(len, item)) + 2 for item in items))

    def take_texts(self, names: list[str], files: list[BinaryIO], job: Callable[[Any], bytes]) -> None:
        texts = tuple(file.read() for file in files)
        for items, answers in answered(1, job, [[texts if len(texts) > 1 else texts[0]]]):
            self.take(names, 1, items, answers)

    def run(self) -> None:
        options, job = self.options, self.job()
        if job is None:
            return
        # The texts of a call are from one file, or from two.
        calls = [options.files] if options.command == "equal" else [[name] for name in options.files]
        with progress(options.files, options.lines) as count:
            for names in calls:
                with contextlib.ExitStack() as stack:
                    files = [stack.enter_context(opened(name)) for name in names]
                    if options.lines:
                        self.take_lines(names, files, job, count)
                    else:
                        self.take_texts(names, files, job)


# ---- arguments


def seed(text: str) -> int:
    number = int(text, 0)
    if not 0 <= number < 1 << 64:
        raise ValueError
    return number


def processes(text: str) -> int:
    number = int(text)
    if number < 1:
        raise ValueError
    return number


def parser() -> Parser:
    form = argparse.RawDescriptionHelpFormatter
    main = Parser("ijson_proved", description=ijson_proved.__doc__.splitlines()[0], epilog=EPILOG, formatter_class=form)
    main.add_argument("--version", action="version", version=f"ijson_proved {ijson_proved.__version__}")
    commands = main.add_subparsers(dest="command", required=True, metavar="COMMAND")
    helps = {
        "compact": "the text without white space",
        "canonical": "the canonical text, which is the same exactly for equal values",
        "equal": "true or false: whether two files have equal values",
        "get": "the value at a JSON Pointer (RFC 6901)",
        "merge-patch": "the text after a JSON Merge Patch (RFC 7396)",
        "hash": "16 hexadecimal digits, the same for equal values and one seed",
        "dedup": "the first of each set of equal lines; keeps 32 bytes for each, the digest of its canonical text",
    }
    for name, help in helps.items():
        command = commands.add_parser(name, help=help, description=help, epilog=EPILOG, formatter_class=form)
        command.add_argument("--lines", action="store_true", default=name == "dedup", help="a JSON text a line" + ", as always" * (name == "dedup"))
        command.add_argument("--jobs", type=processes, default=len(os.sched_getaffinity(0)), metavar="N", help="processes for --lines (one a processor)")
        if name == "hash":
            command.add_argument("--seed", type=seed, default=secrets.randbits(64), metavar="N",
                                 help="0 to 2^64 - 1 (random, so only hashes of one run are alike); keep it from those who send the texts")
        if name == "get":
            command.add_argument("pointer", metavar="POINTER")
        if name == "merge-patch":
            command.add_argument("patch", metavar="PATCH", help="a file")
        command.add_argument("files", metavar="FILE", nargs=2 if name == "equal" else "*", default=["-"])
    return main


def main() -> int:
    arguments = parser()
    options = arguments.parse_args()
    run = Run(options)
    try:
        run.run()
        sys.stdout.buffer.flush()
        return run.status
    except NotPointerError as error:
        arguments.error(f"{error}: {options.pointer}")
    except BrokenPipeError:
        # The reader of the output has ended. Python would report that again when it exits.
        os.dup2(os.open(os.devnull, os.O_WRONLY), sys.stdout.fileno())
        return FILES
    except OSError as error:
        print(f"{arguments.prog}: {error}", file=sys.stderr)
        return FILES
    except (MemoryError, BrokenProcessPool):
        print(f"{arguments.prog}: out of memory", file=sys.stderr)
        return MEMORY
    except KeyboardInterrupt:
        return INTERRUPTED

