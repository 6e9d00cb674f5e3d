"""Runs the timing programs of `bench/in_process`, and ends the benchmark if one writes a wrong text."""

import hashlib
import os
import pathlib
import subprocess
import sys

from measure import in_turns

BENCH = pathlib.Path(__file__).resolve().parent


def run_once(name, library, path, count, written, **settings):
    """Returns the nanoseconds of each act in each pass.

    Returns None if the file needs a body that is left out of the library. The last text is written to the file
    `written`. `settings` are added to the environment.
    """
    with open(path, "rb") as text, open(written, "wb") as output:
        command = [library.program, str(count)]
        done = subprocess.run(command, stdin=text, stdout=output, stderr=subprocess.PIPE, text=True, env=os.environ | settings)
    if "not implemented" in done.stderr:
        return None
    if done.returncode:
        sys.exit(f"{name} failed on {path}: {done.stderr}")
    lines = [tuple(map(int, line.split())) for line in done.stderr.splitlines()]
    if len(lines) != count:
        sys.exit(f"{name} made {len(lines)} passes over {path} and not {count}")
    if {length for *_, length in lines} != {written.stat().st_size}:
        sys.exit(f"{name} does not write the same text of {path} in each pass")
    return [times for *times, _ in lines]


def check_value(name, library, path, written):
    """Ends the benchmark if the text is not a text of the value that was read, except for properties that the library does not keep."""
    command = [sys.executable, BENCH / "same.py", "--numbers", library.numbers, path, written]
    if subprocess.run(command + ["--order"] * library.order).returncode:
        sys.exit(f"{name} does not write the value of {path}")


def digest(path):
    return hashlib.sha256(path.read_bytes()).digest()


def passes_of(libraries, path, count, turns, work):
    """Returns the nanoseconds of each act in each pass of all turns, by the library, for libraries that can read the file."""
    written = pathlib.Path(work) / "written"
    answers = {}
    for name, library in libraries.items():
        if run_once(name, library, path, 1, written):
            check_value(name, library, path, written)
            answers[name] = digest(written)
    found = {name: [] for name in answers}
    for name in in_turns(answers, turns):
        found[name] += run_once(name, libraries[name], path, count, written)
        if digest(written) != answers[name]:
            sys.exit(f"{name} writes another text of {path} than it did first")
    return found
