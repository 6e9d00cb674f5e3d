"""Times programs on files, in turns."""

import os
import pathlib
import statistics
import subprocess
import sys
from typing import NamedTuple

BENCH = pathlib.Path(__file__).resolve().parent
# The files of generate.py.
FILES = ["integers", "fractions", "objects", "strings", "mixed", "one_object"]
COMMON_FILES = ["coordinates", "catalogue", "messages"]
MORE_FILES = ["numbers", "arrays", "long_keys"]
# Files with one kind of value each, whose cost is hidden in the other files.
NARROW_FILES = ["probabilities", "identifiers", "points"]
# Files that take much memory per byte of text.
WORST_FILES = ["zeros", "empty_arrays", "small_objects", "deep_objects", "deep_arrays"]


class Run(NamedTuple):
    elapsed: float  # seconds
    processor: float  # seconds, in the program and in the kernel
    memory: float  # MB, maximum resident


# The figures of the runs of one program on one file.
FIGURES = {
    "elapsed, min": lambda runs: min(run.elapsed for run in runs),
    "elapsed, median": lambda runs: statistics.median(run.elapsed for run in runs),
    "processor, min": lambda runs: min(run.processor for run in runs),
    "processor, median": lambda runs: statistics.median(run.processor for run in runs),
    "memory, max": lambda runs: max(run.memory for run in runs),
}


def run_once(command, path, sink=os.devnull):
    """Runs the command once, with the file as standard input."""
    once = [sys.executable, "-I", "-S", BENCH / "once.py", path, sink, *command]
    done = subprocess.run(once, stdout=subprocess.PIPE, text=True)
    if done.returncode:
        sys.exit(f"{command[0]} failed on {path}")
    elapsed, processor, memory = map(float, done.stdout.split())
    return Run(elapsed, processor, memory / 1e6)


def in_turns(names, turns):
    """Yields the names in turns. Each turn has every name once, and begins with another name."""
    names = list(names)
    for turn in range(turns):
        first = turn % len(names)
        yield from names[first:] + names[:first]


def figures(jobs, turns):
    """Returns the figures of each job (a command and a file, by name), from turns in which each job runs once."""
    runs = {name: [] for name in jobs}
    for name in in_turns(jobs, turns):
        runs[name].append(run_once(*jobs[name]))
    return {name: {figure: of(it) for figure, of in FIGURES.items()} for name, it in runs.items()}
