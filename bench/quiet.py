"""Checks that a machine does little else while a benchmark runs. Figures of a busy machine are printed only on request,
with a mark.

Before anything is built, the load is read from /proc/loadavg. From then on, it is the work of all other programs by
/proc/stat, since /proc/loadavg would count the benchmark too. Steal is the part of the time in which the host gave the
processors to others.
"""

import os
import pathlib
import resource
import sys
import time

MOST_LOAD = 0.5  # processors
MOST_STEAL = 0.02


def system_times():
    """Returns the seconds that all processors were at work, and the seconds that the host took."""
    ticks = map(int, pathlib.Path("/proc/stat").read_text(encoding="utf-8").split("\n", 1)[0].split()[1:9])
    user, nice, system, _, _, interrupts, softer, steal = (it / os.sysconf("SC_CLK_TCK") for it in ticks)
    return user + nice + system + interrupts + softer, steal


def own_time():
    """Returns the processor seconds of this program and of the programs that it ran."""
    used = map(resource.getrusage, (resource.RUSAGE_SELF, resource.RUSAGE_CHILDREN))
    return sum(it.ru_utime + it.ru_stime for it in used)


class Quiet:
    """The load and the steal before the benchmark, and since the last table."""

    def __init__(self, anyway):
        self.anyway = anyway
        self.before = self.judge("Before", os.getloadavg()[0], 0)
        self.begin()

    def begin(self):
        """Begins to watch, after all programs are built."""
        self.at, self.own, (self.busy, self.stolen) = time.monotonic(), own_time(), system_times()

    def judge(self, when, load, steal):
        """Returns the figures in words. Ends the benchmark if they are too high and the option to go on is not set."""
        words = f"{when}: load {load:.2f}, steal {steal:.1%}"
        if load <= MOST_LOAD and steal <= MOST_STEAL:
            return words
        if not self.anyway:
            sys.exit(f"The machine is not quiet, so nothing is printed. {words}; at most {MOST_LOAD} and {MOST_STEAL:.0%}, or --anyway.")
        return words + " **(not quiet)**"

    def print(self, text):
        """Prints a table, and the load and the steal since the table before it."""
        taken, (busy, stolen) = time.monotonic() - self.at, system_times()
        others = max(busy - self.busy - (own_time() - self.own), 0) / taken
        words = self.judge("meanwhile", others, (stolen - self.stolen) / taken / (os.cpu_count() or 1))
        print(text, f"{self.before}; {words}.", sep="\n\n", end="\n\n", flush=True)
        self.begin()


def add_option(parser):
    parser.add_argument("--anyway", action="store_true", help="print figures that are taken while the machine does other work, marked so")
