#!/usr/bin/env python3
"""Compares the statuses and the version in `ijson.h` with those in the proved crate, Python, Rust and their page.

usage: bindings/statuses.py

Prints a line for each difference, and then 'N M': how many are equal and how many differ. The status is 0 if M is 0.
"""

import pathlib
import re
import sys

BINDINGS = pathlib.Path(__file__).resolve().parent
# The names in ijson_c and Rust that differ from the names in the header.
NAMES = {"DONE": "OK", "NOTHING_THERE": "NOTHING", "Syntax": "SYNTAX", "TooDeep": "TOO_DEEP", "NumberRange": "NUMBER_RANGE", "Memory": "MEMORY",
         "done": "OK", "not_utf8": "NOT_UTF8", "memory": "MEMORY", "too_short": "TOO_SHORT", "not_pointer": "NOT_POINTER",
         "nothing_there": "NOTHING"}


def found(path, *patterns):
    """Returns the statuses by name that patterns find in a file. Each pattern finds a name and a number."""
    text = (BINDINGS / path).read_text(encoding="utf-8")
    return {NAMES.get(name, name): int(number) for pattern in patterns for name, number in re.findall(pattern, text, re.MULTILINE)}


def of_source():
    """Returns the statuses of the crate: of its constants, of errors of the reader, and of two outcomes that are
    written out where they occur."""
    statuses = found("ijson_c/src/outcome.rt.txt", r"^pub\(crate\) const (\w+): Outcome = Outcome \{\s+status: (\d+),",
                     r"JsonError::(\w+)(?: \{ at \})? => \((\d+),")
    refused, = re.findall(r"_refused: AllocError\) -> Outcome \{\s+Outcome \{\s+status: (\d+),", (BINDINGS / "ijson_c/src/outcome.rt.txt").read_text())
    not_utf8, = re.findall(r"from_utf8\(.*\) else \{\s+return Err\(Outcome \{\s+status: (\d+),", (BINDINGS / "ijson_c/src/read.rt.txt").read_text())
    return statuses | {"NOT_UTF8": int(not_utf8)} | ({} if statuses.get("MEMORY") == int(refused) else {"MEMORY": int(refused)})


def statuses():
    """Returns the statuses by name, for each place that states them."""
    return {
        "ijson_c/src": of_source(),
        "ijson_c/specs": found("ijson_c/specs/Outcomes.antt.txt", r"^(\w+)(?: which)? = record \{ status = (\d+);",
                               r"^json_error which \((\w+) at\) = record \{ status = (\d+);"),
        "python": found("python/ijson_proved/_library.py", r"^    ([A-Z_0-9]+) = (\d+)$"),
        "rust": found("rust/src/status.rs", r"const (\w+): u32 = (\d+);"),
    }


def versions():
    header = (BINDINGS / "c/ijson.h").read_text()
    parts = ".".join(re.search(rf"#define IJSON_VERSION_{part} (\d+)", header)[1] for part in ("MAJOR", "MINOR", "PATCH"))
    return {
        "the numbers of c/ijson.h": parts,
        "python": re.search(r'__version__ = "(.*)"', (BINDINGS / "python/ijson_proved/__init__.py").read_text())[1],
        "rust": re.search(r'^version = "(.*)"', (BINDINGS / "rust/Cargo.toml").read_text(), re.MULTILINE)[1],
    }


def main():
    header = found("c/ijson.h", r"^    IJSON_(\w+) = (\d+)")
    version = re.search(r'#define IJSON_VERSION "(.*)"', (BINDINGS / "c/ijson.h").read_text())[1]
    amiss = [f"{place}: {name} is {there.get(name)}, and {header.get(name)} in ijson.h"
             for place, there in statuses().items() for name in header.keys() | there.keys() if there.get(name) != header.get(name)]
    page = re.findall(r"^\| `IJSON_(\w+)` \|", (BINDINGS.parent / "docs/other-languages.md").read_text(), re.MULTILINE)
    amiss += [f"docs/other-languages.md: {name} is in either this page or ijson.h" for name in header.keys() ^ set(page)]
    amiss += [f"{place}: the version is {there}, and {version} in ijson.h" for place, there in versions().items() if there != version]
    amiss += [f"ijson.h: two statuses are {number}" for number in set(header.values()) if list(header.values()).count(number) > 1]
    print(*amiss, sep="\n", end="\n" * bool(amiss), file=sys.stderr)
    print(len(header) * (len(statuses()) + 1) + len(versions()) - len(amiss), len(amiss))
    sys.exit(1 if amiss or len(header) < 2 else 0)


main()
