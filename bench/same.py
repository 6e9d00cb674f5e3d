#!/usr/bin/env python3
"""same.py [--order] [--numbers digits|floats|texts] READ WRITTEN: ends with status 0 only if both files are JSON texts of one value.

With --order, the entries of objects must have the same order. By default, numbers are compared as the nearest
floating-point numbers. With `digits`, they are compared by exact value. With `floats`, a reader may have rounded them
twice. With `texts`, a number of READ is a string of its digits in WRITTEN.
"""

import argparse
import decimal
import json
import math
import sys

# The parameters with which Python parses numbers, by the option.
NUMBERS = {
    "nearest": {},
    "digits": {"parse_int": decimal.Decimal, "parse_float": decimal.Decimal},
    "floats": {},
    "texts": {"parse_int": str, "parse_float": str},
}
# A relative difference of several steps in the last place of a double.
NEAR = 1e-15


def are_near(first, second):
    """Returns True if the two values differ at most in the last places of numbers."""
    if isinstance(first, float) and isinstance(second, (int, float)):
        return math.isclose(first, second, rel_tol=NEAR)
    if isinstance(first, dict) and isinstance(second, dict):
        return first.keys() == second.keys() and all(are_near(value, second[key]) for key, value in first.items())
    if isinstance(first, (list, tuple)) and type(first) is type(second):
        return len(first) == len(second) and all(map(are_near, first, second))
    return first == second


def marked(value):
    """Returns the value with each Boolean marked, since True equals 1 in Python."""
    if isinstance(value, bool):
        return "truth value", value
    if isinstance(value, dict):
        return {key: marked(item) for key, item in value.items()}
    if isinstance(value, (list, tuple)):
        return type(value)(map(marked, value))
    return value


def main():
    parser = argparse.ArgumentParser(description=__doc__)
    parser.add_argument("--order", action="store_true")
    parser.add_argument("--numbers", choices=NUMBERS, default="nearest")
    parser.add_argument("texts", nargs=2)
    options = parser.parse_args()
    told = dict(NUMBERS[options.numbers], object_pairs_hook=tuple if options.order else dict)
    first, second = (marked(json.load(open(path, encoding="utf-8"), **told)) for path in options.texts)
    same = first == second or options.numbers == "floats" and are_near(first, second)
    sys.exit(not same)


main()
