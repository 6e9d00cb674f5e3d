#!/usr/bin/env python3
"""Times the functions from Python, compared with `json`, and with `orjson` if it is installed, on a file of bench/generate.py.

usage: bindings/speed.py [--size BYTES] [--file NAME] [--turns N] [--keys N]

Prints the minimum of some turns, in seconds of processor time. `json` and `orjson` round fractions. With --keys,
`equal` and `merge_patch` are timed instead, on an object of N keys with the same hash, as tests/fuzz/chosen-keys
generates them, and on an object of ordinary keys of the same length.
"""

import sys

sys.dont_write_bytecode = True

import argparse
import importlib.machinery
import importlib.util
import json
import pathlib
import subprocess
import tempfile
import time

BINDINGS = pathlib.Path(__file__).resolve().parent
sys.path.insert(0, str(BINDINGS / "python"))

import ijson_proved


def compact_by_json(text):
    return json.dumps(json.loads(text), separators=(",", ":"), ensure_ascii=False)


def sorted_by_json(text):
    return json.dumps(json.loads(text), separators=(",", ":"), ensure_ascii=False, sort_keys=True)


def rows(text, other):
    """Returns the calls to time: by name, and then by library."""
    compact = {"ijson": lambda: ijson_proved.compact(text), "json": lambda: compact_by_json(text)}
    canonical = {"ijson": lambda: ijson_proved.canonical(text), "json": lambda: sorted_by_json(text)}
    equal = {"ijson": lambda: ijson_proved.equal(text, other), "json": lambda: json.loads(text) == json.loads(other)}
    if importlib.util.find_spec("orjson"):
        import orjson

        compact["orjson"] = lambda: orjson.dumps(orjson.loads(text))
        canonical["orjson"] = lambda: orjson.dumps(orjson.loads(text), option=orjson.OPT_SORT_KEYS)
        equal["orjson"] = lambda: orjson.loads(text) == orjson.loads(other)
    return {"compact": compact, "canonical, sorted keys": canonical, "equal": equal, "hash": {"ijson": lambda: ijson_proved.hash(text)},
            "get": {"ijson": lambda: ijson_proved.get(text, "/0")},
            "merge_patch": {"ijson": lambda: ijson_proved.merge_patch('{"rows":0,"n":1}', b'{"n":null,"rows":' + text + b"}")}}


def key_rows(count):
    """Yields calls on objects of chosen and of ordinary keys, which are compared and patched in the reverse order of keys."""
    loader = importlib.machinery.SourceFileLoader("chosen_keys", str(BINDINGS.parent / "tests" / "fuzz" / "chosen-keys"))
    chosen_keys = importlib.util.module_from_spec(importlib.util.spec_from_loader(loader.name, loader))
    loader.exec_module(chosen_keys)
    chosen = chosen_keys.keys_of_one_hash(count)
    for kind, keys in ("chosen", chosen), ("ordinary", chosen_keys.ordinary_keys(count, len(chosen[0]))):
        one, nulls = ({"value": dict.fromkeys(keys, value)} for value in (1, None))
        one, turned, nulls = json.dumps(one), json.dumps({"value": dict.fromkeys(reversed(keys), 1)}), json.dumps(nulls)
        yield f"{kind} keys, equal", lambda: ijson_proved.equal(one, turned)
        yield f"{kind} keys, merge_patch", lambda: ijson_proved.merge_patch(one, turned)
        yield f"{kind} keys, merge_patch with nulls", lambda: ijson_proved.merge_patch(one, nulls)


def seconds(call, turns):
    taken = []
    for _ in range(turns):
        start = time.process_time()
        call()
        taken.append(time.process_time() - start)
    return min(taken)


def main():
    parser = argparse.ArgumentParser(description=__doc__.splitlines()[0])
    parser.add_argument("--size", type=int, default=10_000_000, help="approximate bytes of the file (10,000,000)")
    parser.add_argument("--file", default="objects", help="a file of bench/generate.py (objects)")
    parser.add_argument("--turns", type=int, default=5, help="of each call (5)")
    parser.add_argument("--keys", type=int, metavar="N", help="time objects of N chosen keys instead")
    options = parser.parse_args()
    if options.keys:
        for name, call in key_rows(options.keys):
            print(f"{name}: {seconds(call, options.turns):.3f} s", flush=True)
        return
    with tempfile.TemporaryDirectory() as work:
        subprocess.run([sys.executable, BINDINGS.parent / "bench/generate.py", work, str(options.size), options.file], check=True)
        text = pathlib.Path(work, f"{options.file}.json").read_bytes()
    print(f"{len(text):,} bytes")
    print("| | ijson | json | orjson |\n|---|---|---|---|")
    for name, ways in rows(text, ijson_proved.compact(text).encode()).items():
        cells = [f"{seconds(ways[way], options.turns):.2f} s" if way in ways else "" for way in ("ijson", "json", "orjson")]
        print(f"| {name} | " + " | ".join(cells) + " |", flush=True)


main()
