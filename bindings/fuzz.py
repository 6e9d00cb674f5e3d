#!/usr/bin/env python3
"""Calls the functions of the shared library with random texts, and compares each result with one computed by Python's `json` and `decimal`.

usage: bindings/fuzz.py [--seconds N] [--order N] [FUNCTION..]

A function that writes is called with an output of each length from 0 to the necessary length, in a buffer with more
bytes after it. Half of the texts are texts of tests/fuzz after up to three random changes; the others have random
values. `tests/fuzz/answers.py` decides which texts are JSON. A pointer is a path into the value, and a second text is
the first with another spelling; both may be changed too. Prints for each function the number of inputs, of calls, and
of inputs that failed. The status is 0 if no input failed.
"""

import sys

sys.dont_write_bytecode = True

import argparse
import ctypes
import json
import pathlib
import random
import time
from decimal import Decimal

BINDINGS = pathlib.Path(__file__).resolve().parent
sys.path[:0] = [str(BINDINGS.parent / "tests" / "fuzz"), str(BINDINGS / "python")]

from answers import answer, quoted
from ijson_proved._library import LIBRARY, Status
from seeds import SEEDS, STATED

SEED = 0x5EED
OK, NOT_UTF8, SYNTAX, TOO_DEEP, NUMBER_RANGE, MEMORY, TOO_SHORT, NOT_POINTER, NOTHING = Status
STATUSES = {"syntax": SYNTAX, "nesting too deep": TOO_DEEP, "number out of range": NUMBER_RANGE}
TEXTS = SEEDS + [text for text, _ in STATED if len(text) < 300]
LIKELY = b'[]{}",:\\ \n\t-+.eEu0123456789tfnabd~/\x00\x1f\x7f\x80\xc3\xed\xf0\xff'
AFTER = 32
MASK = 2**64 - 1


class Failed(Exception):
    """A result that differs from the expected result."""


# ---- values: numbers are represented by their compact text


class Number(str):
    """A number, represented by its compact text."""

    __slots__ = ()


def value_of(text, which=0):
    """Returns the value of a text and None, or None and the outcome of the error."""
    out, err, status = answer(text)
    if status == 0:
        return json.loads(out, parse_int=Number, parse_float=Number), None
    fault, _, place = err.decode().removeprefix("ijson: ").strip().partition(" at byte ")
    return None, (STATUSES[fault], which, int(place)) if place else (NOT_UTF8, which, 0)


def written(value, number=str, order=list):
    if value is None or isinstance(value, bool):
        return json.dumps(value)
    if isinstance(value, Number):
        return number(value)
    if isinstance(value, str):
        return quoted(value)
    if isinstance(value, list):
        return "[" + ",".join(written(item, number, order) for item in value) + "]"
    return "{" + ",".join(quoted(key) + ":" + written(value[key], number, order) for key in order(value)) + "}"


def digits_of(number):
    """Returns the sign, the digits without trailing zeros and the exponent of a number; zero has no digits."""
    sign, digits, exponent = Decimal(number).as_tuple()
    stripped = "".join(map(str, digits)).lstrip("0").rstrip("0")
    return sign, stripped, exponent + len(digits) - len("".join(map(str, digits)).rstrip("0"))


def canonical_number(number):
    sign, digits, exponent = digits_of(number)
    return ("-" if sign else "") + f"{digits}e{exponent}" if digits else "0"


def canonical(value):
    return written(value, canonical_number, lambda members: sorted(members, key=str.encode))


def same(a, b):
    if type(a) is not type(b):
        return False
    if isinstance(a, Number):
        return Decimal(a) == Decimal(b)
    if isinstance(a, list):
        return len(a) == len(b) and all(map(same, a, b))
    if isinstance(a, dict):
        return a.keys() == b.keys() and all(same(a[key], b[key]) for key in a)
    return a == b


def merged(target, patch):
    """Returns the target after a merge patch, by RFC 7396, section 2."""
    if not isinstance(patch, dict):
        return patch
    result = dict(target) if isinstance(target, dict) else {}
    for key, change in patch.items():
        if change is None:
            result.pop(key, None)
        else:
            result[key] = merged(result.get(key), change)
    return result


def resolved(value, pointer):
    """Returns the value at a pointer (RFC 6901) and OK, or None and the status."""
    try:
        text = pointer.decode("utf-8")
    except UnicodeDecodeError:
        return None, NOT_POINTER
    tokens = text.split("/")
    if tokens[0] or any(part[:1] not in ("0", "1") for token in tokens for part in token.split("~")[1:]):
        return None, NOT_POINTER
    for token in tokens[1:]:
        key = token.replace("~1", "/").replace("~0", "~")
        if isinstance(value, dict) and key in value:
            value = value[key]
        elif isinstance(value, list) and token.isascii() and token.isdigit() and str(int(token)) == token and int(token) < len(value):
            value = value[int(token)]
        else:
            return None, NOTHING
    return value, OK


def folded(words):
    state = 14695981039346656037
    for word in words:
        state = (state * 1099511628211 + word) & MASK
    return state


def text_words(text):
    return [3, len(text.encode()), *text.encode()]


def words(value):
    if value is None:
        return [0]
    if isinstance(value, bool):
        return [1, int(value)]
    if isinstance(value, Number):
        sign, digits, exponent = digits_of(value)
        return [2, 1 + sign, exponent + 2**31, len(digits), *map(int, digits)] if digits else [2, 0]
    if isinstance(value, str):
        return text_words(value)
    if isinstance(value, list):
        return [4, len(value), *(word for item in value for word in words(item))]
    return [5, len(value), sum(folded(text_words(key) + words(item)) for key, item in value.items()) & MASK]


def hashed(seed, value):
    """Returns the hash of the seed and the words of a value, as std's FoldHasher computes it from writes of eight bytes."""
    state = 0x243F6A8885A308D3
    for word in [seed, *words(value)]:
        product = (state ^ word) * (0x9E3779B97F4A7C15 ^ 16)
        state = (product & MASK) ^ (product >> 64)
    return state


# ---- inputs


def random_number(rng):
    digits = "".join(rng.choice("0123456789") for _ in range(rng.choice([1, 1, 2, 5, 18, 25])))
    fraction = "." + rng.choice(["0", "5", "50", digits]) if rng.randrange(2) else ""
    exponent = rng.choice("eE") + rng.choice(["", "+", "-"]) + str(rng.choice([0, 1, 7, 21, 400])) if not rng.randrange(3) else ""
    return rng.choice(["", "-"]) + (digits.lstrip("0") or "0") + fraction + exponent


def random_string(rng):
    characters = (rng.choice("ab~/\"\\\n\x01 é東\U0001f600") * rng.choice([1, 1, 1, 9]) for _ in range(rng.choice([0, 1, 1, 2, 3, 12])))
    return quoted("".join(characters))


def random_text(rng, depth=4):
    """Returns a JSON text of a random value, with white space."""
    space = rng.choice(["", "", " ", "\n\t"])
    kind = rng.randrange(9 if depth else 5)
    if kind < 2:
        return space + random_number(rng)
    if kind < 4:
        return random_string(rng) + space
    if kind == 4:
        return rng.choice(["null", "true", "false"])
    parts = range(rng.choice([0, 1, 2, 3, 3, 10]))
    if kind < 7:
        return "[" + ",".join(random_text(rng, depth - 1) for _ in parts) + space + "]"
    return "{" + ",".join(space + random_string(rng) + ":" + random_text(rng, depth - 1) for _ in parts) + "}"


def changed(rng, text, most=3):
    """Returns the text after up to `most` changes: a byte is replaced, removed or inserted, or the text is cut."""
    for _ in range(rng.randrange(most + 1)):
        at = rng.randrange(len(text) + 1)
        byte = bytes([rng.choice(LIKELY) if rng.randrange(2) else rng.randrange(256)])
        text = text[:at] + rng.choice([b"", byte]) + rng.choice([text[at:], text[at + 1 :], text[at + 1 :], b""])
    return text


def input_of(rng, number):
    """Returns the text number `number`: first the texts of tests/fuzz, then random or changed texts.

    The texts of tests/fuzz get up to three changes, and random texts up to one.
    """
    if number < len(TEXTS):
        return TEXTS[number]
    return changed(rng, random_text(rng).encode(), rng.choice([0, 0, 1])) if rng.randrange(2) else changed(rng, rng.choice(TEXTS))


def respelled_number(rng, number):
    sign, digits, exponent = digits_of(number)
    zeros = rng.randrange(4)
    return ("-" if sign else "") + f"{digits or '0'}{'0' * zeros}{rng.choice('eE')}{exponent - zeros}" if rng.randrange(2) else str(number)


def respelled(rng, value):
    """Returns a text of a value that is equal, or nearly equal."""
    text = written(value, lambda number: respelled_number(rng, number), lambda members: rng.sample(list(members), len(members)))
    if not rng.randrange(3):
        return changed(rng, text.encode(), 1)
    digits = [at for at, character in enumerate(text) if character.isdigit()]
    if digits and rng.randrange(2):
        at = rng.choice(digits)
        text = text[:at] + rng.choice("123456789") + text[at + 1 :]
    return text.encode()


def path_into(rng, value):
    """Returns a pointer to a part of a value, which is sometimes changed."""
    pointer = ""
    while isinstance(value, (dict, list)) and value and rng.randrange(5):
        key = rng.choice(list(value) if isinstance(value, dict) else range(len(value)))
        pointer += "/" + str(key).replace("~", "~0").replace("/", "~1")
        value = value[key]
    pointer = pointer.encode()
    return changed(rng, pointer, 2) if rng.randrange(3) == 0 else pointer


def patch_of(rng, value):
    """Returns a patch in which some entries of the value are changed, removed or new."""
    if not isinstance(value, dict) or not rng.randrange(4):
        return json.loads(answer(rng.choice(SEEDS))[0], parse_int=Number, parse_float=Number)
    patch = {key: rng.choice([None, Number("7"), patch_of(rng, item)]) for key, item in value.items() if rng.randrange(2)}
    return patch | {"new": rng.choice([None, {"inner": None, "kept": []}])}


# ---- calls


def arguments(texts):
    return [part for text in texts for part in (text, len(text))]


def call_writing(name, texts, wanted, outcome):
    """Calls a function with outputs of each length, and returns the number of calls.

    `wanted` has the bytes to be written, or None if an error is expected.
    """
    call, length = getattr(LIBRARY, f"ijson_{name}"), ctypes.c_size_t()
    need = len(wanted) if wanted is not None else 0
    before = b"\xa5" * (need + AFTER)
    buffer = ctypes.create_string_buffer(before, len(before))
    rooms = range(need + 2) if wanted is not None else [0, 1, 8]
    for room in rooms:
        ctypes.memmove(buffer, before, len(before))
        length.value = 12345
        got = call(SEED, *arguments(texts), buffer, room, ctypes.byref(length))
        now, got = buffer.raw, (got.status, got.text, got.offset)
        if wanted is None:
            right = got == outcome and length.value == 0 and now == before
        elif room < need:
            right = got == (TOO_SHORT, 0, 0) and length.value == need and now == before
        else:
            right = got == (OK, 0, 0) and length.value == need and now == wanted + before[need:]
        if not right:
            raise Failed(name, texts, room, got, length.value, now[:room], wanted, outcome)
    return len(rooms)


def call_number(name, texts, kind, wanted, outcome, *others):
    result = kind(77)
    got = getattr(LIBRARY, f"ijson_{name}")(SEED, *arguments(texts), *others, ctypes.byref(result))
    if (got.status, got.text, got.offset) != (outcome or (OK, 0, 0)) or result.value != (0 if outcome else wanted):
        raise Failed(name, texts, (got.status, got.text, got.offset), result.value, wanted, outcome)
    return 1


def line(value, fault, write=written):
    return None if fault else write(value).encode()


def both(first, second):
    """Returns the values of two texts and None, or the outcome if one of them has no value."""
    a, fault = value_of(first)
    b, second_fault = value_of(second, 1)
    return a, b, fault or second_fault


def some_value(rng, text):
    """Returns the value of a text, or of another text if it has no value."""
    value, fault = value_of(text)
    return value_of(rng.choice(SEEDS))[0] if fault else value


def try_compact(rng, text):
    value, fault = value_of(text)
    return call_writing("compact", [text], line(value, fault), fault)


def try_canonical(rng, text):
    value, fault = value_of(text)
    return call_writing("canonical", [text], line(value, fault, canonical), fault)


def try_get(rng, text):
    pointer = path_into(rng, some_value(rng, text))
    value, fault = value_of(text)
    if not fault:
        value, status = resolved(value, pointer)
        fault = (status, 0, 0) if status else None
    return call_writing("get", [text, pointer], line(value, fault), fault)


def try_merge_patch(rng, text):
    patch = changed(rng, written(patch_of(rng, some_value(rng, text))).encode(), rng.choice([0, 0, 1]))
    a, b, fault = both(text, patch)
    return call_writing("merge_patch", [text, patch], None if fault else written(merged(a, b)).encode(), fault)


def try_equal(rng, text):
    other = respelled(rng, some_value(rng, text))
    if rng.randrange(8) == 0:
        text, other = other, text
    a, b, fault = both(text, other)
    return call_number("equal", [text, other], ctypes.c_uint8, int(same(a, b)), fault)


def try_hash(rng, text):
    seed = rng.getrandbits(64)
    value, fault = value_of(text)
    calls = call_number("hash", [text], ctypes.c_uint64, hashed(seed, value), fault, seed)
    if not fault:
        other = respelled(rng, value)
        value, fault = value_of(other)
        calls += call_number("hash", [other], ctypes.c_uint64, hashed(seed, value), fault, seed)
    return calls


FUNCTIONS = {"compact": try_compact, "canonical": try_canonical, "get": try_get, "merge_patch": try_merge_patch, "equal": try_equal,
             "hash": try_hash}


def main():
    parser = argparse.ArgumentParser(description=__doc__.splitlines()[0])
    parser.add_argument("functions", nargs="*", metavar="FUNCTION", help=", ".join(FUNCTIONS))
    parser.add_argument("--seconds", type=float, default=60, help="for each function (60)")
    parser.add_argument("--order", type=int, default=1, help="the same number gives the same inputs (1)")
    options = parser.parse_args()
    bad = 0
    for name in options.functions or FUNCTIONS:
        rng, end = random.Random(f"{name} {options.order}"), time.monotonic() + options.seconds
        inputs = calls = failed = 0
        while time.monotonic() < end:
            text = input_of(rng, inputs)
            inputs += 1
            try:
                calls += FUNCTIONS[name](rng, text)
            except Failed as error:
                failed += 1
                if failed <= 5:
                    print(*error.args, sep="\n    ", file=sys.stderr)
        print(f"{name}: {inputs} inputs, {calls} calls, {failed} failed", flush=True)
        bad += failed
    sys.exit(1 if bad else 0)


if __name__ == "__main__":
    main()
