#!/usr/bin/env python3
"""generate.py FOLDER SIZE NAME..: writes the named files, about SIZE bytes each (fewer for those of common_kinds.py), into the folder.
Each run writes the same bytes.

integers         one array of integers of 7 to 63 bits
fractions        one array of numbers with 2, 6 or 13 fraction digits
objects          records of 4 to 10 members: numbers, strings, words
strings          one array of strings of 1 to 11 words, some with escapes, some beyond ASCII
mixed            documents of objects, arrays and scalars, up to 40 deep
one_object       one object of 300,000 keys of up to 17 bytes
coordinates      2.0 MB: a map of polygons, numbers of 15 to 17 digits, no white space
catalogue        1.1 MB: pretty printed records with ids of nine digits and many nulls
messages         0.6 MB: pretty printed messages in Japanese, each of 14 members and an author of 22
numbers          numbers of all kinds with exponents
arrays           nested arrays
long_keys        records of 20 keys of 40 bytes
probabilities    numbers from 0 to 1 with 16 or 17 digits
identifiers      strings of 36 bytes that occur once
points           objects of two integers
"""

import sys

sys.dont_write_bytecode = True

import random

from common_kinds import catalogue, coordinates, messages


# The size in bytes up to which elements of an array are generated; a longer array repeats them.
MOST = 10_000_000


def number(rng):
    kind = rng.randrange(4)
    if kind == 0:
        return str(rng.randrange(-1000, 1000))
    if kind == 1:
        return str(rng.randrange(-(2**62), 2**62))
    if kind == 2:
        return f"{rng.uniform(-1000, 1000):.6f}"
    return f"{rng.uniform(-9, 9):.12f}e{rng.randrange(-300, 300)}"


def integer(rng):
    bits = rng.choice([7, 31, 53, 63])
    return str(rng.randrange(-(2**bits), 2**bits))


def fraction(rng):
    """Returns a price, a coordinate, or a number with all digits of a floating-point number."""
    places = rng.choice([2, 6, 13])
    return f"{rng.uniform(-1000, 1000):.{places}f}"


def probability(rng):
    """Returns a number below 1 with all digits of a floating-point number."""
    return repr(rng.random())


def identifier(rng):
    """Returns a string that occurs once."""
    return '"%08x-%04x-%04x-%04x-%012x"' % tuple(rng.getrandbits(bits) for bits in (32, 16, 16, 16, 48))


def point(rng):
    return '{"x": %d, "y": %d}' % (rng.randrange(1000), rng.randrange(1000))


def array_of(item):
    """Returns a function that generates an array of such elements, up to a size."""

    def make(rng, size):
        parts, total = [], 2
        while total < min(size, MOST):
            parts.append(item(rng))
            total += len(parts[-1].encode()) + 2
        return "[" + ", ".join([", ".join(parts)] * max(size // MOST, 1)) + "]\n"

    return make


def repeated(item):
    """Returns a function that generates an array that repeats one element, without white space."""
    return lambda rng, size: "[" + ",".join([item] * (size // (len(item) + 1))) + "]\n"


def nested(rng, depth):
    if depth == 0 or rng.randrange(8) == 0:
        return rng.choice(["null", "true", "false", "7", "[]"])
    return "[" + ", ".join(nested(rng, depth - 1) for _ in range(rng.randrange(1, 4))) + "]"


def shallow(rng):
    return nested(rng, 10)


WORDS = "alpha beta gamma delta epsilon zeta eta theta iota kappa lambda mu naïve café 東京 \\n \\\" \\u00e9 \\ud83d\\ude00".split(" ")


def string(rng):
    return '"' + " ".join(rng.choice(WORDS) for _ in range(rng.randrange(1, 12))) + '"'


KEYS = ["id", "name", "price", "quantity", "description", "created_at", "updated_at", "is_available", "tags", "category"]


def record(rng):
    members = []
    for key in rng.sample(KEYS, rng.randrange(4, len(KEYS) + 1)):
        value = rng.choice([number, string, lambda r: r.choice(["true", "false", "null"])])(rng)
        members.append(f'"{key}": {value}')
    return "{" + ", ".join(members) + "}"


def deep(rng, depth):
    kind = rng.randrange(6) if depth else rng.randrange(3)
    if kind == 0:
        return number(rng)
    if kind == 1:
        return string(rng)
    if kind == 2:
        return rng.choice(["true", "false", "null"])
    if kind in (3, 4):
        return "{" + ", ".join(f'"{key}": {deep(rng, depth - 1)}' for key in rng.sample(KEYS, rng.randrange(1, 4))) + "}"
    return "[" + ", ".join(deep(rng, depth - 1) for _ in range(rng.randrange(1, 4))) + "]"


def document(rng):
    return deep(rng, 40)


LONG_KEYS = [f"a_rather_long_key_of_the_column_number_{i}" for i in range(20)]


def row(rng):
    return "{" + ", ".join(f'"{key}": {rng.randrange(100)}' for key in LONG_KEYS) + "}"


def one_object(rng, size):
    """Returns one object, which has 300,000 keys if `size` is 10,000,000, and in proportion otherwise."""
    members = [f'"key number {i}": {i}' for i in range(size * 3 // 100)]
    rng.shuffle(members)
    return "{" + ", ".join(members) + "}\n"


FILES = {
    "integers": array_of(integer),
    "fractions": array_of(fraction),
    "objects": array_of(record),
    "strings": array_of(string),
    "mixed": array_of(document),
    "one_object": one_object,
    "numbers": array_of(number),
    "arrays": array_of(shallow),
    "long_keys": array_of(row),
    "probabilities": array_of(probability),
    "identifiers": array_of(identifier),
    "points": array_of(point),
    "coordinates": coordinates,
    "catalogue": catalogue,
    "messages": messages,
    "zeros": repeated("0"),
    "empty_arrays": repeated("[]"),
    "small_objects": repeated('{"":0}'),
    "deep_objects": repeated('{"":' * 126 + "0" + "}" * 126),
    "deep_arrays": repeated("[" * 126 + "0" + "]" * 126),
}


def main():
    folder, size, *names = sys.argv[1:]
    for name in names:
        rng = random.Random(20261122)
        with open(f"{folder}/{name}.json", "w", encoding="utf-8") as file:
            file.write(FILES[name](rng, int(size)))


main()
