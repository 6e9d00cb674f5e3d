"""Tests of the functions with each allocation of the library failing in turn.

`bindings/check` sets IJSON_LIBRARY to a library with `fail_at` of c/failing.c.
"""

import ctypes
import itertools
import unittest

import ijson_proved
from ijson_proved import _library

OWNER = '{"a":["a string of more than 7 bytes",1234567890123456789012345678901234567890]}'
CALLS = {
    "compact": lambda: ijson_proved.compact(OWNER),
    "canonical": lambda: ijson_proved.canonical(OWNER),
    "get": lambda: ijson_proved.get(OWNER, "/a"),
    "merge_patch": lambda: ijson_proved.merge_patch(OWNER, OWNER),
    "equal": lambda: ijson_proved.equal(OWNER, OWNER),
    "hash": lambda: ijson_proved.hash(OWNER, 1),
}


class Allocations(unittest.TestCase):
    def test_each_failure_is_a_memory_error(self):
        fail_at = ctypes.c_long.in_dll(_library.LIBRARY, "fail_at")
        for name, call in CALLS.items():
            want, errors = call(), 0
            for number in itertools.count(1):
                fail_at.value = number
                try:
                    # If a list cannot be shrunk, it is used with its spare capacity.
                    self.assertEqual(call(), want, name)
                except MemoryError:
                    errors += 1
                if fail_at.value > 0:
                    break
            fail_at.value = 0
            self.assertGreater(errors, 3, name)


if __name__ == "__main__":
    unittest.main()
