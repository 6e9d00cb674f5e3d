"""Tests of the functions: texts of each type, outputs of any size, positions of errors, and the library that is loaded."""

import copy
import ctypes
import doctest
import json
import os
import pathlib
import pickle
import subprocess
import sys
import unittest
from decimal import Decimal
from unittest import mock

import ijson_proved
from ijson_proved import _calls, _library

FOLDER = pathlib.Path(ijson_proved.__file__).parent.parent


def load_tests(loader, tests, pattern):
    tests.addTests([doctest.DocTestSuite(ijson_proved), doctest.DocTestSuite(_calls)])
    return tests


class Texts(unittest.TestCase):
    def test_str_and_bytes_are_texts(self):
        self.assertEqual(ijson_proved.compact(b' ["\xc3\xa9"] '), '["é"]')
        self.assertEqual(ijson_proved.compact(bytearray(b"[ ]")), "[]")
        self.assertEqual(ijson_proved.compact(memoryview(b"[ 1, 2 ]")[2:4].obj), "[1,2]")
        self.assertEqual(ijson_proved.compact(memoryview(b"-[ 1 ]-")[1:-1]), "[1]")
        self.assertEqual(ijson_proved.compact(memoryview(b"1x2")[::2]), "12")
        self.assertEqual(ijson_proved.get('{"k": [1]}', b"/k"), "[1]")

    def test_nothing_else_is_a_text(self):
        for other in 5, True, None, 1.5, [91, 93], range(3), object():
            with self.assertRaises(TypeError):
                ijson_proved.compact(other)
            with self.assertRaises(TypeError):
                ijson_proved.equal("1", other)
            with self.assertRaises(TypeError):
                ijson_proved.get("1", other)

    def test_an_output_that_is_longer_than_the_texts_is_written(self):
        for count in 5, 5000, 200_000:
            text = "[" + ",".join(["1e20"] * count) + "]"
            self.assertEqual(json.loads(ijson_proved.compact(text), parse_float=Decimal), [Decimal("1e20")] * count)

    def test_a_nul_is_a_character_of_a_text(self):
        self.assertEqual(ijson_proved.get('{"\\u0000":1}', "/\0"), "1")

    @unittest.skipUnless(os.environ.get("IJSON_LARGE"), "8 GiB of memory, by IJSON_LARGE=1")
    def test_an_output_past_4_gib_is_not_cut(self):
        length = (1 << 32) + 5

        def fill(seed, text, count, output, room, result):
            result._obj.value = length
            return _library.Outcome(_library.Status.TOO_SHORT if room < length else _library.Status.OK, 0, 0)

        with mock.patch.object(_calls, "LIBRARY", mock.Mock(ijson_compact=fill)):
            self.assertEqual(len(ijson_proved.compact("")), length)


class Hashes(unittest.TestCase):
    def test_a_hash_is_that_of_the_value_and_the_seed(self):
        self.assertEqual(ijson_proved.hash("[1, 2]"), ijson_proved.hash(b"[1.0,2e0]"))
        self.assertNotEqual(ijson_proved.hash("1", seed=1), ijson_proved.hash("1", seed=2))
        self.assertNotEqual(ijson_proved.hash("1", seed=0), ijson_proved.hash("1", seed=2**64 - 1))

    def test_a_text_is_not_read_with_the_seed_of_its_hash(self):
        seeds = []

        def hashed(seed, text, count, hash_seed, result):
            seeds.append((seed, hash_seed))
            return _library.Outcome(_library.Status.OK, 0, 0)

        with mock.patch.object(_calls, "LIBRARY", mock.Mock(ijson_hash=hashed)):
            ijson_proved.hash("1", 7)
        self.assertEqual(seeds, [(_calls.SEED, 7)])

    def test_a_seed_has_64_bits(self):
        for seed in -1, 2**64, 2**64 + 7:
            with self.assertRaises(ValueError):
                ijson_proved.hash("1", seed)
        with self.assertRaises(TypeError):
            ijson_proved.hash("1", 1.5)

    def test_the_hash_of_python_is_not_hidden(self):
        names = {}
        exec("from ijson_proved import *", names)
        self.assertNotIn("hash", names)
        self.assertIs(names["compact"], ijson_proved.compact)


class Errors(unittest.TestCase):
    def error(self, kind, call, *texts):
        with self.assertRaises(kind) as caught:
            call(*texts)
        return caught.exception

    def place(self, kind, call, *texts):
        error = self.error(kind, call, *texts)
        return error.argument, error.text, error.offset, error.line, error.column

    def test_an_error_has_its_place(self):
        compact, merge_patch = ijson_proved.compact, ijson_proved.merge_patch
        self.assertEqual(self.place(ijson_proved.NotJsonError, compact, '["é",\n "é" 1]'), ("text", 0, 13, 2, 6))
        self.assertEqual(self.place(ijson_proved.TooDeepError, ijson_proved.canonical, "[" * 128), ("text", 0, 127, 1, 128))
        self.assertEqual(self.place(ijson_proved.NumberRangeError, ijson_proved.equal, "1", "\n1e2000000000"), ("second", 1, 1, 2, 1))
        self.assertEqual(self.place(ijson_proved.NotJsonError, merge_patch, "{}", "{"), ("patch", 1, 1, 1, 2))
        self.assertEqual(self.place(ijson_proved.NotJsonError, merge_patch, "{", "{"), ("target", 0, 1, 1, 2))
        self.assertEqual(self.place(ijson_proved.NotUtf8Error, merge_patch, "{}", b'\n"\xc3\xa9\xff"'), ("patch", 1, 4, 2, 3))
        self.assertEqual(self.place(ijson_proved.NotUtf8Error, compact, '"\ud800"'), ("text", 0, 1, 1, 2))

    def test_a_wrong_pointer_differs_from_a_missing_value(self):
        get = ijson_proved.get
        self.assertEqual(self.place(ijson_proved.NotPointerError, get, "[1]", "~"), ("pointer", 1, 0, 1, 1))
        self.assertEqual(self.place(ijson_proved.NotPointerError, get, "[1]", b"/\xff"), ("pointer", 1, 0, 1, 1))
        self.assertEqual(self.place(ijson_proved.NoValueError, get, "[1]", "/1"), ("pointer", 1, 0, 1, 1))
        self.error(ijson_proved.NotJsonError, get, "[1", "~")

    def test_errors_are_python_s_as_well(self):
        for kind in ijson_proved.Error, ValueError:
            self.error(kind, ijson_proved.compact, "")
            self.error(kind, ijson_proved.get, "1", "1")
        for kind in ijson_proved.Error, LookupError:
            self.error(kind, ijson_proved.get, "1", "/1")

    def test_an_error_can_be_copied_and_sent(self):
        for call, texts in (ijson_proved.equal, ("1", "\n[1 2]")), (ijson_proved.get, ("1", "/1")), (ijson_proved.get, ("1", "1")):
            error = self.error(ijson_proved.Error, call, *texts)
            for other in copy.copy(error), copy.deepcopy(error), pickle.loads(pickle.dumps(error)):
                self.assertIs(type(other), type(error))
                self.assertEqual((vars(other), str(other)), (vars(error), str(error)))

    def test_an_unknown_status_is_no_known_error(self):
        unknown = mock.Mock(ijson_equal=lambda *_: _library.Outcome(99, 0, 0))
        with mock.patch.object(_calls, "LIBRARY", unknown):
            self.assertIn("99", str(self.error(RuntimeError, ijson_proved.equal, "1", "1")))

    def test_memory_that_ran_out_is_a_memory_error(self):
        refusing = mock.Mock(ijson_equal=lambda *_: _library.Outcome(_library.Status.MEMORY, 0, 0))
        with mock.patch.object(_calls, "LIBRARY", refusing):
            self.error(MemoryError, ijson_proved.equal, "1", "1")


class Library(unittest.TestCase):
    def test_a_missing_library_is_an_import_error(self):
        environment = {**os.environ, "IJSON_LIBRARY": "/nowhere/libijson.so", "PYTHONPATH": str(FOLDER)}
        code = "try:\n    import ijson_proved\nexcept ImportError as error:\n    print(error)"
        done = subprocess.run([sys.executable, "-B", "-c", code], env=environment, capture_output=True, text=True)
        self.assertEqual(done.stderr, "")
        for part in "/nowhere/libijson.so", "bindings/build --wheel", "IJSON_LIBRARY":
            self.assertIn(part, done.stdout)

    def test_the_parameters_are_declared(self):
        for name in _library._PARAMETERS:
            self.assertEqual(getattr(_library.LIBRARY, f"ijson_{name}").argtypes[0], ctypes.c_uint64)

    def test_the_version_has_three_numbers(self):
        self.assertRegex(ijson_proved.__version__, r"^\d+\.\d+\.\d+$")


if __name__ == "__main__":
    unittest.main()
