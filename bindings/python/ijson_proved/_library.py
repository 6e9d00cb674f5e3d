"""The shared library, with the functions of `ijson.h`."""

from __future__ import annotations

import ctypes
import enum
import os
import pathlib


class Status(enum.IntEnum):
    """The statuses of `ijson.h`."""

    OK = 0
    NOT_UTF8 = 1
    SYNTAX = 2
    TOO_DEEP = 3
    NUMBER_RANGE = 4
    MEMORY = 5
    TOO_SHORT = 6
    NOT_POINTER = 7
    NOTHING = 8


class Outcome(ctypes.Structure):
    """The result of each function of the library."""

    _fields_ = [("status", ctypes.c_uint32), ("text", ctypes.c_uint32), ("offset", ctypes.c_size_t)]
    status: int
    text: int
    offset: int


_TEXT = [ctypes.c_char_p, ctypes.c_size_t]
_OUTPUT = [ctypes.POINTER(ctypes.c_char), ctypes.c_size_t, ctypes.POINTER(ctypes.c_size_t)]
# The parameters of each function, after the seed.
_PARAMETERS = {
    "compact": [*_TEXT, *_OUTPUT],
    "canonical": [*_TEXT, *_OUTPUT],
    "get": [*_TEXT, *_TEXT, *_OUTPUT],
    "merge_patch": [*_TEXT, *_TEXT, *_OUTPUT],
    "equal": [*_TEXT, *_TEXT, ctypes.POINTER(ctypes.c_uint8)],
    "hash": [*_TEXT, ctypes.c_uint64, ctypes.POINTER(ctypes.c_uint64)],
}


def path() -> str:
    """Returns the path of the library: from `IJSON_LIBRARY`, next to this file, or in `bindings/out` of the repository."""
    folder = pathlib.Path(__file__).resolve().parent
    places = [folder / "libijson.so", folder.parent.parent / "out" / "libijson.so"]
    return os.environ.get("IJSON_LIBRARY") or str(next((place for place in places if place.exists()), places[0]))


def load() -> ctypes.CDLL:
    """Returns the library, with the types of its functions."""
    try:
        library = ctypes.CDLL(path())
    except OSError as error:
        raise ImportError(f"{error}. Install the wheel that `bindings/build --wheel` makes, or set IJSON_LIBRARY to the path of libijson.so",
                          name="ijson_proved", path=path()) from error
    for name, parameters in _PARAMETERS.items():
        function = getattr(library, f"ijson_{name}")
        function.argtypes, function.restype = [ctypes.c_uint64, *parameters], Outcome
    return library


LIBRARY = load()
