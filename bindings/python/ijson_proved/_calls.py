"""The functions of the package."""

from __future__ import annotations

import ctypes
import mmap
import operator
import secrets
from typing import Any, Union

from ijson_proved._errors import Error, NotJsonError, NotPointerError, NotUtf8Error, NoValueError, NumberRangeError, TooDeepError
from ijson_proved._library import LIBRARY, Outcome, Status

Text = Union[str, bytes, bytearray, memoryview]

# The seed is random, so that nobody who does not know it can choose strings that collide.
SEED = secrets.randbits(64)
# An output of at least this size, in bytes, has pages that the kernel clears when they are first used.
MAPPED = 1 << 20
FAULTS = {Status.NOT_UTF8: NotUtf8Error, Status.SYNTAX: NotJsonError, Status.TOO_DEEP: TooDeepError, Status.NUMBER_RANGE: NumberRangeError}
POINTER_FAULTS = {Status.NOT_POINTER: NotPointerError, Status.NOTHING: NoValueError}


def _bytes(text: Text) -> bytes:
    """Returns the bytes of a text, which do not change while another thread runs."""
    if isinstance(text, str):
        return text.encode("utf-8", "surrogatepass")
    if isinstance(text, (bytes, bytearray, memoryview)):
        return bytes(text)
    raise TypeError(f"a text is str, bytes, bytearray or memoryview, not {type(text).__name__}")


def _error(outcome: Outcome, texts: dict[str, bytes]) -> Exception:
    """Returns the exception for an outcome."""
    try:
        status = Status(outcome.status)
    except ValueError:
        return RuntimeError(f"libijson.so returned the unknown status {outcome.status}")
    if status == Status.MEMORY:
        return MemoryError()
    if status in POINTER_FAULTS:
        return POINTER_FAULTS[status]("pointer", 1, 0, 1, 1)
    argument, given = list(texts.items())[outcome.text]
    offset = outcome.offset
    if status == Status.NOT_UTF8:
        try:
            given.decode("utf-8")
        except UnicodeDecodeError as error:
            offset = error.start
    start = given.rfind(b"\n", 0, offset) + 1
    line, column = given.count(b"\n", 0, offset) + 1, len(given[start:offset].decode("utf-8")) + 1
    return FAULTS[status](argument, outcome.text, offset, line, column)


def _done(name: str, texts: dict[str, bytes], *others: Any) -> bool:
    """Calls a function with texts and its other arguments, and returns `False` if the output is too short.

    # Errors

    Raises the exception for the outcome.
    """
    pieces = [piece for text in texts.values() for piece in (text, len(text))]
    outcome = getattr(LIBRARY, f"ijson_{name}")(SEED, *pieces, *others)
    if outcome.status not in (Status.OK, Status.TOO_SHORT):
        raise _error(outcome, texts)
    return bool(outcome.status == Status.OK)


def _output(room: int) -> bytearray | mmap.mmap:
    if room < MAPPED:
        return bytearray(room)
    try:
        return mmap.mmap(-1, room)
    except OSError as error:
        raise MemoryError from error


def _written(name: str, **given: Text) -> str:
    """Returns the text that a function writes for the given texts.

    The first output has the length of all texts together, which suffices unless a number is written with more digits.
    Otherwise the second output has the length that the first call returned.
    """
    texts = {argument: _bytes(text) for argument, text in given.items()}
    length = ctypes.c_size_t(sum(map(len, texts.values())) + 64)
    while True:
        output = _output(length.value)
        start = ctypes.c_char.from_buffer(output)
        if _done(name, texts, ctypes.byref(start), len(output), ctypes.byref(length)):
            return str(memoryview(output)[: length.value], "utf-8")


def compact(text: Text) -> str:
    """Returns the text without white space. Entries keep their order; a duplicate key keeps its first index and its last value."""
    return _written("compact", text=text)


def canonical(text: Text) -> str:
    """Returns the canonical text. Two texts have the same canonical text exactly if their values are equal."""
    return _written("canonical", text=text)


def get(text: Text, pointer: Text) -> str:
    """Returns the compact text of the value at a JSON Pointer (RFC 6901).

    >>> get('{"a/b": null}', '/a~1b')
    'null'
    >>> get('[1]', '/1')
    Traceback (most recent call last):
        ...
    ijson_proved.NoValueError: no value at the pointer
    >>> get('[1]', '1')
    Traceback (most recent call last):
        ...
    ijson_proved.NotPointerError: not a JSON Pointer
    """
    return _written("get", text=text, pointer=pointer)


def merge_patch(target: Text, patch: Text) -> str:
    """Returns the compact text of `target` after a JSON Merge Patch (RFC 7396)."""
    return _written("merge_patch", target=target, patch=patch)


def equal(first: Text, second: Text) -> bool:
    """Returns `True` if two texts have equal values: numbers by value, objects in any order of entries.

    >>> equal('0.1', '0.1000000000000000055511151231257827')
    False
    """
    result = ctypes.c_uint8()
    _done("equal", {"first": _bytes(first), "second": _bytes(second)}, ctypes.byref(result))
    return result.value == 1


def hash(text: Text, seed: int | None = None) -> int:
    """Returns a hash of 64 bits, which is the same for texts of equal values and the same seed.

    The default is a random seed of this process.
    """
    number = SEED if seed is None else operator.index(seed)
    if not 0 <= number < 1 << 64:
        raise ValueError("a seed is from 0 to 2^64 - 1")
    result = ctypes.c_uint64()
    _done("hash", {"text": _bytes(text)}, number, ctypes.byref(result))
    return result.value
