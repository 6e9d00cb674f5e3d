"""Computes the bytes to write for a text, by command. Other processes run these functions, so they are in a module of their own."""

import hashlib

from ijson_proved import _calls


def compact(text: bytes) -> bytes:
    return _calls.compact(text).encode()


def canonical(text: bytes) -> bytes:
    return _calls.canonical(text).encode()


def get(pointer: str, text: bytes) -> bytes:
    return _calls.get(text, pointer).encode()


def merge_patch(patch: bytes, text: bytes) -> bytes:
    return _calls.merge_patch(text, patch).encode()


def hash(seed: int, text: bytes) -> bytes:
    return b"%016x" % _calls.hash(text, seed)


def equal(pair: tuple[bytes, bytes]) -> bytes:
    return b"true" if _calls.equal(*pair) else b"false"


def digest(text: bytes) -> bytes:
    """Returns 32 bytes that differ for texts of different values, unless blake2b collides."""
    return hashlib.blake2b(_calls.canonical(text).encode(), digest_size=32).digest()
