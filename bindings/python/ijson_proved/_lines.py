"""Works on files with one JSON text per line: in several processes, with the results in the order of the lines."""

from __future__ import annotations

import collections
import functools
import itertools
import multiprocessing
import signal
from concurrent.futures import Future, ProcessPoolExecutor
from typing import BinaryIO, Callable, Iterable, Iterator, TypeVar, Union

from ijson_proved._errors import Error

Item = TypeVar("Item")
Result = TypeVar("Result")
# The size, in bytes, of the lines that a process gets at a time.
CHUNK = 1 << 20


def line_chunks(file: BinaryIO) -> Iterator[list[bytes]]:
    """Yields the lines of a file in chunks, without their line feeds."""
    while lines := file.readlines(CHUNK):
        yield [line.removesuffix(b"\n") for line in lines]


def pair_chunks(first: BinaryIO, second: BinaryIO) -> Iterator[list[tuple[bytes, bytes]]]:
    """Yields pairs of lines of two files, in chunks. If a file has fewer lines, its missing lines are empty."""
    pairs = itertools.zip_longest(first, second, fillvalue=b"")
    while chunk := list(itertools.islice(pairs, 1000)):
        yield [(a.removesuffix(b"\n"), b.removesuffix(b"\n")) for a, b in chunk]


def _answers(job: Callable[[Item], bytes], items: list[Item]) -> list[Union[bytes, Error]]:
    answers: list[Union[bytes, Error]] = []
    for item in items:
        try:
            answers.append(job(item))
        except Error as error:
            answers.append(error)
    return answers


def _ignore_interrupts() -> None:
    """Ignores an interrupt of the terminal, since it ends the first process, which then ends the others."""
    signal.signal(signal.SIGINT, signal.SIG_IGN)


def _results(processes: int, work: Callable[[Item], Result], items: Iterable[Item]) -> Iterator[tuple[Item, Result]]:
    """Yields each item with its result, in order. Few items are read before the results of earlier items are taken."""
    if processes == 1:
        for item in items:
            yield item, work(item)
        return
    # A child that is forked from a process with threads must not call the library, so a server without threads starts
    # the children.
    pool = ProcessPoolExecutor(processes, multiprocessing.get_context("forkserver"), _ignore_interrupts)
    pending: collections.deque[tuple[Item, Future[Result]]] = collections.deque()
    try:
        for item in items:
            pending.append((item, pool.submit(work, item)))
            if len(pending) > 2 * processes:
                first, future = pending.popleft()
                yield first, future.result()
        for first, future in pending:
            yield first, future.result()
    finally:
        pool.shutdown(cancel_futures=True)


def answered(processes: int, job: Callable[[Item], bytes], chunks: Iterable[list[Item]]) -> Iterator[tuple[list[Item], list[Union[bytes, Error]]]]:
    """Yields each chunk with the answers to its items: the bytes that `job` returns, or its error."""
    return _results(processes, functools.partial(_answers, job), chunks)
