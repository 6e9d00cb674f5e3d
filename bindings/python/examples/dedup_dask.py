"""Writes the first of each set of equal lines, like `python3 -m ijson_proved dedup --lines`, on the machines of a dask cluster.

usage: dedup_dask.py [--scheduler ADDRESS] [--workers N] [--block BYTES] FILE..

Each machine needs ijson_proved, and the files at the same paths, since it reads its own blocks of them. Without
--scheduler, N processes of this machine are the cluster. A line that is not JSON ends the run.
"""

import argparse
import hashlib
import sys

import dask
from dask.bytes import read_bytes
from distributed import Client, LocalCluster

import ijson_proved

KEY = 32


def lines_of(block):
    """Returns the lines of a block."""
    return block.removesuffix(b"\n").split(b"\n") if block else []


def keys(block):
    """Returns the concatenated keys of the lines of a block. Equal lines have equal keys."""
    return b"".join(hashlib.blake2b(ijson_proved.canonical(line).encode(), digest_size=KEY).digest() for line in lines_of(block))


def firsts(keys_of_blocks):
    """Returns for each block a byte per line: 1 if no earlier line has the key of the line, else 0."""
    seen, found = set(), []
    for block in keys_of_blocks:
        each = [block[at : at + KEY] for at in range(0, len(block), KEY)]
        found.append(bytes(key not in seen and not seen.add(key) for key in each))
    return found


def chosen(block, are_first):
    """Returns the lines of a block that are the first lines with their keys."""
    return b"".join(line + b"\n" for line, is_first in zip(lines_of(block), are_first) if is_first)


def first_lines(files, block_size):
    """Returns the first line of each set of equal lines, in the order of the files, as a text for each block.

    Only the keys are collected on one machine.
    """
    _, files = read_bytes(files, delimiter=b"\n", blocksize=block_size, sample=False)
    blocks = [block for file in files for block in file]
    are_first = dask.delayed(firsts, nout=len(blocks))([dask.delayed(keys)(block) for block in blocks])
    return dask.compute(*(dask.delayed(chosen)(block, are_first[at]) for at, block in enumerate(blocks)))


def main():
    parser = argparse.ArgumentParser(description=__doc__.splitlines()[0])
    parser.add_argument("--scheduler", metavar="ADDRESS", help="of a cluster, as tcp://host:8786")
    parser.add_argument("--workers", type=int, metavar="N", help="processes without --scheduler (by the processors)")
    parser.add_argument("--block", type=int, default=16_000_000, metavar="BYTES", help="to read at a time (16,000,000)")
    parser.add_argument("files", nargs="+", metavar="FILE")
    options = parser.parse_args()
    cluster = options.scheduler or LocalCluster(n_workers=options.workers, threads_per_worker=1, dashboard_address=None)
    with Client(cluster):
        for text in first_lines(options.files, options.block):
            sys.stdout.buffer.write(text)


if __name__ == "__main__":
    main()
