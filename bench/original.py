"""Builds the programs of baseline/ over the Rust crate `ijson`, from a folder with its sources.

A file of the folder is named by its path, for example src--src--value--mod.rs.txt. A body that is left out of the
sources panics. These bodies work on numbers that are not integers of 64 bits, so a file with such a number is left out,
and named under the tables. Objects lose their order, so they are compared as maps.

Debian's packages librust-serde-json-dev, librust-dashmap-dev, librust-indexmap-dev and librust-lazy-static-dev have the
dependencies of the crate.
"""

import pathlib
import re

import peers
from tables import ORIGINAL

CRATE = peers.KEPT / "original"
MANIFEST = """[package]
name = "ijson"
version = "0.1.7"
edition = "2021"

[features]
default = ["arbitrary_precision", "indexmap"]
arbitrary_precision = ["serde_json/arbitrary_precision", "serde_json/raw_value"]

[dependencies]
dashmap = { version = "5", features = ["raw-api"] }
indexmap = { version = "1", optional = true }
lazy_static = "1"
serde = "1"
serde_json = "1"
"""
# Differences of the programs from the programs over serde_json.
DIFFERENT = {
    "use serde_json::Value;": "use ijson::IValue as Value;",
    "Value::as_str": "|value| value.as_string().map(|text| text.as_str())",
    # a body that writes fractions is left out
    'timed("to_json", || written(items("values")));': "",
}
LEFT_OUT = re.compile(r"\{ /\* body left out[^*]*\*/ \}")
# The module for numbers of many words, whose source is missing in the folder.
MANY_WORDS = """pub(crate) const TEN: u64 = 10;

pub(crate) fn is_zero(_: &[u64]) -> bool {
    unimplemented!()
}

pub(crate) fn rem_small(_: &[u64], _: u64) -> u64 {
    unimplemented!()
}

pub(crate) fn pow5(power: u32) -> u64 {
    5u64.pow(power)
}
"""


def write(name, text):
    """Writes a file of the crate, unless it has this text already: cargo compares modification times."""
    path = CRATE / name
    path.parent.mkdir(parents=True, exist_ok=True)
    if not path.exists() or path.read_text(encoding="utf-8") != text:
        path.write_text(text, encoding="utf-8")


def set_up(sources):
    """Writes the crate and its programs, which are those over serde_json with another type of values."""
    for source in sources.glob("src--src--*.rs.txt"):
        name = source.name.removeprefix("src--").removesuffix(".txt").replace("--", "/")
        write(name, LEFT_OUT.sub("{ unimplemented!() }", source.read_text(encoding="utf-8")))
    write("src/value/bigint.rs", MANY_WORDS)
    write("Cargo.toml", MANIFEST)
    for program in (peers.BENCH / "baseline/src/bin").glob("*.rs"):
        text = program.read_text(encoding="utf-8")
        for old, new in DIFFERENT.items():
            text = text.replace(old, new)
        write(f"src/bin/{program.name}", text)


def add_option(parser):
    parser.add_argument("--original", metavar="FOLDER", help="time the Rust crate ijson in the same turns, from the sources in a folder")


def programs(name, sources):
    """Returns the program by its name in the tables, if the sources are given and it can be built."""
    if not sources:
        return {}
    set_up(pathlib.Path(sources))
    program = peers.cargo_program(name, CRATE, "the Rust crate ijson", f"{name}_of_original")
    return {ORIGINAL: program} if program else {}


def passes(sources):
    """Like `programs`, for the timing programs of `bench/in_process`. Objects do not always keep their order."""
    return {name: peers.Library(program, False, "digits") for name, program in programs("passes", sources).items()}
