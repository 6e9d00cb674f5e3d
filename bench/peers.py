"""Builds the programs to time, and keeps them in out/. Each function returns the path of a program, or None if it
cannot be built.

Sources in Rattle are named main.rt.txt, so that the gate does not treat them as crates.
"""

import hashlib
import pathlib
import shutil
import subprocess
import sys
import tempfile
from typing import NamedTuple

BENCH = pathlib.Path(__file__).resolve().parent
sys.path.append(str(BENCH.parent / "tools"))

from callers import copy_crates, library_crates

CRATES = BENCH.parent / "crates"
KEPT = BENCH / "out"
# Debian's packages that contain the peers.
PACKAGES = ["librust-serde-json-dev", "librust-dashmap-dev", "librust-indexmap-dev", "librust-lazy-static-dev", "rapidjson-dev", "libsimdjson-dev", "jq"]


class Library(NamedTuple):
    """A program that times passes of a library, and the properties of a text that the library keeps."""

    program: pathlib.Path
    order: bool  # whether it keeps the order of members
    numbers: str  # what it keeps of numbers, as same.py has it


def built(command, folder, name):
    """Returns True if the command succeeds; otherwise prints the reason."""
    try:
        done = subprocess.run(command, cwd=folder, input="[]", capture_output=True, text=True)
        why = done.stderr.splitlines()[-5:] if done.returncode else []
    except FileNotFoundError as error:
        why = [str(error)]
    if why:
        print(f"{name} is left out, since it could not be built:", *why, sep="\n", file=sys.stderr)
    return not why


def kit_version():
    return subprocess.run(["rt", "version"], capture_output=True, text=True, check=True).stdout.strip()


def compilers():
    """Returns the first line of each compiler's version."""
    tools = [name for name in ("rustc", "c++", "cc") if shutil.which(name)]
    versions = (subprocess.run([name, "--version"], capture_output=True, text=True).stdout.partition("\n")[0] for name in tools)
    return "Compilers: " + ", ".join(versions) + "."


def stamp(source, crates):
    """Returns a checksum of the kit, a program's source, and the files of its crates."""
    made_of = hashlib.sha256((kit_version() + source.read_text()).encode())
    for name in sorted(crates):
        for path in sorted(path for part in ("src", "specs", "proofs") for path in (CRATES / name / part).rglob("*") if path.is_file()):
            made_of.update(str(path.relative_to(CRATES)).encode() + path.read_bytes())
    return made_of.hexdigest() + "\n"


def rattle_program(name, dependencies, crates, folder=BENCH):
    """Proves and builds NAME/main.rt.txt of a folder, in a workspace that has copies of the crates.

    If the program in out/ was built from the same sources, it is returned instead.
    """
    source, program, kept_stamp = folder / name / "main.rt.txt", KEPT / name, KEPT / f"{name}.stamp"
    made_of = stamp(source, crates)
    if program.exists() and kept_stamp.exists() and kept_stamp.read_text() == made_of:
        return program
    with tempfile.TemporaryDirectory() as workspace:
        work = pathlib.Path(workspace)
        copy_crates(work, crates, f"{name}: {dependencies}")
        (work / "crates" / name / "src").mkdir(parents=True)
        shutil.copy(source, work / "crates" / name / "src" / "main.rt")
        if not built(["rt", "run"], work / "crates" / name, name):
            return None
        KEPT.mkdir(exist_ok=True)
        shutil.copy(work / "crates" / name / "out" / name, program)
    kept_stamp.write_text(made_of)
    return program


def kit_serde_json():
    """Returns the program over the kit's serde_json that reads a text from standard input and writes it compactly."""
    return rattle_program("kit_peer", "anyhow serde_json", {})


def calls_of_ijson():
    """Returns the program that times calls of the library. If the library's crates are not built, they are proved
    first, which takes long."""
    return rattle_program("calls_of_ijson", "ijson_json ijson_string ijson_value", library_crates("ijson_json"))


def canonical_of_ijson():
    """Returns the program that times canonical and plain texts of the library. The crates must be built, as for `calls_of_ijson`."""
    return rattle_program("canonical_of_ijson", "ijson_extra ijson_json ijson_string ijson_value", library_crates("ijson_extra"))


def calls_of_kit():
    """Returns the program that times calls of the kit's serde_json."""
    return rattle_program("calls_of_kit", "anyhow serde_json", {})


def cargo_program(name, folder, title, kept, *flags):
    """Returns a program of a Rust crate over Debian's packages. It is kept as `kept`, since builds with other features
    have the same name."""
    command = ["cargo", "build", "--quiet", "--release", "--offline", "--config", BENCH / "cargo.toml", "--target-dir", KEPT / "target", "--bin", name, *flags]
    if not built(command, folder, title):
        return None
    shutil.copy(KEPT / "target/release" / name, KEPT / kept)
    return KEPT / kept


def rust_program(name, features="digits order"):
    """Returns a program over Rust's serde_json, which is in Debian's package librust-serde-json-dev."""
    title = f"Rust's serde_json ({name}, {features or 'no features'})"
    kept = "_".join([name, "of_rust", *features.split()])
    return cargo_program(name, BENCH / "baseline", title, kept, "--no-default-features", "--features", features)


def rust_serde_json():
    """Returns the program over Rust's serde_json that reads a text from standard input and writes it compactly."""
    return rust_program("baseline")


def rust_calls():
    """Returns the program that times calls of Rust's serde_json."""
    return rust_program("calls")


def cpp_program(name, source, *flags):
    """Returns a program of passes_of_cpp/ over a C++ library, which is in a package of Debian."""
    KEPT.mkdir(exist_ok=True)
    command = ["c++", "-std=c++17", "-O3", "-DNDEBUG", "-march=x86-64-v2", source, "-o", KEPT / name, *flags]
    return KEPT / name if built(command, BENCH / "passes_of_cpp", name) else None


def rapidjson(name, flags):
    return cpp_program(name, "rapidjson.cpp", f"-DREAD_FLAGS=rapidjson::{flags}")


def passes_of_ijson():
    """Returns the program that times passes of the library. The crates must be built, as for `calls_of_ijson`."""
    return rattle_program("passes_of_ijson", "ijson_json ijson_string ijson_value", library_crates("ijson_json"))


def libraries(ours):
    """Returns the timing programs of `bench/in_process`, by their names in the tables: this library, and the peers that
    can be built."""
    found = {
        ours: Library(passes_of_ijson(), True, "digits"),
        "serde_json exact": Library(rust_program("passes"), True, "digits"),
        "serde_json floats": Library(rust_program("passes", "order"), True, "floats"),
        "serde_json default": Library(rust_program("passes", ""), False, "floats"),
        "kit serde_json": Library(rattle_program("passes_of_kit", "anyhow serde_json", {}), False, "floats"),
        "RapidJSON": Library(rapidjson("passes_of_rapidjson", "kParseDefaultFlags"), True, "floats"),
        "RapidJSON texts": Library(rapidjson("passes_of_rapidjson_texts", "kParseNumbersAsStringsFlag"), True, "texts"),
        "simdjson": Library(cpp_program("passes_of_simdjson", "simdjson.cpp", "-lsimdjson"), True, "floats"),
    }
    return {name: library for name, library in found.items() if library.program}


def package_versions():
    """Returns the versions of the peers' packages that are installed."""
    if not shutil.which("dpkg-query"):
        return "No packages of Debian."
    done = subprocess.run(["dpkg-query", "--show", "--showformat", "${Package} ${Version}\n", *PACKAGES], capture_output=True, text=True)
    return "Debian's packages: " + ", ".join(line for line in done.stdout.splitlines() if not line.endswith(" ")) + "."
