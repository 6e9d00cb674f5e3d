#!/usr/bin/env python3
"""Assembles a workspace of Rattle with the crate `ijson_c` and the crates of the repository that it uses.

usage: bindings/workspace.py FOLDER

The command adds `ijson_c`, without its must-fail edits, to a workspace that has the other crates. Its files in
`ijson_c/` have the suffix `.txt`, since the gate requires that every `.rt` and `.antt` file is in a crate that
crates.txt lists.
"""

import contextlib
import pathlib
import re
import shutil
import subprocess
import sys
import tempfile

BINDINGS = pathlib.Path(__file__).resolve().parent
TOP = BINDINGS.parent
sys.path.append(str(TOP / "tools"))

from callers import copy_crates, library_crates

OUT = BINDINGS / "out"
KIT = pathlib.Path(subprocess.run(["rt", "doc"], capture_output=True, text=True, check=True).stdout.strip()).parent
CRATE = "ijson_c"
USES = ["simdutf8", "ijson_string", "ijson_table", "ijson_value", "ijson_number", "ijson_json", "ijson_extra"]
LISTED = f"{CRATE} staticlib: {' '.join(USES)}"


def run(command, folder, **options):
    """Runs a command, and shows its output."""
    subprocess.run(command, cwd=folder, check=True, **options)


def write_crate(work):
    """Writes the files of ijson_c to a workspace, and returns the folder of the crate."""
    crate = work / "crates" / CRATE
    for path in sorted((BINDINGS / CRATE).rglob("*")):
        if path.is_file():
            target = crate / path.relative_to(BINDINGS / CRATE).with_name(path.name.removesuffix(".txt"))
            target.parent.mkdir(parents=True, exist_ok=True)
            shutil.copy(path, target)
    return crate


def assemble(work):
    """Writes the workspace to a folder, and returns the folder of ijson_c."""
    copy_crates(work, library_crates(*USES), LISTED)
    return write_crate(work)


def exported():
    """Returns the names of the functions in `ijson.h`."""
    return re.findall(r"^ijson_outcome (\w+)\(", (BINDINGS / "c" / "ijson.h").read_text(encoding="utf-8"), re.MULTILINE)


def link(crate):
    """Makes the static and the shared library in out/ from the output of `rt lib` in the crate's folder.

    The kit's liblibc_c.a has the three functions by which the library allocates. Only the functions of ijson.h are
    visible, so other names of the library cannot conflict with names of a program.
    """
    archives, names = [crate / "out" / f"lib{CRATE}.a", KIT / "c" / "liblibc_c.a"], exported()
    OUT.mkdir(exist_ok=True)
    shutil.copy(BINDINGS / "c" / "ijson.h", OUT)
    whole, static = crate / "out" / "ijson.o", OUT / "libijson.a"
    run(["ld", "-r", "-o", whole, *(f"--undefined={name}" for name in names), *archives], OUT)
    run(["objcopy", *(f"--keep-global-symbol={name}" for name in names), whole], OUT)
    static.unlink(missing_ok=True)
    run(["ar", "rcs", static, whole], OUT)
    exports = crate / "out" / "exports"
    exports.write_text(f"{{ global: {'; '.join(names)}; local: *; }};\n")
    run(["cc", "-shared", "-o", OUT / "libijson.so", whole, "-Wl,-soname,libijson.so.0", "-Wl,-z,relro,-z,now", f"-Wl,--version-script={exports}"], OUT)


@contextlib.contextmanager
def workspace(folder=None):
    """Yields the folder of ijson_c in a workspace, in a temporary folder or in the folder `folder`, which is kept."""
    # The crates that ijson_c uses are proved in place, so that the next workspace finds them proved.
    run(["rt", "lib"], TOP / "crates" / "ijson_extra")
    with tempfile.TemporaryDirectory() if folder is None else contextlib.nullcontext(folder) as work:
        yield assemble(pathlib.Path(work).resolve())


if __name__ == "__main__":
    shutil.rmtree(write_crate(pathlib.Path(sys.argv[1])) / "must-fail")
    with open(f"{sys.argv[1]}/crates.txt", "a", encoding="utf-8") as listed:
        print(LISTED, file=listed)
