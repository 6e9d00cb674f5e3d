#!/usr/bin/env python3
"""callers.py FOLDER: writes the crates that the pages show into an empty folder, with the libraries, and prints their public functions.

The first shell block of docs/guide.md, "Your first crate", copies libraries and lists the crate `passwords`. A crate `callers` has the Rust examples of
README.md, docs/guide.md and each crates/*/CALLING.md, each page a module, and `nesting` is the walk of docs/contracts.md. All have the files that the pages
have for them. `rt check` in each proves it.

bench/ and bindings/ use `library_crates` and `copy_crates`, for Rattle sources that are no crate of crates.txt.
"""

import os
import pathlib
import re
import shutil
import subprocess
import sys

from sources import BLOCKS, CRATES, TOP

GUIDE = TOP / "docs/guide.md"


def library_crates(*names):
    """The lines of crates.txt for crates of the library and all that they depend on, by name. Other names are left out."""
    found = {name: f"{name}:{CRATES[name]}" for name in names if name in CRATES}
    for name in list(found):
        found |= library_crates(*CRATES[name].split())
    return found


def copy_crates(work, crates, line):
    """Copies crates with what is proved of them into a folder, and lists them there, with the line of one crate more."""
    for name in crates:
        for part in "src", "specs", "proofs", "out/rlib":
            # what an earlier copy has and the crate no longer has would be proved too
            shutil.rmtree(work / "crates" / name / part, ignore_errors=True)
            if (TOP / "crates" / name / part).exists():
                shutil.copytree(TOP / "crates" / name / part, work / "crates" / name / part)
    (work / "crates.txt").write_text("\n".join([*crates.values(), line, ""]))
    (work / "HANDLES").write_text("Handles allowed: none.\n")


def write_pages(work):
    """Writes the files that the pages have, and the module of each page."""
    modules = {page: f"calls_{page.parent.name}" for page in sorted(TOP.glob("crates/*/CALLING.md"))} | {GUIDE: "guide", TOP / "README.md": "readme"}
    files = {"crates/callers/src/lib.rt": ["//! The callers of the pages.\n#![tactic(auto)]\n", *(f"pub mod {module};" for module in modules.values()), ""]}
    for page, module in [*modules.items(), (TOP / "docs/contracts.md", "contracts")]:
        for file, language, text in BLOCKS.findall(page.read_text()):
            if file or language == "rust":
                files.setdefault(file or f"crates/callers/src/{module}.rt", []).append(text)
    for file, texts in files.items():
        (work / file).parent.mkdir(parents=True, exist_ok=True)
        (work / file).write_text("\n".join(texts))
    return files


def list_crates(work):
    """Copies the libraries that are not there, and lists them, and the crates of the pages with each library that they name."""
    lines = (work / "crates.txt").read_text()
    for crate in TOP.glob("crates/*"):
        if (crate / "src/lib.rt").exists() and not (work / "crates" / crate.name).exists():
            shutil.copytree(crate, work / "crates" / crate.name, symlinks=True)
            lines += f"{crate.name}:{CRATES[crate.name]}\n"
    for crate in "callers", "nesting":
        text = "\n".join(path.read_text() for path in sorted((work / "crates" / crate).rglob("*")) if path.is_file())
        named = set(re.findall(r"\b(ijson[a-z_]*)(?:::|\.(?:specs|proofs))", text))
        lines += f"{crate}: {' '.join(sorted(named))}\n"
    (work / "crates.txt").write_text(lines)


def main():
    work = pathlib.Path(sys.argv[1])
    first = next(text for file, language, text in BLOCKS.findall(GUIDE.read_text()) if language == "sh")
    subprocess.run(["bash", "-euo", "pipefail", "-c", first], cwd=work, env={**os.environ, "IJSON": str(TOP)}, check=True)
    for file, texts in write_pages(work).items():
        crate, _, *module = pathlib.Path(file).with_suffix("").parts[1:]
        calls = re.findall(r"^pub fn (\w+)", "\n".join(texts), re.M)
        if file.endswith(".rt") and not calls and crate + module[0] != "callerslib":
            sys.exit(f"{file}: no caller")
        for call in calls:
            print("::".join([crate, *(part for part in module if part != "lib"), call]))
    list_crates(work)


if __name__ == "__main__":
    main()
