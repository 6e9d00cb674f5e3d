"""The page docs/reference/definitions.md, made of the comments in the files of definitions, and what may cite which definition."""

import re

from sources import TOP, exports, items

PAGE = TOP / "docs/reference/definitions.md"
NAME = r"([^\s:(){}]+)"
DECLARED = re.compile(rf"^(?:abbrev |unfoldable |opaque )?pub (?!use )(?:record |data |mod )?{NAME}")
INSIDE = re.compile(rf"^  (?:abbrev |unfoldable )?pub (?:record |data )?{NAME} ")
SECTION = re.compile(r"^(## .*`(\w+)`)$", re.M)
UNLISTED = re.compile(r"^ *ghost use (Rattle\.ijson_\w+\.specs\.(?:laws|private)[\w.]*)\.\{([^}]*)\};", re.M)


def declared(path):
    """The comment of each public name that a file of definitions declares at its top, including those of a `mutual` or `module` block."""
    found, in_block, comment = {}, False, []
    for line in path.read_text().splitlines():
        opens = line[:1].strip() and (line.split(" --")[0].split()[-1] == "mutual" or line.startswith("module "))
        in_block = bool(opens) if line[:1].strip() else in_block
        if name := (INSIDE if in_block else DECLARED).match(line):
            found[name[1]] = " ".join(comment)
        comment = [*comment, line.strip()[3:]] if line.strip().startswith("-- ") else comment if opens else []
    return found


def defined(crate="*"):
    """The files of definitions, below the specs/ of a crate, or of all."""
    for path in sorted(TOP.glob(f"crates/{crate}/specs/**/*.antt"), key=str):
        folder = path.relative_to(TOP).parts[3]
        if folder not in ("laws", "private", "formers") and path.name != "Lib.antt" and not path.with_suffix("").is_dir():
            yield path


def section_of(path):
    """The section of a file: its first comment, and its definitions, each with its comment and the example at the end of it, or with its formula if there is
    no comment and that is one line of less than 120 characters."""
    source = path.read_text()
    yield " ".join(line[3:] for line in re.match(r"(?:-- .*\n)*", source)[0].splitlines()) + "\n"
    for name, comment in declared(path).items():
        comment, _, example = map(str.strip, f" {comment}".partition(" e.g. "))
        formulas = re.findall(rf"^( *)({re.escape(name)}(?: [^=\n]*)? = .+)\n(\1 +\S)?", source, re.M)
        is_shown = not comment and len(formulas) == 1 and len(formulas[0][1]) < 120 and not formulas[0][2]
        line = f"- `{formulas[0][1] if is_shown else name}`" + f": {comment.rstrip('.')}." * bool(comment)
        yield line + f"\n  Example: {example}" * bool(example)


def described_page():
    """The page, and its text with all definitions described by the comments in their files. Its order of files is kept."""
    text = PAGE.read_text()
    crates = {path.relative_to(TOP).parts[1] for path in defined()} - {crate for _, crate in SECTION.findall(text)}
    made, *parts = SECTION.split(text + "".join(f"\n## `{crate}`\n" for crate in sorted(crates)))
    for heading, crate, section in zip(parts[::3], parts[1::3], parts[2::3]):
        files, specs = re.findall(r"^### \[`(.*?)`\]", section, re.M), TOP / "crates" / crate / "specs"
        names = [str(path.relative_to(specs)) for path in defined(crate)]
        made += f"{heading}\n\n"
        for name in sorted(names, key=lambda name: [*files, name].index(name)):
            made += f"### [`{name}`](../../crates/{crate}/specs/{name})\n\n" + "\n".join(section_of(specs / name)) + "\n\n"
    return PAGE, made.rstrip("\n") + "\n"


def definitions():
    """Checks that no promise, which is a clause of a public call or what its implementation of a trait gives, cites a definition of specs/laws or
    specs/private, and that no file of one crate cites another crate's specs/private."""
    amiss = set()
    for call in items("fn"):
        source = re.match(r"impl From<(\w+)> for ", call.implementation)
        # a conversion from a private type is no promise to a caller
        if not source or source[1] in exports(TOP / "crates" / call.crate / "src/lib.rt"):
            words = {word for *_, text in call.clauses + call.contract for word in re.findall(r"[^\s(){},.;]+", text)}
            for module, group in UNLISTED.findall("\n".join(call.lines)) if words else ():
                amiss |= {f"{call.place} cites `{name}` of {module}" for name in re.findall(r"(\S+)(?:,|$)", group) if name in words}
    for path in (path for folder in ("src", "specs", "proofs") for path in TOP.glob(f"crates/*/{folder}/**/*.*t")):
        cited = re.findall(r"\b(ijson\w*)(?:\.|::)specs(?:\.|::)private(?:\.|::)(\w+)", path.read_text())
        amiss |= {f"{path.relative_to(TOP)} cites {module}, which is private to {owner}" for owner, module in cited if f"crates/{owner}/" not in str(path)}
    return sum(len(declared(path)) for path in defined()), sorted(amiss)
