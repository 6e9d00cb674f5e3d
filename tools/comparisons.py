"""What tools/pages compares besides the pages that it makes. Each function returns how many cases hold, and what is amiss."""

import fnmatch
import re
from collections import Counter

from sources import BLOCKS, CODE, CRATES, TOP, TYPES, items, items_in, says_nothing

CLAIMS = "docs/reference/claims.md"
# Traits of std whose calls have no clause here: std specifies `len`, and tests show `Debug`.
WITHOUT = ("ExactSizeIterator for ", "fmt::Debug for ")
LINK = re.compile(r"!?\[(?:[^\[\]]|\[[^\[\]]*\])*\]\(([^)\s]+)\)")
MODULES = re.compile(r"Each module uses only those before it: ((?:`[\w:]+`,? ?)+)\.")


def carriers():
    """(crate, patterns of calls, names of clauses) of each group of carriers in the last column of a table."""
    _, *parts = re.split(r"^## `(\w+)`$", (TOP / CLAIMS).read_text(), flags=re.M)
    for crate, section in zip(parts[::2], parts[1::2]):
        for cell in re.findall(r"^\|.*\| (.*) \|$", section, re.M):
            for group in cell.split(";"):
                calls, _, named = group.partition("`: ")
                yield crate, CODE.findall(calls + "`" * bool(named)), CODE.findall(named)


def claims():
    """Compares docs/reference/claims.md with the public calls of the crates.

    A row is a question, a claim and its carriers: calls, and after a colon their clauses; semicolons separate groups. The heading of a table names the crate.
    Each call (`Type::call`, `Type::*`, or `call` for a function) exists and has these clauses. Each public function, each function of a program, and each
    trait that is implemented by hand for a public type, is named by a row of its crate: by one of its calls or ghost members. Each public call but those of
    `WITHOUT` has a clause: an `ensures` of its own or of its trait, or a ghost member of its implementation. No clause holds of everything.
    """
    types, amiss, claimed = {(item.crate, item.name) for item in items(*TYPES)}, [], set()
    all_calls = [item for item in items("fn", "ghost") if item.kind == "fn" or (item.crate, item.owner) in types]
    for path in sorted(TOP.glob("crates/*/src/main.rt")):
        names = set(re.findall(r"^fn (\w+)", path.read_text(), re.M)) - {"main"}
        all_calls += [item for item in items_in(path.parts[-3], path, names) if item.kind == "fn"]
    for call in (call for call in all_calls if call.kind == "fn"):
        empty = [(kind, name) for kind, name, text in call.contract if says_nothing(text)]
        if len(empty) == len(call.contract) and not call.header.startswith(WITHOUT):
            amiss.append(f"no clause states the result of {call.place}")
        amiss += [f"the clause `{kind} {name}` of {call.place} holds of everything" for kind, name in empty if kind != "ghost"]
    for crate, patterns, named in carriers():
        for pattern in patterns:
            found = [call for call in all_calls if call.crate == crate and fnmatch.fnmatchcase(call.path_name, pattern)]
            claimed |= {call.group for call in found}
            amiss += [] if found else [f"{CLAIMS} names `{pattern}` of {crate}, which does not exist"]
            for call in (call for call in found if call.kind == "fn"):
                missing = set(named) - {name for _, name, _ in call.contract}
                amiss += [f"{CLAIMS} names the clause `{clause}` of {call.place}, which does not exist" for clause in sorted(missing)]
    unclaimed = {call.group: call for call in all_calls if call.group not in claimed}
    return len(claimed), amiss + [f"{CLAIMS} names no claim for {call.header or call.path_name} of {call.crate}" for call in unclaimed.values()]


def prose(path):
    """A page without its blocks of code."""
    return re.sub(r"^```.*?^```$", "", path.read_text(), flags=re.M | re.S)


def anchors(path):
    """The anchors of a page's headings, as GitHub makes them."""
    headings = [re.sub(r"\[([^\]]*)\]\([^)]*\)", r"\1", heading) for heading in re.findall(r"^#+ (.*)$", prose(path), re.M)]
    plain = [re.sub(r"[^\w\- ]", "", heading.strip().lower()).replace(" ", "-") for heading in headings]
    return {name + f"-{plain[:at].count(name)}" * (name in plain[:at]) for at, name in enumerate(plain)}


def is_dead(page, target):
    """Whether a link of a page leads to no file of the repository, or to no heading of one."""
    file, _, anchor = target.partition("#")
    path = (page.parent / file).resolve() if file else page
    return not path.exists() or not path.is_relative_to(TOP) or bool(anchor) and (path.suffix != ".md" or anchor not in anchors(path))


def links():
    """Checks that no relative link of a page is dead, that README.md links each page that it names, and that README.md and CONTRIBUTING.md link the
    requested page docs/DECISIONS.md."""
    pages = [path for path in sorted(TOP.rglob("*.md")) if not any(part == "out" or part[0] == "." for part in path.relative_to(TOP).parts)]
    found = [(page, target) for page in pages for target in LINK.findall(prose(page)) if not re.match(r"[a-z]+:", target)]
    amiss = [f"{page.relative_to(TOP)}: dead link: {target}" for page, target in found if is_dead(page, target)]
    held = len(found) - len(amiss)
    linking = {page.name for page, target in found if page.parent == TOP and target.partition("#")[0] == "docs/DECISIONS.md"}
    amiss += [f"{name} does not link docs/DECISIONS.md" for name in ("README.md", "CONTRIBUTING.md") if name not in linking]
    return held, amiss + [f"README.md names {name} without a link" for name in re.findall(r"[\w./-]+\.md\b", LINK.sub("", prose(TOP / "README.md")))]


def is_declared(crate, module, name):
    """Whether a module of definitions or lemmas declares a name. Modules that the toolchain derives from the sources count as declaring all."""
    if {"declared", "contracts"} & set(module.split(".")[:-1]):
        return True
    path, plain = TOP / "crates" / crate / f"{module.replace('.', '/')}.antt", re.escape(name.split(" as ")[0])
    declaration = rf"^ *(?:abbrev |unfoldable |opaque )?pub (?:record |data )?{plain}(?= [:({{]|$)|^ +{plain} : "
    return path.exists() and bool(re.search(declaration, path.read_text(), re.M))


def statements(text):
    """(name, statement) of each declaration at one indent, where further lines of a statement are indented more."""
    for _, name, statement in re.findall(r"^( *)(?:pub )?([^\s:]+) : (.*\n(?:\1 +\S.*\n)*)", text, re.M):
        yield name, " ".join(statement.split())


def citations():
    """Compares the names that each CALLING.md and docs/guide.md cite with the sources.

    Each definition or lemma that a page cites by its module is declared there, and so is each statement of a lemma in a block of antt that is for no file.
    Each library has a CALLING.md.
    """
    files = [path for folder in ("specs", "proofs") for path in TOP.glob(f"crates/*/{folder}/**/*.antt")]
    declared = {statement for path in files for statement in statements(path.read_text())}
    checks = []
    for page in [*sorted(TOP.glob("crates/*/CALLING.md")), TOP / "docs/guide.md", TOP / "docs/contracts.md"]:
        text, name = page.read_text(), page.relative_to(TOP)
        lemmas = (it for file, language, block in BLOCKS.findall(text) if language == "antt" and not file for it in statements(block))
        checks += [(f"{name}: {lemma[0]}", lemma in declared) for lemma in lemmas]
        for crate, module, names in re.findall(r"Rattle\.(ijson\w*)\.((?:\w+\.)*\w+)\.\{([^}]*)\}", text):
            checks += [(f"{name}: {module}.{cited.strip()}", is_declared(crate, module, cited.strip())) for cited in names.split(",")]
    libraries = [(f"{root.parts[-3]}: CALLING.md", (root.parents[1] / "CALLING.md").exists()) for root in TOP.glob("crates/*/src/lib.rt")]
    amiss = [f"not in the sources: {name}" for name, holds in checks + libraries if not holds]
    return len(checks + libraries) - len(amiss), amiss


def used_modules(module, text, modules):
    """The other modules that the text of a module names by a path."""
    for start, path in re.findall(r"\b(crate|super(?:::super)*)::(\w+(?:::\w+)*)", re.sub(r"//.*", "", text)):
        above = [] if start == "crate" else module.split("::")[:-len(start.split("::"))]
        parts = [*above, *path.split("::")]
        prefixes = ["::".join(parts[:count]) for count in range(len(parts), 0, -1)]
        named = next((name for name in prefixes if name in modules), None if parts[0] in ("proofs", "specs") else prefixes[0])
        if named and named != module:
            yield named


def modules():
    """Checks that each module of a crate uses only those before it, if the first comment of `src/lib.rt` states an order: "Each module uses only those
    before it:" and the modules, each file of the crate once. Each crate uses the libraries that crates.txt lists for it: its sources, with its tests,
    definitions and proofs, name them."""
    held, amiss = 0, []
    for crate, libraries in CRATES.items():
        files = [path for folder in ("src", "specs", "proofs") for path in TOP.glob(f"crates/{crate}/{folder}/**/*.*t")]
        code = re.sub(r"(//|-- ).*", "", "\n".join(path.read_text() for path in files))
        unused = [name for name in libraries.split() if not re.search(rf"\b{name}::|\bRattle\.{name}\.", code)]
        amiss += [f"crates.txt: {crate} does not use {name}" for name in unused]
    for root in sorted(TOP.glob("crates/*/src/lib.rt")):
        found, crate = MODULES.search(" ".join(re.findall(r"^//! ?(.*)", root.read_text(), re.M))), root.parts[-3]
        if found:
            order, files = re.findall(r"[\w:]+", found[1]), [path for path in root.parent.rglob("*.rt") if path != root]
            texts = {"::".join(path.relative_to(root.parent).with_suffix("").parts): path.read_text() for path in files}
            # a file of `mod` items alone uses nothing
            needed = {name for name, text in texts.items() if re.search(r"^\s*(?:use|pub fn|fn|pub struct) ", text, re.M)}
            amiss += [f"{crate}: {name} is not in the order" for name in sorted(needed - set(order))]
            amiss += [f"{crate}: the order names {name}, which is no other module" for name in Counter(order) - Counter(texts.keys())]
            uses = [(at, used) for at, module in enumerate(order) for used in sorted(set(used_modules(module, texts.get(module, ""), texts)))]
            wrong = [f"{crate}: {order[at]} uses {used}, which is not before it" for at, used in uses if used not in order[:at]]
            held, amiss = held + len(uses) - len(wrong), amiss + wrong
    return held, amiss + ["no crate states an order"] * (not held)
