"""The public items of the crates beside those of the Rust crate and those that were requested, which tools/items.txt lists.

An item is its kind and its name, like `call IArray::push`, `variant Entry::Vacant` or `impl Clone for IArray`. Its text is the types of a call, or a
type's public fields or variants.
"""

import functools
import itertools
import re

from sources import CODE, ORDER, TOP, TRAIT, TYPES, items, parts_of, sources, split_at, without_generics, without_lifetimes

ROOT = TOP / "crates/ijson/src"
PAGE = "docs/from-ijson.md"
LIST = r"`[^`]+`(?:(?:, and |, | and )`[^`]+`)*"
NAMES = re.compile(rf"\s*({LIST})(?: of (?:an? )?({LIST}))?(.*\S)?")
KINDS = ("struct", "enum", "trait")


def listed(*sections):
    """(item, text) of each item in some sections of the list."""
    for section in re.split(r"^## ", (TOP / "tools/items.txt").read_text(), flags=re.M):
        title, _, lines = section.replace("\n    ", " ").partition("\n")
        for head, entries in re.findall(r"^(\S.*?): (.*)$", lines, re.M) if title in sections else ():
            for entry in entries.split("; "):
                if head.startswith("impl"):
                    yield from ((f"impl {entry}{' for ' * bool(owner)}{owner}", "") for owner in head[5:].split(", "))
                else:
                    name, text = re.match(r"((?:\w+::)*\w+)(.*)", entry).groups()
                    yield f"call {head}::{name}" if head[0].isupper() else f"{head} {name}", text


@functools.lru_cache(None)
def of_rust_crate():
    """The items of the Rust crate, with their texts. Variants are listed with their types."""
    found = dict(listed("Of both", "Of the Rust crate"))
    variants = ((item[5:], name) for item, text in found.items() if item.startswith("enum ") for name in re.findall(r"[{,] (\w+)", text))
    return found | {f"variant {owner}::{name}": "" for owner, name in variants}


def marked(name):
    """A type without lifetimes, generics and its module."""
    return re.sub(r"\w+::", "", without_generics(without_lifetimes(name)))


def text_of(item):
    """The types of a call's parameters and its result, or a type's variants, or its public fields alone."""
    if item.kind == "fn":
        inputs, answer = parts_of(item.text, "Self")
        return f"({', '.join(inputs)})" + f" -> {answer}" * (answer != "()")
    text = re.sub(r"//.*|#\[.*\]", "", item.text).rstrip(";")
    text = re.sub(r"^    (?!pub ).*\n", "", text, flags=re.M) if item.kind == "struct" else text
    text = without_lifetimes(" ".join(text.replace("pub ", "").split()))
    return re.sub(r",? \}", " }", text).removeprefix(f"{item.kind} {item.name}").removesuffix("{ }").rstrip()


def exported():
    """What the root of the top crate exports: modules, and names."""
    root = (ROOT / "lib.rt").read_text()
    yield from (f"module {name}" for names in re.findall(r"^pub mod (\w+);|^pub use \w+ as (\w+);", root, re.M) for name in names if name)
    for crate, names in re.findall(r"^pub use (\w+)::(?:\w+::)*\{?([^;{}]+)\}?;", root, re.M):
        modules = re.findall(r"^pub mod (\w+);", (TOP / "crates" / crate / "src/lib.rt").read_text(), re.M)
        yield from (f"module {name}" if name in modules else f"export {name}" for name in re.findall(r"\w+", names))
    yield from (f"macro {name}" for name in re.findall(r"^macro_rules! (\w+)", (ROOT / "macros.rt").read_text(), re.M))


def declared_by(item):
    """(item, text) of all that an item of the sources declares."""
    if item.kind == "fn":
        yield f"call {item.path_name}", text_of(item)
    elif item.kind == "const":
        yield f"const {item.path_name}", f": {item.text}"
    elif item.kind == "impl":
        yield f"impl {re.sub(r'<(.*)>', lambda inner: f'<{without_generics(inner[1])}>', item.name)} for {marked(item.owner)}", ""
    else:
        yield f"{item.kind} {item.name}", text_of(item)
        # `Error` derives `Display` too
        yield from ((f"impl {trait} for {item.name}", "") for trait in [*item.derived, *["Display"] * ("Error" in item.derived)])
        variants = re.findall(r"^    (\w+)(?:\(.*\))?,", item.text, re.M) if item.kind == "enum" else ()
        yield from ((f"variant {item.name}::{name}", "") for name in variants)


@functools.lru_cache(None)
def found_here():
    """The texts of each item of the crates."""
    here = {name: [""] for name in exported()}
    for item in items("fn", "const", "impl", *TYPES):
        for name, text in declared_by(item):
            here.setdefault(name, []).append(text)
    return here


def stands_in(item, here):
    """Whether an item exists here. A trait that the Rust crate has for any index or source may exist here for one kind."""
    trait = re.match(r"impl (\w+)<\w> for (\w+)$", item)
    return any(re.match(rf"impl {trait[1]}<\w+> for {trait[2]}$", other) for other in here) if trait else item in here


def rows():
    """The rows of the page's tables that begin with names, one for each part of the first cell between semicolons: pairs of a name and a type, which may
    be empty, and whether the items exist here, but differ."""
    for cell in re.findall(r"^\|([^|]*)\|", (TOP / PAGE).read_text().partition("\n## Added here\n")[0], re.M):
        for found in filter(None, map(NAMES.match, cell.split(";"))):
            names = [re.sub(r"!.*", "", name) for name in CODE.findall(found[1])]
            yield set(itertools.product(names, [marked(owner) for owner in CODE.findall(found[2] or "")] or [""])), bool(found[3])


def spellings(item):
    """How a row may name an item: `Type::name`, a name `of` the type, or an item of the root by its name alone. A trait without a type is one that no type
    implements here."""
    kind, _, rest = item.partition(" ")
    owner, _, name = rest.rpartition("::")
    if kind != "impl":
        return {(rest, ""), (name, owner)}
    trait, owner = rest.split(" for ", 1)
    plain = trait.partition("<")[0]
    # implementations of `From` differ by their source
    name = trait if plain in ("From", "TryFrom", "PartialEq") else plain
    is_here = any(re.match(rf"impl {plain}\b", other) for other in found_here())
    return {(name, owner), (name, re.sub(r"^&(mut )?", "", owner)), (name, owner if is_here else "")}


def is_like(theirs, ours, owner):
    """Whether a call has the types of the Rust crate, up to allocation and its errors."""
    (their_inputs, their_answer), (our_inputs, our_answer) = parts_of(theirs, owner), parts_of(ours, owner)
    our_inputs = [part for part in our_inputs if part != "Global"]
    granted = re.match(r"Result<(.*)>$", our_answer)
    answers = [our_answer, *split_at(granted[1])[:1]] if granted else [our_answer]
    return [re.sub(r"impl Into<(\w+)>", r"\1", part) for part in their_inputs] == our_inputs and their_answer in answers


def fault_of(item, text, found):
    """What is amiss with an item of the Rust crate, if anything, by what rows say of it: that it exists here, but differs, or that it is missing."""
    kind, _, name = item.partition(" ")
    ours, other = found_here().get(item, []), next((other for other in KINDS if kind in KINDS and f"{other} {name}" in found_here()), None)
    if not other and not stands_in(item, found_here()):
        return "is missing here, and no row says so" if all(found) else None
    if not all(found):
        return "exists, and a row calls it missing"
    # no type of the Rust crate has parameters of type
    if other and (other != kind or all(part.startswith("<") for part in ours)):
        return None if found else f"is `{other} {name}{' or '.join(ours)}` here, and no row says so"
    if kind == "call" and text and not any(is_like(text, part, name.rpartition("::")[0]) for part in ours):
        return None if found else f"is `{' or '.join(ours)}` here and `{text}` there, and no row says so"
    return None


def differences():
    """Compares docs/from-ijson.md with the items of the Rust crate: the crates have each of them, or a row of a table names it.

    The first cell of a row, or a part of it after a semicolon, begins with the names. If no more words follow, the items are missing here; if more follow,
    they exist but differ. A cell that begins with a word names nothing. A row names items of the Rust crate. A type has the type parameters of the Rust
    crate, and a call its types, except that it may take `alloc: Global` first, return a `Result`, and take an `IString` or an `IValue` instead of an
    argument that converts into one; else a row names it.
    """
    table, known, amiss = list(rows()), set(), []
    for item, text in of_rust_crate().items():
        about = spellings(item)
        fault = fault_of(item, text, [is_here for pairs, is_here in table if pairs & about])
        amiss += [f"{PAGE}: `{item}` {fault}"] if fault else []
        known |= about
    held = len(of_rust_crate()) - len(amiss)
    for pairs, _ in table:
        nothing = set(itertools.chain(*pairs)) - set(itertools.chain(*(pairs & known))) - {""}
        amiss += [f"{PAGE} names `{name}`, which is no item of the Rust crate" for name in sorted(nothing)]
    return held, amiss


def requested():
    """Compares the requested items with the sources: each exists with its text."""
    wanted = list(listed("Of both", "Requested"))
    amiss = [f"not in the sources: {item}{text}" for item, text in wanted if text not in found_here().get(item, ())]
    return len(wanted) - len(amiss), amiss


def own_items():
    """The public items of the crates that the Rust crate lacks: a module or a type with all its items, and of the other types the calls, variants,
    constants and traits. The calls of an implementation, `Drop`, models and private traits are no items of their own."""
    theirs, found = of_rust_crate(), {item for item in exported() if item.startswith("module ")}
    for crate in ORDER:
        types = {item.name: f"{item.kind} {item.name}" for item in items(*TYPES) if item.crate == crate}
        shared = {name for name in types if any(f"{kind} {name}" in theirs for kind in KINDS)}
        private = {"Drop", "Model"} | {name for _, path, _ in sources(crate) for name in TRAIT.findall(path.read_text())} - types.keys()
        of_crate = (item for item in items("fn", "const", "impl", *TYPES) if item.crate == crate and (item.kind == "impl" or not item.trait))
        for kind, _, rest in (name.partition(" ") for item in of_crate for name, _ in declared_by(item) if shared):
            trait, _, owner = rest.partition(" for ") if kind == "impl" else ("", "", rest.rpartition("::")[0])
            is_part = trait not in private and (owner in shared or kind == "call" and not owner)
            found |= {f"{kind} {rest}"} if (rest not in shared if kind in TYPES else is_part) else set()
    return {item for item in found if not stands_in(item, theirs) and not stands_in(re.sub(r"<\w+>", "<I>", item), theirs)}
