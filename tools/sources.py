"""What the sources say: the public items of the crates with their contracts; and the code in pages."""

import functools
import pathlib
import re
import sys

TOP = pathlib.Path(__file__).resolve().parent.parent
# The crates, lowest first, each with the libraries that it uses.
CRATES = dict(re.findall(r"^(\w+):(.*)$", (TOP / "crates.txt").read_text(), re.M))
ORDER = list(CRATES)
TYPES = ("struct", "enum", "trait", "type")
BLOCK = re.compile(r"^(?:pub(?:\([a-z]+\))? )?(impl|trait)\b(.*?)(?: \{\}?)?$")
ITEM = re.compile(r"^( *)(pub )?(?:final )?(fn|ghost(?! use)|const|struct|enum|trait|type) (\w+)")
TRAIT = re.compile(r"^(?:pub(?:\(crate\))? )?trait (\w+)", re.M)
ENDS = re.compile(r" (?:requires|ensures\*?|decreases|where)\b| \{|;(?= ghost\b|$)")
CLAUSE = re.compile(r"(requires|ensures\*?)( \w+)? \{(.*?)\}(?= (?:requires|ensures|decreases)|;|$)")
# A piece of code in a page, and a block of code: the file that the line before it names in backticks, its language and its text.
CODE = re.compile(r"`([^`]+)`")
BLOCKS = re.compile(r"(?:`(crates/[^`\n]+)`[^`\n]*:\s*\n)?^```(\w+)\n(.*?)^```$", re.M | re.S)

# Traits without a promise of their own: models and markers.
SKIPPED = ("Model for ", "Eq for ", "FusedIterator for ")
# Ghost members that are laws about other members of the implementation.
LAWS = ("laws", "total", "matches_eq", "matches_partial_cmp", "respects_eq", "is_infallible")
# What a clause has before what it states: of which result it holds.
WRAPPERS = re.compile(r"^(?:(?:IfOk|IfErr|IfSome|OnOk|OnErr|sem)\*? \S+ |λ [^.]*\. )")


class Item:
    """A public item; or a `ghost` member of an implementation; or an `impl` of a trait by hand, with the trait and the type as they are written.

    The header is that of its trait, or of the implementation of a trait, else empty; all members of these are one `group`. `block` is where the block
    around it begins, and `implementation` that line. `text` is the signature of a function, the type of a constant, the formula of a ghost member, or the
    declaration of a type. `clauses` has (kind, name, text) of each `requires` and `ensures`, with a star or without.
    """

    def __init__(self, crate, path, kind, owner, name, header, lines, first, at):
        self.crate, self.path, self.kind, self.owner, self.name, self.header, self.lines = crate, path, kind, owner, name, header, lines
        self.path_name = f"{owner}::{name}" if owner else name
        self.place = f"{self.path_name}{f' of `{header}`' * bool(header)} ({path.relative_to(TOP)})"
        self.group, self.block, self.implementation = (path, header or at), (path, first), lines[first].removesuffix(" {")
        trait = re.match(r"(?:\w+::)?(\w+).* for ", header)
        self.trait = trait and trait[1]
        begin = at
        while begin and re.match(r"\s*(///|#\[)", lines[begin - 1]):
            begin -= 1
        self.sentence = " ".join(line.partition("///")[2].strip() for line in lines[begin:at] if "///" in line)
        self.derived = [name for names in re.findall(r"#\[derive\((.*)\)\]", "\n".join(lines[begin:at])) for name in split_at(names)]
        head = head_of(lines, at) if kind == "fn" else ""
        self.clauses = [(kind, name.strip(), text.strip()) for kind, name, text in CLAUSE.findall(head)]
        self.text = text_of(kind, head, lines, at)

    @functools.cached_property
    def contract(self):
        """(kind, name, text) of the promises of a call: its own clauses, those of its trait, and ghost members of its implementation."""
        own = self.clauses + clauses_of_traits().get((self.trait, self.name), [])
        members = (item for item in items("ghost") if item.block == self.block and self.trait and item.name not in LAWS)
        return [clause for clause in own if clause[0] != "requires"] + [("ghost", item.name, item.text) for item in members]


def in_one_line(lines):
    """Lines as one, without comments."""
    return " ".join(word for line in lines if not line.strip().startswith("//") for word in line.split())


def head_of(lines, at):
    """The head of a function as one line: its signature and its clauses, up to the body."""
    indent, end = len(lines[at]) - len(lines[at].lstrip()), at + 1
    while end < len(lines) and not re.match(rf"\s{{0,{indent}}}(\{{|\}}|///|#\[|(pub |final )?fn )", lines[end]):
        end += 1
    return in_one_line(lines[at:end])


def text_of(kind, head, lines, at):
    """The text of an item."""
    if kind == "fn":
        text = re.sub(r"([(<]) ", r"\1", ENDS.split(head)[0]).removeprefix("final ").replace(", )", ")")
        # `mut` of a parameter does not concern callers
        return re.sub(r"([(,] ?)mut (\w+:)", r"\1\2", text)
    if kind == "const":
        return re.match(r"[^:]*: ([^=]+?) =", lines[at])[1]
    if kind == "ghost":
        end = next(end for end in range(at, len(lines)) if lines[end].endswith("};"))
        return re.sub(r"^ghost \w+ = \{ ?|\ ?};$", "", in_one_line(lines[at:end + 1]))
    return "\n".join(lines[at:(at if lines[at].endswith((";", "}")) else lines.index("}", at)) + 1])


def report(held, amiss, *name):
    """Prints what is amiss on standard error, and on standard output a name, if any, and two counts."""
    for line in amiss:
        print(line, file=sys.stderr)
    print(*name, held, len(amiss))


def without_generics(text):
    """`text` without angle brackets and their contents."""
    shorter = re.sub(r"<[^<>]*>", "", text)
    return shorter if shorter == text else without_generics(shorter)


def without_lifetimes(text):
    return re.sub(r"'\w+,? ?", "", text).replace("<>", "")


def depths(text, brackets):
    """The depth of brackets at each sign of a text, after an opening one and before a closing one."""
    depth, half = 0, len(brackets) // 2
    for before, sign in zip(" " + text, text):
        depth += (sign in brackets[:half]) - (sign in brackets[half:] and before + sign != "->")
        yield depth


def closing(text, brackets="<([{>)]}"):
    """Where the bracket that begins a text is closed."""
    return next((at for at, depth in enumerate(depths(text, brackets)) if depth == 0), len(text))


def split_at(text, separator=",", brackets="<([{>)]}"):
    """The parts of a text that are not empty, split at a sign outside brackets."""
    cuts = [at for at, depth in enumerate(depths(text, brackets)) if depth == 0 and text[at] == separator]
    parts = (text[begin + 1:end].strip() for begin, end in zip([-1, *cuts], [*cuts, len(text)]))
    return [part for part in parts if part]


def parts_of(signature, owner):
    """The types of a call's parameters and of its answer, each parameter of type as `impl` of its bound."""
    text = without_lifetimes(re.sub(r"^(?:pub )?fn \w+", "", signature)).replace("Self", owner or "")
    bounds = {}
    if text.startswith("<"):
        end = closing(text)
        bounds = dict(part.split(": ", 1) for part in split_at(text[1:end]) if ": " in part)
        text = text[end + 1:]
    end = closing(text)
    inputs = [re.sub(r"^mut ", "", part).split(": ", 1)[-1] for part in split_at(text[1:end])]
    for name, bound in bounds.items():
        bound = bound.replace(" + Drop", "")
        if bound != "Drop":
            inputs = [re.sub(rf"\b{name}\b", f"impl {bound}", part) for part in inputs]
    return inputs, text[end + 1:].replace("->", "", 1).strip() or "()"


def exports(module):
    """The names that a module, or the crate of a `lib.rt`, exports."""
    text = module.read_text()
    inside = module.parent if module.name == "lib.rt" else module.with_suffix("")
    names = set(re.findall(r"^pub (?:fn|struct|enum|trait|type|const) (\w+)", text, re.M))
    for group in re.findall(r"^pub use \w+(?:::\w+)*::\{?([^;}]*)\}?;", text, re.M):
        names |= {name.strip() for name in group.split(",")}
    return names.union(*(exports(inside / f"{name}.rt") for name in re.findall(r"^pub mod (\w+);", text, re.M)))


def items_in(crate, path, public):
    """The items of a file, of a crate with these exports."""
    lines, owner, header, first = path.read_text().splitlines(), None, "", 0
    for at, line in enumerate(lines):
        # a line that ends the block before it, if any
        if line and not line[0].isspace() and not line.startswith(("}", "/", "#", ")", "ghost use")):
            kind, head = BLOCK.match(line).groups() if BLOCK.match(line) else ("", "")
            head = (head[closing(head) + 1:] if head.startswith("<") else head).strip()
            plain, first = without_generics(head), at
            owner = "nothing public" if plain.startswith(SKIPPED) else re.split(r"[\s:]", plain.split(" for ")[-1])[0] or None
            header = plain if kind == "trait" or " for " in plain else ""
            if kind == "impl" and header:
                yield Item(crate, path, "impl", *reversed(head.replace("fmt::", "").split(" for ", 1)), header, lines, first, at)
        indent, mark, kind, name = ITEM.match(line).groups() if ITEM.match(line) else (line, "", "", "")
        is_member = header if kind == "ghost" else kind in ("fn", "const") and owner in public and (mark or header)
        if (len(indent) == 4 and is_member) if indent else name in public and (mark or kind == "fn"):
            yield Item(crate, path, kind, None if kind in TYPES else owner, name, header, lines, first, at)


def sources(crates="ijson_*"):
    """(crate, file, exports of the crate) of each source file of the libraries of this name, or of all below the top crate, except tests."""
    for crate in sorted(TOP.glob(f"crates/{crates}")):
        if (crate / "src/lib.rt").exists():
            public = exports(crate / "src/lib.rt")
            for path in sorted(crate.glob("src/**/*.rt")):
                if not path.relative_to(crate / "src").parts[0].startswith("tests"):
                    yield crate.name, path, public


@functools.lru_cache(None)
def all_items(crates):
    return [item for source in sources(crates) for item in items_in(*source)]


def items(*kinds, crates="ijson_*"):
    """The items of some kinds in all source files of the libraries."""
    return [item for item in all_items(crates) if item.kind in kinds]


@functools.lru_cache(None)
def clauses_of_traits():
    """The clauses of every method of every trait of the crates, private traits included, by trait and method."""
    found = {}
    for crate, path, _ in sources():
        traits = TRAIT.findall(path.read_text())
        found |= {(it.owner, it.name): it.clauses for it in items_in(crate, path, traits) if it.kind == "fn" and it.header and not it.trait}
    return found


def says_nothing(text):
    """Whether a clause or a ghost member holds of everything: it states ⊤, an equation of equal sides, or several of these, after its premises,
    parameters, and the words that state of which result it holds."""
    stated = WRAPPERS.sub("", (split_at(text, "→", "()") or [""])[-1]).strip()
    if stated.startswith("(") and closing(stated, "()") == len(stated) - 1:
        stated = stated[1:-1].strip()
    if stated != text:
        return says_nothing(stated)
    parts, sides = split_at(text, "×", "()"), split_at(text, "≡", "()")
    return all(map(says_nothing, parts)) if len(parts) > 1 else text in ("", "⊤") or len(sides) == 2 and sides[0] == sides[1]
