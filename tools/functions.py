"""The bodies of functions: which tests make the calls that can fail, which functions make an error for want of memory, and which allocate.

A call is known by its name alone: a method by the word, a function without `self` of a type by `Type::name`. So a method of another type with that name
counts, too.
"""

import collections
import functools
import re

from sources import TOP, items, parts_of, sources, split_at

LITERALS = re.compile(r'r#".*?"#|"(?:\\.|[^"\\])*"|\'(?:\\.|[^\'\\])\'|//[^\n]*', re.S)
# A function with a body, and the attributes of a test.
FUNCTION = re.compile(
    r"^(?P<test> *#\[test\]\n(?: *#.*\n)*)?(?P<indent> *)(?:pub(?:\(\w+\))? |final )?fn (?P<name>\w+)"
    r"(?P<text>.*\}|.*(?:\n(?:(?P=indent)(?: |[){]|where\b).*)?)*?\n(?P=indent)\{?\})$", re.M)
# Clauses, ghost members, imports and attributes, with the lines that continue them.
STATED = re.compile(r"^( *)(?:requires|ensures|decreases|invariant|ghost|use|#!?\[(?!test\])).*\n(?:\1 +\S.*\n)*", re.M)
# The folders of tests of a crate, if not that of its name.
FOLDERS = {"ijson_value": ["array", "object", "value"], "ijson_extra": ["canonical", "merge_patch", "pointer"], "ijson": ["convert"]}
# Calls that tests make by another call, which does nothing else with its arguments.
BY = {"PairStore::reserve": "run", "ToIValue::to_ivalue": "to_value", "FromIValue::from_ivalue": "from_value"}
MEMORY = "tools/memory.txt"
# An error for want of memory as a value, no pattern or type, in a line without one as its pattern.
ERROR = re.compile(r"^(?!.*(?:AllocError|\w+::Memory)\b\)* =>).*(?:AllocError|\w+::Memory)\b(?!\)*\s*(?:=>|\||= |>|\(_\)|if\b))")
GROWS = {"Box::new"} | set(
    "allocator clone extend extend_from_slice insert push push_str reserve reserve_exact resize shrink_to_fit to_string with_capacity".split())

# A function of a file below crates/, with the head of its implementation, if any, and its body without comments, literals and clauses.
Function = collections.namedtuple("Function", "path owner name is_test indent body")


def functions_of(paths):
    """The functions of some files."""
    for path in paths:
        text = STATED.sub("", LITERALS.sub(lambda found: "" if found[0].startswith("//") else '""', path.read_text()))
        for found in FUNCTION.finditer(text):
            owner = re.findall(r"^(?:impl\b.*|\})", text[:found.start()], re.M)[-1:]
            yield Function(path.relative_to(TOP / "crates"), *owner or [""], found["name"], bool(found["test"]), len(found["indent"]), found["text"])


def failing():
    """The error type of each public call that can fail, its comment, and the names of its clauses that speak of the error, by crate and call."""
    found, traits = {}, {item.name for item in items("trait")}
    for call in items("fn"):
        result = re.match(r"Result<(.*)>$", parts_of(call.text, "Self")[1])
        if result and call.trait not in traits:
            names = [name for kind, name, text in call.clauses if kind != "requires" and name and re.search(r"\b(?:IfErr|OnErr|IsErr|Err)\b", text)]
            found[call.crate, call.path_name] = split_at(result[1])[-1], call.sentence, names
    for comment, name in re.findall(r"((?:^///.*\n)+)(?:#.*\n)*macro_rules! (\w+)", (TOP / "crates/ijson/src/macros.rt").read_text(), re.M):
        for error in re.findall(r"`Result<\w+, (\w+)>`", comment):
            found["ijson", f"{name}!"] = error, " ".join(line[3:].strip() for line in comment.splitlines()), []
    return found


@functools.lru_cache(None)
def words_of(body):
    """Each word, macro, and path of two words."""
    return {part for word in re.findall(r"(?:\w+::)?\w+!?", re.sub(r"::<[^()]*?>(?=::|\()", "", body)) for part in (word, *word.split("::"))}


def tests():
    """Compares the public calls of the crates that can fail with the tests.

    A test of its folder that is run with each allocation failing makes each such call, in its own body or in a function of its folder, or of a module without
    tests, that it calls, directly or not; it asserts something, and returns only at its end. A trait's call is made once, for all its implementations.
    """
    folders, made = collections.defaultdict(list), collections.defaultdict(set)
    for function in functions_of(sorted(TOP.glob("crates/ijson/src/tests/**/*.rt"))):
        folders[function.path.with_suffix("").parts[3]].append(function)
    shared = [function for functions in folders.values() if not any(it.is_test for it in functions) for function in functions]
    for folder, test in ((folder, function) for folder, functions in folders.items() for function in functions):
        if test.is_test and "large" not in test.path.with_suffix("").parts and not re.search(r"\breturn\b|\?;", test.body):
            bodies = [test.body]  # grows while it is read
            for body in bodies:
                near = (it for it in [*shared, *folders[folder]] if not it.is_test and it.name in words_of(body))
                bodies += [it.body for it in near if it.body not in bodies]
            if any(re.search(r"\bassert(?:_eq|_ne)?!", body) for body in bodies):
                made[folder] = made[folder].union(*map(words_of, bodies))
    methods, amiss, wanted = {call.path_name for call in items("fn") if re.search(r"\((?:&(?:'\w+ )?)?(?:mut )?self\b", call.text)}, [], failing()
    for crate, call in wanted:
        word = BY.get(call, call.rpartition("::")[2] if call in methods else call)
        if not any(word in made[folder] for folder in FOLDERS.get(crate, [crate.removeprefix("ijson_")])):
            amiss.append(f"no test that is run with failing allocations makes the call `{call}` of {crate}")
    return len(wanted) - len(amiss), amiss


def library_functions():
    """The functions of the libraries and of the program."""
    paths = [path for crates in ("ijson_*", "ijson") for _, path, _ in sources(crates)]
    return functions_of(paths + [path for path in TOP.glob("crates/ijson_compact/src/*.rt") if path.name != "tests.rt"])


def places():
    """Each place that makes an error for want of memory, as memory.txt names it: its line after those around it, up to one that is no arm of a `match`."""
    for function in library_functions():
        lines = function.body.splitlines()[1:]
        owner = re.search(r" (\w+<.* for \w+)", function.owner)[1] + ": " if function.name == "from" else ""
        for at in (at for at, line in enumerate(lines) if ERROR.search(line)):
            texts, inner = [lines[at].strip().rstrip(",;")], len(lines[at]) - len(lines[at].lstrip())
            for line in reversed(lines[:at]):
                outer = len(line) - len(line.lstrip())
                if function.indent < outer < inner and (len(texts) == 1 or "=>" in texts[0]):
                    texts, inner = [line.strip(), *texts], outer
            # a conversion from an error that means want of memory alone passes it on
            if not re.match(r"From<(?:AllocError|AllocFailed|Refused)\b", owner):
                yield f"{function.path}: {owner}{function.name}: {' '.join(texts)}"


def meant(calls, caller, name):
    """The functions that a name means in a caller: those of its file, unless it has the name itself, else of its crate, else of all."""
    among = [place for place in calls if place[1] == name]
    same_file = [place for place in among if place[0] == caller[0] and name != caller[1]]
    return same_file or [place for place in among if place[0] != caller[0] and place[0].parts[0] == caller[0].parts[0]] or among


def without_allocator():
    """The public functions that allocate and have no allocator among their arguments, as memory.txt names them."""
    calls = collections.defaultdict(set)
    for function in library_functions():
        # `entry` is a method of formatters, too
        names = set(re.findall(r"(Box::new|\w+)(?:::<[^()]*>)?\(", function.body)) - ({"entry"} if function.name == "fmt" else set())
        calls[function.path, function.name] |= names
    called = {caller: {place for name in names for place in meant(calls, caller, name)} for caller, names in calls.items()}
    allocating = {place for place, names in calls.items() if names & GROWS}
    while more := {place for place, others in called.items() if place not in allocating and others & allocating}:
        allocating |= more
    for call in items("fn"):
        if (call.path.relative_to(TOP / "crates"), call.name) in allocating and not re.search(r": (?:Global|&?A)\b", call.text):
            yield f"{call.crate}: {call.path_name}"


def memory():
    """Compares two lists in memory.txt with the sources: places that make an error for want of memory, by their reasons, and public functions that
    allocate although no allocator is among their arguments.

    A place makes such an error if it writes `AllocError` or `Memory` as a value, not in an arm whose pattern is such an error. The list names it by its file,
    its function and what is around it, so a place with one more condition is another one. At most 10 places have a reason other than the first, a failed
    allocation. A function allocates if its body calls one of `GROWS`, or a function that allocates.
    """
    first, second = re.sub(r"^#.*\n", "", (TOP / MEMORY).read_text(), flags=re.M).split("\n\n")
    reasons = [[line.strip() for line in lines.splitlines()] for lines in re.findall(r"^\S.*\n((?: .*\n?)+)", first, re.M)]
    listed = collections.Counter([place for places in reasons for place in places])
    listed += collections.Counter(f"{crate}: {name}" for crate, names in re.findall(r"^(\w+): (.*)", second, re.M) for name in names.split())
    made, others = collections.Counter([*places(), *without_allocator()]), sum(map(len, reasons[1:]))
    amiss = [f"not in {MEMORY}: {what}" for what in (made - listed).elements()]
    amiss += [f"{MEMORY} has, and the sources have not: {what}" for what in (listed - made).elements()]
    return sum(made.values()), amiss + [f"{MEMORY} has {others} places without a failed allocation, more than 10"] * (others > 10)
