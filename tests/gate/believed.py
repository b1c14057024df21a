#!/usr/bin/env python3
"""Lists the definitions that one must believe to believe the headlines: that each key of a pool is linearizable, what a pool gives account
of, and what one server answers.

Usage: believed.py [--check]

From the clauses of a function's contract it follows the names of definitions, as they are imported (`ghost use` in a source, `use` in
specs/), from one definition to the next, and the types of the sources that these name. Definitions of Rattle's own libraries are not
listed, nor are helpers that only proofs cite. Beside the account of a pool it follows the clause `steps` of the same call, which says what
an event does to the pool. It writes

- docs/definitions.txt: each definition by crate and file, with its lines, without comments and empty ones, and which headlines need it;
- docs/DEFINITIONS.md, between two marks: how many definitions and lines each headline needs;
- docs/LINEARIZABLE.md: the first headline whole, with its comments, except the grammar of lines, flags and replies, and how calls of a
  `World` read it.

With --check it writes nothing. It checks that all three are as it would write them, that README.md has the counts of lines, and that
docs/DEFINITIONS.md explains each of these definitions, in the first column of a table of definitions, and no other. The last line is 'N
passed, M failed': one for each definition, one for each file, and one for each count.
"""

import argparse
import functools
import pathlib
import re
import sys
from typing import NamedTuple

sys.path.insert(0, str(pathlib.Path(__file__).resolve().parents[1] / "lib"))

from suite import CRATES, TOP, counted

LIST, EXPLAINED, README = TOP / "docs" / "definitions.txt", TOP / "docs" / "DEFINITIONS.md", TOP / "README.md"
WHOLE = TOP / "docs" / "LINEARIZABLE.md"
BEGIN, END = "<!-- tests/gate/believed.py writes from here -->\n", "<!-- to here -->\n"

HEAD = re.compile(r"(?:abbrev|unfoldable|pub|abstract)(?: pub)?(?: (?:record|data))? (\S+)")
IMPORT = re.compile(r"use Rattle\.(\w+)\.specs\.([\w.]+?)(?:\.\{([^}]*)\}| as (\w+))[ \t]*;?\s*$", re.M)
WORD = re.compile(r"(?<![\w.'])[\w'?!]+(?:\.[\w'?!]+)*|[^\s\w(){}\[\],;.'◌]+")
TYPE = re.compile(r"(?m)^(?:pub(?:\([a-z]+\))? )?(?:enum|struct|const) (\w+)")
RUST_USE = re.compile(r"(?m)^(?:pub )?use (\w+)(?:::\w+)*::(?:\{([^}]*)\}|(\w+));")


class Root(NamedTuple):
    """A theorem: its title, its letter in the list, the function whose contract it is, its name on pages, the clauses that state it, and
    lists of its own for some of the definitions: their title, their letter, and their crate, file and names. Then clauses of the same
    contract that say what the theorem is about: their title, their letter, and their names."""

    title: str
    letter: str
    crate: str
    file: str
    function: str
    called: str
    clauses: tuple
    apart: tuple = ()
    beside: tuple = ()


GRAMMAR = (
    "the grammar of lines, flags and replies",
    "G",
    (
        ("mc_request", "Requests.antt", "requests_of"),
        ("mc_request", "Faults.antt", "fault_line"),
        ("mc_reply", "Spelling.antt", "spelling_of"),
        ("mc_reply", "Spelling.antt", "answer_of"),
    ),
)

READINGS = (
    "how a world is read",
    "W",
    (
        *(("mc_world", "Worlds.antt", name) for name in ("WorldState", "text_of", "put_out_of", "history_of")),
        ("mc_world", "WorldState.antt", "home_of"),
    ),
)

ROOTS = [
    Root(
        "Each key of a pool is linearizable",
        "K",
        "mc_linearizable",
        "worlds.rt",
        "worlds_are_linearizable",
        "worlds_are_linearizable",
        ("linearizable",),
        (GRAMMAR, READINGS),
    ),
    Root(
        "The account of a pool",
        "A",
        "mc_world",
        "worlds.rt",
        "step",
        "World::step",
        ("account",),
        beside=(("what its events do, `steps`", "E", ("steps",)),),
    ),
    Root("One server", "S", "mc_script", "texts.rt", "text_of_script", "text_of_script", ("text",)),
]


class Definition(NamedTuple):
    """A definition of specs/, or a type of a source (with a path that ends in `.rt`)."""

    crate: str
    file: str
    name: str

    def is_type(self):
        return self.file.endswith(".rt")


REGISTER = Definition("mc_registers", "Registers.antt", "IsRun")


# The text of definitions.


def code_lines(lines, comment):
    """Lines without comments and empty ones."""
    return [line for line in lines if line.strip() and not line.lstrip().startswith(comment)]


@functools.lru_cache(maxsize=None)
def definitions_of(crate, file):
    """The lines of each definition of a file of specs/, by its name."""
    found, name = {}, None
    for line in code_lines((CRATES / crate / "specs" / file).read_text().splitlines(), "--"):
        head = HEAD.match(line)
        if head and not line.startswith("pub mod"):
            name = head[1].strip("◌")
            found[name] = []
        elif re.match(r"(use|pub mod|mod|infix\w*) ", line):
            name = None
        if name:
            found[name].append(line)
    return found


@functools.lru_cache(maxsize=None)
def meanings(crate, file):
    """The meaning of the names of a file of specs/: its definitions, and those that a constructor makes values of."""
    found = {}
    for name, lines in definitions_of(crate, file).items():
        if lines[0].startswith("pub data "):
            found.update({head[1]: Definition(crate, file, name) for head in map(re.compile(r"  (\w+) : ").match, lines) if head})
    return {**found, **{name: Definition(crate, file, name) for name in definitions_of(crate, file)}}


@functools.lru_cache(maxsize=None)
def types_of(crate):
    """The file and the lines of each struct, enum and constant of a crate, without its attributes."""
    found = {}
    for path in sorted((CRATES / crate / "src").rglob("*.rt")):
        lines = path.read_text().splitlines()
        for number, line in enumerate(lines):
            if head := TYPE.match(line):
                last = next((it for it in range(number, len(lines)) if lines[it].startswith("}") or lines[it].endswith(";")), number)
                found.setdefault(head[1], (str(path.relative_to(CRATES / crate / "src")), code_lines(lines[number : last + 1], "//")))
    return found


def lines_of(it):
    if it.is_type():
        return types_of(it.crate)[it.name][1]
    return definitions_of(it.crate, it.file)[it.name]


# What names mean.


def pairs(words):
    """The names of an import, and the name of each where it is imported."""
    for word in filter(None, (it.strip() for it in (words or "").split(","))):
        name, _, known = word.partition(" as ")
        yield name.strip("◌ "), (known or name).strip("◌ ")


def type_named(crate, path):
    """The type of a module of declared types: `declared.parts.Atom.TheVariants` is of Atom."""
    names = [it for it in path.split(".") if it in types_of(crate)]
    return Definition(crate, types_of(crate)[names[-1]][0], names[-1]) if names else None


def imported(text):
    """The meaning of the names that a text imports: definitions, types, and for the names of modules a crate and a file or a type."""
    known, modules = {}, {}
    for crate, path, words, alias in IMPORT.findall(text):
        if not (CRATES / crate).is_dir():
            continue
        if path.startswith("declared."):
            meant = type_named(crate, path)
            for name, called in pairs(words):
                known[called] = meant or type_named(crate, name)
            if alias:
                modules[alias] = meant
        else:
            file = path.replace(".", "/") + ".antt"
            if not (CRATES / crate / "specs" / file).is_file():
                sys.exit(f"believed.py: {crate} has no specs/{file}")
            known.update({called: meanings(crate, file)[name] for name, called in pairs(words) if name in meanings(crate, file)})
            if alias:
                modules[alias] = (crate, file)
    if None in known.values() or None in modules.values():
        sys.exit(f"believed.py: {[it for it, meant in {**known, **modules}.items() if meant is None]} is no type of a source")
    return known, modules


@functools.lru_cache(maxsize=None)
def scope_of(crate, file):
    """The meaning of names in a file of specs/."""
    known, modules = imported((CRATES / crate / "specs" / file).read_text())
    return {**known, **meanings(crate, file)}, modules


def named(text, scope):
    """The definitions and types that a text names."""
    known, modules = scope
    for word in WORD.findall(text):
        first, _, rest = word.partition(".")
        if first in modules:
            module = modules[first]
            if isinstance(module, Definition):
                yield module
            elif rest.partition(".")[0] in meanings(*module):
                yield meanings(*module)[rest.partition(".")[0]]
        elif first in known:
            yield known[first]


def types_within(it):
    """The types that a type's own text names: of its crate, or imported by its file."""
    text = (CRATES / it.crate / "src" / it.file).read_text()
    places = dict.fromkeys(types_of(it.crate), it.crate)
    for crate, many, one in RUST_USE.findall(text):
        if (CRATES / crate).is_dir():
            places.update({name: crate for name, _ in pairs(many or one) if name in types_of(crate)})
    for word in sorted(set(re.findall(r"\w+", "\n".join(lines_of(it))))):
        if word in places:
            yield Definition(places[word], types_of(places[word])[word][0], word)


def next_of(it):
    """The definitions to read next: the definitions and types that a definition names."""
    if it.is_type():
        return types_within(it)
    return named("\n".join(lines_of(it)), scope_of(it.crate, it.file))


# A theorem.


def contract_of(root, clauses):
    """The clauses of these names in the contract of a theorem's function, and the imports before them."""
    text = (CRATES / root.crate / "src" / root.file).read_text()
    found = re.search(rf"fn {root.function}(<[^(]*>)?\(", text)
    before, after = (text[: found.start()], text[found.end() :]) if found else (text, "")
    written = re.findall(r"(?m)^\s*ensures (\w+) \{(.*)\}$", after.split("\n    {\n", 1)[0].split("\n{\n", 1)[0])
    stated = [words for name, words in written if name in clauses]
    if not found or len(stated) != len(clauses):
        sys.exit(f"believed.py: {root.crate}/src/{root.file} has no function {root.function} with the clauses {', '.join(clauses)}")
    return "\n".join(stated), imported(before)


def led_to(left, but=frozenset()):
    """All that definitions lead to, with them, if some are not followed."""
    found, left = set(), list(left)
    while left:
        it = left.pop()
        if it not in found and it not in but:
            found.add(it)
            left += next_of(it)
    return found


def reached(root):
    """All that the clauses of a theorem lead to."""
    return led_to(named(*contract_of(root, root.clauses)))


def beside(root):
    """Each list of what the clauses beside a theorem lead to, and it and the lists before do not, with its title and letter."""
    found = reached(root)
    for title, letter, clauses in root.beside:
        more = led_to(named(*contract_of(root, clauses))) - found
        found |= more
        yield title, letter, more


def parted(root):
    """The definitions that are read for a theorem alone, and then each list of its own: the definitions there, and those that they also
    lead to."""
    lists = [{Definition(*it) for it in names} for _, _, names in root.apart]
    alone = led_to(named(*contract_of(root, root.clauses)), set().union(*lists))
    parts = [led_to(names) for names in lists[:1]]
    alone -= set().union(*parts)
    for names in lists[1:]:
        parts.append(led_to(names) - alone - set().union(*parts))
    return alone, parts


# The counts.


def sizes(found):
    """The number of definitions, and their lines."""
    return len(found), sum(len(lines_of(it)) for it in found)


def sizes_by_kind(found):
    """The sizes of definitions, and of types of the sources."""
    return [sizes([it for it in found if it.is_type() is kind]) for kind in (False, True)]


def told(found):
    definitions, types = sizes_by_kind(found)
    last = f"; {types[0]:,} {'type' if types[0] == 1 else 'types'} of the sources, {types[1]:,} lines" if types[0] else ""
    return f"{definitions[0]:,} definitions, {definitions[1]:,} lines{last}"


def row(title, found):
    definitions, types = sizes_by_kind(found)
    numbers = (f"{number:,}" if number else "" for number in (*definitions, *types))
    return f"| {title} | {' | '.join(numbers)} |"


def counts():
    """A table of how much each headline needs."""
    yield "| Headline | Definitions | Lines | Types | Lines |"
    yield "|---|---|---|---|---|"
    for root in ROOTS:
        alone, parts = parted(root)
        yield row(f"**{root.title}**: `{root.clauses[0]}` of `{root.crate}::{root.called}`", alone)
        if parts:
            yield row(f"of these the register, `{REGISTER.name}`", led_to([REGISTER]) & alone)
        yield from (row(f"beside these {title}", part) for (title, *_), part in zip(root.apart, parts))
        yield from (row(f"beside these {title}", more) for title, _, more in beside(root))
    yield row("In common to the account of a pool and one server", reached(ROOTS[1]) & reached(ROOTS[2]))


def with_counts(page):
    """The page that explains definitions, with the table between its marks."""
    before, begin, rest = page.partition(BEGIN)
    _, end, after = rest.partition(END)
    if not begin or not end:
        sys.exit(f"believed.py: {EXPLAINED.relative_to(TOP)} has not both marks")
    return "".join([before, begin, "\n", *(f"{line}\n" for line in counts()), "\n", end, after])


# The list.


def order():
    """The crates as crates.txt has them."""
    return [line.split(":")[0].split()[0] for line in (TOP / "crates.txt").read_text().splitlines() if line.strip() and not line.startswith("#")]


def lettered():
    """Each list with its letter."""
    for root in ROOTS:
        alone, parts = parted(root)
        yield root.letter, alone
        yield from ((letter, part) for (_, letter, _), part in zip(root.apart, parts))
        yield from ((letter, more) for _, letter, more in beside(root))


def listed():
    """The list: of each file, lowest crate first, its definitions or types, with the letters of the headlines that need them."""
    lists, crates = list(lettered()), order()
    found = set().union(*(part for _, part in lists))
    yield "What one must believe to believe the headlines of README.md: definitions, and types of the sources, with their lines without comments"
    yield "and empty ones. docs/DEFINITIONS.md explains them. tests/gate/believed.py writes this list."
    yield ""
    for root in ROOTS:
        yield f"{root.letter}  {root.title[0].lower()}{root.title[1:]}"
        yield from (f"{letter}  {title}, which {root.letter} needs too" for title, letter, _ in root.apart)
        yield from (f"{letter}  {title}, which {root.letter} is about" for title, letter, _ in root.beside)
    for crate, is_type, file in sorted({(it.crate, it.is_type(), it.file) for it in found}, key=lambda it: (crates.index(it[0]), *it[1:])):
        here = {it for it in found if (it.crate, it.file) == (crate, file)}
        lines = list(types_of(crate) if is_type else definitions_of(crate, file))
        yield from ("", f"{crate}/{'src' if is_type else 'specs'}/{file}")
        for it in sorted(here, key=lambda it: lines.index(it.name)):
            letters = "".join(letter if it in part else " " for letter, part in lists)
            yield f"  {letters} {sizes([it])[1]:4}  {it.name}"


# The first headline, printed.


def texts_of(crate, file, names):
    """The text of definitions of a file, or of types, in their order there, each with the comments right above it."""
    is_type = file.endswith(".rt")
    place, head, comment = ("src", TYPE, "//") if is_type else ("specs", HEAD, "--")
    lines = (CRATES / crate / place / file).read_text().splitlines()
    for number, line in enumerate(lines):
        found = head.match(line)
        if not found or found[1].strip("◌") not in names or line.startswith("pub mod"):
            continue
        first, last = number, number + 1
        while first and lines[first - 1].startswith((comment, "#[")):
            first -= 1
        many = len(lines_of(Definition(crate, file, found[1].strip("◌"))))
        while len(code_lines(lines[number:last], comment)) < many:
            last += 1
        yield "\n".join(lines[first:last])


def whole(root):
    """The definitions that are read for a theorem alone, the highest crate first."""
    alone, _ = parted(root)
    crates = order()
    for file in sorted({(it.crate, it.file) for it in alone}, key=lambda it: (it[1].endswith(".rt"), -crates.index(it[0]), it[1])):
        names = {it.name for it in alone if (it.crate, it.file) == file}
        kind = "rust" if file[1].endswith(".rt") else "text"
        place = "src" if kind == "rust" else "specs"
        yield from (f"## `{file[0]}/{place}/{file[1]}`", "", f"```{kind}", "\n\n".join(texts_of(*file, names)), "```", "")


def printed():
    """The page that prints the first headline."""
    root = ROOTS[0]
    alone, parts = parted(root)
    lines = [
        "# Each key of a pool is linearizable",
        "",
        f"The clause `linearizable` of `{root.crate}::{root.function}`, printed except two lists: {told(alone)}.",
        "Comments and empty lines are not counted. The highest crate is first, and each file is in its own order.",
        "",
        f"Not printed, and listed in [{LIST.name}]({LIST.name}):",
        "",
        *(f"- {title}: {told(part)}" for (title, *_), part in zip(root.apart, parts)),
        "",
        "What Rattle's own libraries define is trusted. [LAWS.md](LAWS.md) says the clause in words, and [DEFINITIONS.md](DEFINITIONS.md) has the",
        "source of each definition. `tests/gate/believed.py` writes this page.",
        "",
    ]
    return "\n".join([*lines, *whole(root)]).rstrip() + "\n"


# The pages.


def pages():
    """The text that each file should have."""
    return {LIST: "".join(f"{line}\n" for line in listed()), EXPLAINED: with_counts(EXPLAINED.read_text()), WHOLE: printed()}


def explained():
    """The names in the first column of each table of definitions."""
    names, head = set(), ""
    for line, before in zip(lines := EXPLAINED.read_text().splitlines(), ["", *lines]):
        head = line if line.startswith("|") and not before.startswith("|") else head
        if line.startswith("| `") and head.startswith("| Definition |"):
            names.update(it.strip("◌") for it in re.findall(r"`([^`]+)`", line.split(" | ")[0]))
    return names


def checks():
    """Whether each thing is right, and the message if it is not."""
    needed = set().union(*map(reached, ROOTS), *(more for root in ROOTS for _, _, more in beside(root)))
    names, believed = explained(), {it for it in needed if not it.is_type()}
    for it in sorted(believed):
        yield it.name in names, f"docs/DEFINITIONS.md does not explain {it.name} of {it.crate}/specs/{it.file}"
    more = sorted(names - {it.name for it in believed})
    yield not more, f"docs/DEFINITIONS.md explains what no headline needs: {', '.join(more)}"
    for page, text in pages().items():
        yield page.is_file() and page.read_text() == text, f"{page.relative_to(TOP)} is stale: run tests/gate/believed.py"
    for root in ROOTS:
        for title, found in ((root.title, parted(root)[0]), *((f"{root.title}: {title}", more) for title, _, more in beside(root))):
            count = f"{sizes([it for it in found if not it.is_type()])[1]:,} lines"
            yield count in README.read_text(), f"README.md does not say {count} for: {title}"


def main():
    words = argparse.ArgumentParser(description=__doc__, formatter_class=argparse.RawDescriptionHelpFormatter)
    words.add_argument("--check", action="store_true")
    asked = words.parse_args()
    if not asked.check:
        for page, text in pages().items():
            page.write_text(text)
        return 0
    found = list(checks())
    for is_right, why in found:
        if not is_right:
            print(why)
    return counted(bool(is_right) for is_right, _ in found)


if __name__ == "__main__":
    sys.exit(main())
