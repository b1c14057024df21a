#!/usr/bin/env python3
"""Checks that something cites each definition and each lemma: one that nothing cites would be believed or proved for nothing.

Usage: uncited.py      (crates/*/specs and crates/*/proofs, except the files that belong to one function)

A definition is a run of lines between empty ones. It is cited if one of its names is in another such run, in a source, or in an
edit. An import does not cite.

It prints a line for each that nothing cites; the last line is 'N passed, M failed', one for each file.
"""
import collections
import pathlib
import re
import sys

sys.path.insert(0, str(pathlib.Path(__file__).resolve().parents[1] / "lib"))

from suite import CRATES, TESTS, TOP, counted

WORD = re.compile(r"[A-Za-z_][A-Za-z0-9_'-]*")
NAMED = re.compile(r"(?:abbrev |unfoldable )?(?:pub )?(?:abbrev )?(?:record |data |ruleset )?([A-Za-z_][A-Za-z0-9_'-]*)")
IMPORT = re.compile(r"^(?:pub )?(?:use|mod) .*$", re.MULTILINE)

# Files of one function's proof: the check reads each of its answers.
OF_A_FUNCTION = {"Answers.antt", "Invariants.antt", "Proof.antt", "Lib.antt"}

# Words at the start of a line that begin no definition.
NO_NAMES = {"unfolding", "where", "module"}


def sources():
    """The texts of all sources, definitions, proofs and edits, without their imports, by path."""
    for folder in (CRATES, TESTS / "must-fail"):
        for path in sorted(folder.rglob("*")):
            if path.suffix in (".rt", ".antt", ".edit") and "out" not in path.relative_to(TOP).parts:
                yield path, IMPORT.sub("", path.read_text())


def names_in(run):
    """The names that a run of lines defines."""
    starts = (NAMED.match(line) for line in run.splitlines() if not line.startswith("--"))
    return {start[1] for start in starts if start and start[1] not in NO_NAMES}


def uncited(text, uses):
    """The names of each definition of a file that nothing except itself cites."""
    for run in text.split("\n\n"):
        names, own = names_in(run), collections.Counter(WORD.findall(run))
        if names and all(uses[name] <= own[name] for name in names):
            yield ", ".join(sorted(names))


def main():
    texts = dict(sources())
    uses = collections.Counter(word for text in texts.values() for word in WORD.findall(text))
    told = []
    for path, text in texts.items():
        if path.suffix == ".antt" and path.name not in OF_A_FUNCTION:
            found = list(uncited(text, uses))
            for names in found:
                print(f"{path.relative_to(TOP)}: nothing cites {names}")
            told.append(not found)
    return counted(told)


if __name__ == "__main__":
    sys.exit(main())
