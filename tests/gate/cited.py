#!/usr/bin/env python3
"""Checks that each file and folder that the documents and the crates' own comments cite exists, and that the toolchain is named right.

Usage: cited.py      (README.md, docs/*.md, and the `//!` and `///` comments of crates/*/src)

A word in backquotes is a path if it has a slash, or ends as a source, a script or a document does (`.rt`, `.antt`, `.edit`, `.py`,
`.sh`, `.md`). It is looked for from the top, among the crates, and beside the document. A path `src/..` or `specs/..` is in a crate:
that of the comment, or one that the paragraph names; in a document whose paragraph names none, the one that was named last. A folder of
all crates (`specs/`) and a file without a folder may be anywhere. The words NAME and CRATE are any name
(`tests/must-fail/CRATE/NAME.edit`). The targets of a document's links are looked for from its folder.

One line of README.md names the kits with which the gate passed, and the logic that they share; no other line of a document names either.
`rt version` prints both. The logic on this machine must be the one that README.md names; its kit may be another.

It prints a line for each path that does not exist, and for each line that must change for the toolchain; the last line is 'N passed, M
failed', one for each document and crate, and one for the toolchain.
"""
import pathlib
import re
import subprocess
import sys

sys.path.insert(0, str(pathlib.Path(__file__).resolve().parents[1] / "lib"))

from suite import CRATES, TOP, counted

README = TOP / "README.md"
ENDINGS = (".rt", ".antt", ".edit", ".py", ".sh", ".md")
QUOTED = re.compile(r"`([^`\s]+)`")
LINK = re.compile(r"\]\(([^()\s]+)\)")
CRATE = re.compile(r"\bmc_[a-z_]+\b")
ANY_NAME = re.compile(r"\b(?:NAME|CRATE)\b")
LOGIC = re.compile(r"\blogic [0-9a-f]{16}\b")
TOOLCHAIN = re.compile(rf"\brattle-kit-\w+|{LOGIC.pattern}")

# Paths outside this repository: memcached's own document, build results in the folders out/, and files of the system.
ELSEWHERE = re.compile(r"doc/protocol\.txt$|(.*/)?out(/|$)|/")


def is_path(word):
    """Whether a word in backquotes names a file or a folder of the repository."""
    looks_so = re.fullmatch(r"[\w.*/-]+", word) and ("/" in word or word.endswith(ENDINGS))
    return looks_so and not word.startswith(".") and not ELSEWHERE.match(word)


def is_below(folder, path):
    """Whether a path leads from a folder to something."""
    pattern = ANY_NAME.sub("*", path.rstrip("/"))
    return any(folder.glob(pattern)) if "*" in pattern else (folder / pattern).exists()


def is_anywhere(word):
    """Whether it is a folder that crates have, or a file without a folder, and one of that name exists."""
    place = "*/" if word.endswith("/") else "**/"
    return "/" not in word.rstrip("/") and any(CRATES.glob(place + word.rstrip("/")))


def paragraphs(lines):
    """Runs of lines between empty ones, each with the number of its first; a row of a table is one by itself."""
    run, first = [], 0
    for number, line in enumerate([*lines, ""], 1):
        is_row = line.lstrip().startswith("|")
        if run and (is_row or not line.strip()):
            yield first, run
            run = []
        if is_row:
            yield number, [line]
        elif line.strip():
            first = first if run else number
            run.append(line)


def comments(source):
    """The lines of a source that are documentation, each without its slashes, and empty ones for all others."""
    stripped = (line.strip() for line in source.read_text().splitlines())
    return [line[3:] if line.startswith(("//!", "///")) else "" for line in stripped]


def missing(file, lines, own=None):
    """The paths that some lines of a file cite and that do not exist, with the numbers of the lines. `own` is the crate of the file."""
    last = []
    for first, run in paragraphs(lines):
        named = [CRATES / name for name in CRATE.findall(" ".join(run)) if (CRATES / name).is_dir()]
        last = named[-1:] or last
        crates = [*named, CRATES / own] if own else named or last
        folders = [TOP, CRATES, file.parent, *crates]
        for number, line in enumerate(run, first):
            for word in filter(is_path, QUOTED.findall(line)):
                if not is_anywhere(word) and not any(is_below(folder, word) for folder in folders):
                    yield number, word
            for target in () if own else LINK.findall(line):
                path = target.partition("#")[0]
                if path and "://" not in path and not (file.parent / path).exists():
                    yield number, target


def is_right(file, lines, own=None):
    """Prints the paths that a file cites and that do not exist, and returns whether there are none."""
    faults = list(missing(file, lines, own))
    for number, word in faults:
        print(f"{file.relative_to(TOP)}:{number}: {word} is not there")
    return not faults


def names_the_toolchain(documents):
    """Prints which line must change for this machine's toolchain, if any, and returns whether none must."""
    version = subprocess.run(["rt", "version"], stdout=subprocess.PIPE, text=True, check=True).stdout.strip()
    own = LOGIC.findall(version)
    named = [
        (document, f"{document.relative_to(TOP)}:{number}", LOGIC.findall(line))
        for document in documents
        for number, line in enumerate(document.read_text().splitlines(), 1)
        if TOOLCHAIN.search(line)
    ]
    if [document for document, _, _ in named] != [README]:
        places = ", ".join(place for _, place, _ in named)
        print(f"kits and a logic are to be named in one line, of README.md; they are in these: {places or 'none'}")
        return False
    _, place, logic = named[0]
    if logic != own:
        said = " and ".join(logic) or "no logic"
        print(f"{place}: it names {said}, and `rt version` prints {version}: change it, once the gate has passed with that kit")
    return logic == own


def main():
    documents = [README, *sorted(TOP.glob("docs/*.md"))]
    told = [is_right(document, document.read_text().splitlines()) for document in documents]
    for crate in sorted(path for path in CRATES.iterdir() if (path / "src").is_dir()):
        sources = sorted(crate.glob("src/**/*.rt"))
        told.append(all([is_right(source, comments(source), crate.name) for source in sources]))
    told.append(names_the_toolchain(documents))
    return counted(told)


if __name__ == "__main__":
    if len(sys.argv) != 1:
        sys.exit(__doc__)
    sys.exit(main())
