#!/usr/bin/env python3
"""Prints the words of the pages that neither a spelling tool nor the project's own list knows, and what a tool for prose says of the pages.

Usage: spelling.py [--words] [PAGE ..]      (README.md, CHANGELOG.md, docs/*.md; Debian: aspell and aspell-en, or hunspell and hunspell-en-gb;
                                            python3-proselint)

aspell is asked, or hunspell if there is no aspell, with British spelling. Code blocks, code spans, the targets of links, and words with a
digit, a slash, a dot or an underscore in them are left out. tests/by_hand/spelling.words has the project's own words, one a line, in any
case; what follows a `#` is a comment. A word of it that no page has is named too, if all pages are read. proselint reads the same text.

It prints PAGE:LINE: WORD for each word, and PAGE:LINE:COLUMN: and what is wrong for the prose. --words prints the words of the pages
instead, each once, and asks no tool. The last line is 'N passed, M failed', two for each page, and one for the list if all pages are read.
"""
import argparse
import pathlib
import re
import shutil
import subprocess
import sys

sys.path.insert(0, str(pathlib.Path(__file__).resolve().parents[1] / "lib"))

from suite import TOP, counted

OWN = TOP / "tests" / "by_hand" / "spelling.words"
TOOLS = (("aspell", "list", "--lang=en_GB", "--encoding=utf-8"), ("hunspell", "-l", "-d", "en_GB", "-i", "utf-8"))
ITEM = re.compile(r" *(?:[-*]|\d+\.) +")
SPAN = re.compile(r"(`+)(?!`).*?(?<!`)\1(?!`)", re.DOTALL)
COMMENT = re.compile(r"<!--.*?-->", re.DOTALL)
TARGET = re.compile(r"\]\([^()\s]*\)")
CHUNK = re.compile(r"[^\s|()\[\]<>*\"“”,;:!?=+–]+")
WORD = re.compile(r"[A-Za-z]+(?:'[A-Za-z]+)?")
# What proselint takes "from 65,536 bytes on" and "0x80" for.
NOT_MEANT = ("dates_times.dates", "typography.symbols.multiplication_symbol")
NO_WORD = re.compile(r"[\d/_@{}\\$%&~^#]|\w\.\w")


def without_blocks(text):
    """The lines of a page, those of a code block empty: fenced, or four columns deeper than the text that it is in, after an empty line."""
    depths, fenced, in_text = [0], False, False
    for line in text.split("\n"):
        indent = len(line) - len(line.lstrip(" "))
        fence = line.lstrip().startswith("```")
        fenced = fenced != fence
        if fenced or fence or not line.strip():
            in_text = False
            yield ""
            continue
        item = ITEM.match(line)
        if item or not in_text:
            while depths[-1] > indent:
                depths.pop()
        if not in_text and indent >= depths[-1] + 4:
            yield ""
            continue
        if item:
            depths.append(item.end())
        in_text = True
        yield line


def blanked(found):
    """As many line ends as what was found has, so that lines keep their numbers."""
    return " " + "\n" * found.group().count("\n")


def text_of(page):
    """The text of a page without code, and without the targets of links."""
    text = "\n".join(without_blocks(COMMENT.sub(blanked, page.read_text())))
    paragraphs = re.split(r"(\n\n+)", text)
    return TARGET.sub("] ", "".join(SPAN.sub(blanked, paragraph) for paragraph in paragraphs))


def words_of(page):
    """Words of a page, each with its line."""
    for number, line in enumerate(text_of(page).split("\n"), 1):
        for chunk in CHUNK.findall(line):
            if not NO_WORD.search(chunk.rstrip(".'")):
                yield from ((number, word) for word in WORD.findall(chunk.replace("’", "'")))


def plain(word):
    """A word without the end of a genitive."""
    return re.sub(r"'s?$", "", word)


def unknown_of(words):
    """Those of the words that the tool does not know."""
    tool = next((tool for tool in TOOLS if shutil.which(tool[0])), None)
    if tool is None:
        sys.exit("neither aspell nor hunspell is installed: apt install aspell aspell-en")
    asked = subprocess.run(tool, input="\n".join(sorted(words)) + "\n", stdout=subprocess.PIPE, text=True, check=True)
    return set(asked.stdout.split())


def own_words():
    lines = (line.partition("#")[0].strip() for line in OWN.read_text().splitlines())
    return {line.lower() for line in lines if line}


def is_right(page, words, unknown):
    """Prints each word of a page that is unknown, and returns whether there is none."""
    bad = [(number, word) for number, word in words if plain(word) in unknown]
    for number, word in bad:
        print(f"{page.relative_to(TOP)}:{number}: {plain(word)}")
    return not bad


def reads_well(page):
    """Prints what proselint finds in a page, and returns whether that is nothing."""
    text = re.sub(r" +", " ", text_of(page))
    asked = subprocess.run(("proselint", "-"), input=text, stdout=subprocess.PIPE, text=True, check=False)
    bad = [line.partition(":")[2] for line in asked.stdout.splitlines() if not any(rule in line for rule in NOT_MEANT)]
    for line in bad:
        print(f"{page.relative_to(TOP)}:{line}")
    return not bad


def all_are_used(own, words):
    """Prints each word of the list that no page has, and returns whether there is none."""
    unused = sorted(own - {word.lower() for word in words})
    for word in unused:
        print(f"{OWN.relative_to(TOP)}: no page has {word}")
    return not unused


def main():
    parser = argparse.ArgumentParser(description=__doc__, formatter_class=argparse.RawDescriptionHelpFormatter)
    parser.add_argument("--words", action="store_true")
    parser.add_argument("pages", nargs="*", type=lambda name: pathlib.Path(name).resolve())
    asked = parser.parse_args()
    pages = asked.pages or [TOP / "README.md", TOP / "CHANGELOG.md", *sorted(TOP.glob("docs/*.md"))]
    found = {page: list(words_of(page)) for page in pages}
    words = {plain(word) for page in pages for _, word in found[page]}
    if asked.words:
        print("\n".join(sorted(words)))
        return 0
    own = own_words()
    unknown = {word for word in unknown_of(words) if word.lower() not in own}
    told = [is_right(page, found[page], unknown) for page in pages]
    if not shutil.which("proselint"):
        sys.exit("proselint is not installed: apt install python3-proselint")
    told += [reads_well(page) for page in pages]
    if not asked.pages:
        told.append(all_are_used(own, words))
    return counted(told)


if __name__ == "__main__":
    sys.exit(main())
