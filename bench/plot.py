#!/usr/bin/env python3
"""Draws the figures of docs/PERF.md beside memcached and nutcracker, as one SVG picture: docs/figures.svg.

Usage: plot.py [--check]

A bar is a ratio, Wiersbol's figure over the other program's: of the processor time of a request, by case, and of memory. The thin line
over its end shows the middle half of the rounds. The figures themselves are beside it, and below them the dates on which they were
measured, from the tables' column "Measured". The picture has colours for light and for dark pages. With --check nothing is written:
the picture must be the one that the figures give, and the last line is 'N passed, M failed'.
"""

import argparse
import html
import pathlib
import re
import sys
from typing import NamedTuple

DOCS = pathlib.Path(__file__).resolve().parent.parent / "docs"
PAGE, PICTURE = DOCS / "PERF.md", DOCS / "figures.svg"

WIDTH, MARGIN, ROW = 800, 20, 24
BARS, UNIT, MOST = 262, 190, 1.5  # the beginning of bars, the length of a ratio of 1, and the longest that is drawn
RATIOS, OURS, THEIRS = 594, 690, WIDTH - MARGIN  # the end of these columns
STYLE = """
text { font: 13px system-ui, 'Segoe UI', 'DejaVu Sans', sans-serif; fill: #1f2328 }
.head { font-weight: 600 }
.end { text-anchor: end }
.middle { text-anchor: middle }
.faint { fill: #59636e }
.page { fill: #ffffff }
.bar { fill: #2f81d6 }
.one { stroke: #59636e; stroke-width: 1.4 }
.grid { stroke: #d8dee4; stroke-width: 1 }
.spread { stroke: #1f2328; stroke-width: 1.6 }
@media (prefers-color-scheme: dark) {
  text { fill: #e6edf3 }
  .faint { fill: #9198a1 }
  .page { fill: #0d1117 }
  .bar { fill: #2f6fb8 }
  .one { stroke: #9198a1 }
  .grid { stroke: #2a313c }
  .spread { stroke: #e6edf3 }
}
"""
DATE = re.compile(r"\d{4}-\d{2}-\d{2}")


class Row(NamedTuple):
    """A figure of both programs, and their ratio."""

    name: str
    ours: str
    theirs: str
    ratio: float
    dates: list
    spread: tuple | None = None


class Table(NamedTuple):
    """A table of a document."""

    head: list
    rows: list


# The figures.


def tables(text):
    """The tables of a document in Markdown."""
    for found in re.findall(r"(?m)(?:^\|.*\n)+", text):
        head, _, *rows = ([cell.strip() for cell in line.strip("|").split("|")] for line in found.splitlines())
        yield Table(head, rows)


def table_of(text, *words):
    """The table whose head begins its first columns with these words."""
    found = [it for it in tables(text) if len(it.head) >= len(words) and all(map(str.startswith, it.head, words))]
    if len(found) != 1:
        sys.exit(f"plot.py: {PAGE.name} has {len(found)} tables of {' | '.join(words)}")
    return found[0]


def numbers(cell):
    return [float(it.replace(",", "")) for it in re.findall(r"\d[\d,]*(?:\.\d+)?", cell)]


def first(cell):
    """The beginning of a cell, before the text in brackets."""
    return cell.partition(" (")[0]


def times(table):
    """The rows of a table of processor time: a case, both programs, the ratio and its spread, and last when it was measured."""
    for case, ours, theirs, ratio, *_, measured in table.rows:
        value, *spread = numbers(ratio)
        yield Row(case.replace("`", ""), f"{first(ours)} ns", f"{first(theirs)} ns", value, DATE.findall(measured), tuple(spread))


def memory(table, name, column, unit, programs):
    """The row of a table of memory, whose rows begin with the names of programs: ours and the other."""
    place, rows = table.head.index(column), {row[0]: row for row in table.rows}
    ours, theirs = (rows[program][place] for program in programs)
    dates = [date for program in programs for date in DATE.findall(rows[program][-1])]
    return Row(name, f"{ours} {unit}", f"{theirs} {unit}", round(numbers(ours)[0] / numbers(theirs)[0], 2), dates)


def groups(text):
    """What is drawn: for each group its name, the program that it is compared with, and its rows."""
    server = table_of(text, "Case", "mc_serverd, ns", "memcached, ns", "Ratio")
    proxy = table_of(text, "Case", "mc_proxyd, ns", "nutcracker, ns", "Ratio")
    items = table_of(text, "1,000,000 items", "MB when empty")
    clients = table_of(text, "500 clients", "MB at the start")
    of_items = memory(items, "memory of an item of 120 bytes", "bytes an item", "bytes", ("mc_serverd", "memcached"))
    of_clients = memory(clients, "memory with 500 clients", "MB under load", "MB", ("mc_proxyd", "nutcracker"))
    yield "Server", "memcached", [*times(server), of_items]
    yield "Proxy", "nutcracker", [*times(proxy), of_clients]


# The picture.


class Picture:
    def __init__(self):
        self.parts, self.y = [], MARGIN

    def write(self, x, words, kind=""):
        self.parts.append(f'<text x="{x}" y="{self.y}" class="{kind}">{html.escape(words)}</text>')

    def line(self, kind, x, top, bottom):
        self.parts.append(f'<line class="{kind}" x1="{x:.1f}" y1="{top:.1f}" x2="{x:.1f}" y2="{bottom:.1f}"/>')

    def head(self, name, other):
        self.y += 18
        self.write(MARGIN, f"{name}: ratio to {other}", "head")
        for x, words in ((RATIOS, "ratio"), (OURS, "Wiersbol"), (THEIRS, other)):
            self.write(x, words, "end faint")

    def row(self, row):
        """A bar with its spread, and the figures."""
        self.y += ROW
        middle = self.y - 4.5
        self.write(BARS - 10, row.name, "end")
        self.parts.append(f'<rect class="bar" x="{BARS}" y="{middle - 7}" width="{min(row.ratio, MOST) * UNIT:.1f}" height="14" rx="1.5"/>')
        if row.spread:
            low, high = (BARS + min(it, MOST) * UNIT for it in row.spread)
            ends = f"M {low:.1f} {middle - 3} v 6 M {high:.1f} {middle - 3} v 6"
            self.parts.append(f'<path class="spread" d="M {low:.1f} {middle} H {high:.1f} {ends}"/>')
        for x, words, kind in ((RATIOS, f"{row.ratio:.2f}", "end head"), (OURS, row.ours, "end"), (THEIRS, row.theirs, "end faint")):
            self.write(x, words, kind)

    def group(self, name, other, rows):
        self.head(name, other)
        top, place = self.y + 8, len(self.parts)
        for row in rows:
            self.row(row)
        drawn, self.parts = self.parts[place:], self.parts[:place]
        for tenths in range(0, 16, 5):
            self.line("one" if tenths == 10 else "grid", BARS + tenths / 10 * UNIT, top, self.y + 8)
        self.parts += drawn
        self.y += 24
        for tenths in range(0, 16, 5):
            self.write(BARS + tenths / 10 * UNIT, f"{tenths / 10:g}", "middle faint")
        self.y += 22
        dates = sorted({date for row in rows for date in row.dates})
        when = " to ".join(dates[:1] + dates[1:][-1:])
        self.write(BARS, f"{when}; thin line: the middle half of the rounds", "faint")
        self.y += 14

    def text(self):
        height = self.y + 8
        head = f'<svg xmlns="http://www.w3.org/2000/svg" width="{WIDTH}" height="{height}" viewBox="0 0 {WIDTH} {height}" role="img">'
        title = "<title>Processor time of a request and memory, as ratios to memcached and nutcracker: less is better</title>"
        page = f'<rect class="page" width="{WIDTH}" height="{height}" rx="6"/>'
        return "\n".join([head, title, f"<style>{STYLE}</style>", page, *self.parts, "</svg>", ""])


def drawn(text):
    picture = Picture()
    picture.y += 8
    picture.write(MARGIN, "Processor time of a request, and memory: Wiersbol's over the other's, less is better", "head")
    picture.y += 14
    for group in groups(text):
        picture.group(*group)
    return picture.text()


def main():
    words = argparse.ArgumentParser(description=__doc__, formatter_class=argparse.RawDescriptionHelpFormatter)
    words.add_argument("--check", action="store_true")
    asked = words.parse_args()
    picture = drawn(PAGE.read_text())
    if not asked.check:
        PICTURE.write_text(picture)
        return 0
    same = PICTURE.is_file() and PICTURE.read_text() == picture
    if not same:
        print(f"docs/{PICTURE.name} is not what docs/{PAGE.name} gives: run bench/plot.py")
    print(f"{int(same)} passed, {int(not same)} failed")
    return 0 if same else 1


if __name__ == "__main__":
    sys.exit(main())
