#!/usr/bin/env python3
"""Counts the instructions that a server's looks ahead take, by valgrind's callgrind, beside the figures of bench/look_model.py.

Usage: look_costs.py SERVER [PATTERN ..]

SERVER is the built mc_serverd. A pattern is a text that is sent repeatedly, until a piece has 14,000 bytes, or once; `\\n`, `\\r`, `\\\\`
and `\\xNN` are bytes, and `{..}*TIMES` repeats the text between the braces. Without patterns there are some of its own. A row has for each
the instructions of the program's own code for one pattern, at a server of 1,000 items, which never looks ahead, and at one of 40,000: what
the looks add, and what they add by the model. Both store the keys k0 to k999 and `k`, with values of 100 bytes, since in the model keys
that begin with k are stored. A count differs by some per cent with how the text arrives, and with how full the table is: some 30 for each
key.
"""

import argparse
import pathlib
import re
import sys
import tempfile

HERE = pathlib.Path(__file__).resolve().parent
sys.path.insert(0, str(HERE.parent / "tests" / "lib"))
sys.path.insert(0, str(HERE))

from chosen import BUDGET, MOST_ITEMS, Program, Reading
from chosen_streams import READ, Play
from look_model import Look, Reader, Stream
from servers import Server
from socket_instructions import Counted

FEW, MANY = 1_000, 40_000
SIZE, TIMES = 14_000, 12
REPEATED = re.compile(r"\{([^}]*)\}\*(\d+)")
PATTERNS = [
    r"zz\n", r"mn\n", r"get a\n", r"incr a 1\n", r"get a\nzz\n", r"get a\n{zz\n}*31", r"get a\n{z}*500\n", r"get a\n{z}*4000\n",
    r"get a\n{mn\n}*31zz\n", r"get a\n{incr a x\n}*31zz\n", r"get a\n{set a x 0 0\n\r\n}*31zz\n",
    r"get a\n{set a 4294967295 1700000000 0\n\r\n}*31zz\n", r"get a b\nzz\n", r"get a b c\nzz\n",
    r"get{ abcd}*24\nzz\n", r"get{ abcd}*32\nzz\n", r"get{ abcd}*24\n", r"get a\nget{ a}*31 \x01\n", r"get a\nget{ a}*31 {b}*251\n",
    r"get  a\n", r"get a b c \n", r"touch  a 0\n", r"delete a \n", r"mg  a\n", r"md a\n",
]  # fmt: skip


def text_of(pattern):
    """The bytes that a pattern stands for."""
    return REPEATED.sub(lambda found: found[1] * int(found[2]), pattern).encode().decode("unicode_escape").encode("latin-1")


class Costs:
    def __init__(self, server):
        self.server, self.reader = pathlib.Path(server).resolve(), Reader()

    def instructions(self, text, items, times):
        """The instructions of a server's whole life in which the text arrives this often."""
        with tempfile.TemporaryDirectory() as folder:
            counted = Counted(pathlib.Path(folder), self.server, "")
            with Server(counted.script, BUDGET, MOST_ITEMS) as server:
                program = Program(server, Reading()).filled(items)
                program.played(Play([(0, b"set k 0 0 0\r\n\r\n")], 1))
                program.played(Play([(0, text)] * times, times, READ))
                return counted.ended(server)

    def of_one(self, text, items):
        often = text * max(1, SIZE // len(text))
        count = self.instructions(often, items, 2 * TIMES) - self.instructions(often, items, TIMES)
        return count / TIMES / max(1, SIZE // len(text))

    def modelled(self, text):
        """The model's figures of looks and of serving, for one pattern."""
        sum = Stream(text, Look).sum(self.reader)
        return sum.looks / sum.bytes * len(text), sum.serving / sum.bytes * len(text)

    def row(self, pattern):
        text = text_of(pattern)
        few, many = (self.of_one(text, items) for items in (FEW, MANY))
        looks, serving = self.modelled(text)
        cells = [f"`{pattern}`", *(f"{count:,.0f}" for count in (few, many, many - few, looks, serving)), f"{many / few:.2f}"]
        return f"| {' | '.join(cells)} |"


def main():
    words = argparse.ArgumentParser(description=__doc__, formatter_class=argparse.RawDescriptionHelpFormatter)
    words.add_argument("server", metavar="SERVER")
    words.add_argument("patterns", metavar="PATTERN", nargs="*")
    asked = words.parse_args()
    print(f"| Pattern | {FEW:,} items | {MANY:,} items | looks | looks by the model | serving by the model | many over few |")
    print("|---" * 7 + "|")
    costs = Costs(asked.server)
    for pattern in asked.patterns or PATTERNS:
        print(costs.row(pattern), flush=True)


if __name__ == "__main__":
    main()
