#!/usr/bin/env python3
"""Plays random pipelines to a server that looks ahead and to one that never does, and checks that both send the same bytes.

Usage: looks.py PROGRAM [SEED ..]      (crates/mc_serverd/out/mc_serverd; seeds 1 and 2)

With 32,768 items or more a server has hints of the slots of a pipeline's next keys, before it serves their requests. With `--store lru` it
never does. The program is started with each store, for 40,000 items, and both receive the same bytes:

- a seed plays 750 pipelines of 1 to 60 requests, whole and in pieces, to servers that evict. A fifth of the requests (junk.py) are made
  wrong: more spaces, too many words, bad lengths, blocks of another length, control bytes, long keys, other line ends. Blocks look like
  requests. One flush is at a random place. At the end too long blocks are refused, and each item is shown with its number;
- a client sends requests of one look, of which the first delete, replace or evict items, and the others ask for these. For all of them the
  server has prefetched before it serves the first.

The seconds of two servers begin at different times. So no item dies while they run: an exptime is none, past, or in the year 2096, and no
reply shows how long an item has left.

It prints a line for each check that fails; the last line is 'N passed, M failed', one for each seed and one for each of these changes.
"""

import base64
import contextlib
import pathlib
import random
import re
import sys

sys.path.insert(0, str(pathlib.Path(__file__).resolve().parents[1] / "lib"))

import junk
from checks import Wrong, shortened, tally, want
from model import STORAGE
from servers import Server
from suite import are_built

LOOKS = 32_768  # the fewest items with which a server looks ahead
ITEMS, KEYS, HOT = 40_000, 48_000, 300
PIPELINES, LONGEST = 250, 60
MOST_ABOVE = 100  # the most bytes by which a length is more than its block has
FLUSHES = [b"flush_all\r\n", b"flush_all 0\r\n", b"flush_all -1 noreply\r\n", b"flush_all 2592001\r\n"]
NUMBERED = re.compile(rb"VALUE (k\d+) \d+ \d+ (\d+)\r\n")

# What the first requests of a look do to an item, and what they leave of it.
CHANGES = {
    "deletes": (b"delete %s\r\n", b"", b"DELETED"),
    "other values": (b"set %s 7 0 5\r\n", b"after\r\n", b"STORED"),
    "stale items": (b"md %s I\r\n", b"", b"HD"),
}
SHOWN = [b"get %s\r\n", b"mg %s v f c\r\n", b"append %s 0 0 1\r\ny\r\n"]


class Maker(junk.Maker):
    """Makes requests by the dice, on more keys than there may be items. Every second key is one of a few."""

    exptimes = ["0"] * 60 + ["4000000000"] * 15 + ["-1", "2592001", "1x", "", "99999999999999999999"]
    letters = {name: letters.replace("t", "") for name, letters in junk.LETTERS.items()}
    sizes = [1, 1, 1, 2, 3, 8, 24, 60]

    def __init__(self, dice):
        super().__init__(dice, b"")
        self.numbers = [("k0", 1)]  # keys that were shown last, each with its item's number

    def key(self):
        key = f"k{self.below(self.one_of([HOT, KEYS]))}"
        if self.dice.random() < 0.97:
            return key
        return self.one_of([f"absent{self.below(KEYS)}", key.ljust(self.one_of([249, 250, 250, 251]), "k")])

    def coded_key(self):
        return base64.b64encode(self.key().encode()).decode()

    def value(self):
        kind = self.dice.random()
        if kind < 0.4:
            return str(self.below(1000))
        if kind < 0.7:
            return "v" * self.below(300)
        return self.request() if kind < 0.95 else "\r\n" * self.below(20)

    def request(self):
        if self.dice.random() < 0.03:
            key, number = self.one_of(self.numbers)
            return f"cas {key} 0 0 1 {number}\r\nx\r\n"
        made = super().request()
        return made if made != "quit\r\n" else "version\r\n"  # A request after `quit` would be lost.


class Faults:
    """Makes lines of requests wrong, by the dice. It makes no other exptime."""

    def __init__(self, maker):
        self.maker = maker
        self.of_lines = [self.spaces, self.many_words, self.put_in, self.another_name, self.another_length]

    def spaces(self, line):
        kind, spaces = self.maker.below(3), b" " * self.maker.one_of([1, 1, 2, 60])
        if kind == 0:
            return spaces + line
        return line + spaces if kind == 1 else line.replace(b" ", spaces + b" ", self.maker.one_of([1, 2, 9]))

    def many_words(self, line):
        return line + b" x" * self.maker.one_of([1, 2, 3, 30])

    def put_in(self, line):
        at = self.maker.below(len(line) + 1)
        return line[:at] + self.maker.one_of([b"\0", b"\1", b"\t", b"\r", b"\x1f", b"\x7f", b"\x80", b"\xff", b"x"]) + line[at:]

    def another_name(self, line):
        return self.maker.one_of([line[1:], line.upper(), b"s" + line, b"get", b"gat 0", b"mn x", b""])

    def another_length(self, line):
        words = line.split(b" ")
        place = 4 if words[0].decode("latin-1") in STORAGE else 2 if words[0] == b"ms" else len(words)
        if place < len(words) and words[place].isdigit():
            length = int(words[place])
            near = [b"%d" % max(0, length + more) for more in (-2, -1, 1, 2, 10, MOST_ABOVE)]
            words[place] = self.maker.one_of([*near, *near, b"x", b"-1", b"0%d" % length, b"99999999999"])
        return b" ".join(words)

    def made(self, request):
        """A request as it is, or made wrong."""
        kind = self.maker.dice.random()
        if kind < 0.8:
            return request
        line, end, rest = request.partition(b"\r\n")
        if kind < 0.83:
            return line + self.maker.one_of([b"\n", b"\r\r\n", b" \r\n", b"\r\n\r\n"]) + rest
        return self.maker.one_of(self.of_lines)(line) + end + rest


class Both:
    """The program with each store, and a connection to each."""

    def __init__(self, stack, program):
        self.servers = [stack.enter_context(Server(program, items=ITEMS, words=words)) for words in ([], ["--store", "lru"])]
        self.connections = [stack.enter_context(server.connected()) for server in self.servers]
        self.asked = 0

    def ended(self, text):
        """A text with a last request, and the answer to that. Between them is a line as long as the bytes that too great a length may
        take."""
        self.asked += 1
        return b"%s%s\r\nmd absent O%d\r\n" % (text, b"x" * (MOST_ABOVE + 2), self.asked), b"NF O%d\r\n" % self.asked

    def answer(self, text, cuts=()):
        """The answer of both to a text, which must be equal. The text arrives in pieces, cut at these places."""
        text, last = self.ended(text)
        for connection in self.connections:
            for start, end in zip([0, *cuts], [*cuts, len(text)]):
                connection.sendall(text[start:end])
        return same(text, [answered(connection, last) for connection in self.connections])


def answered(connection, last):
    """The bytes that arrive, up to the answer to a last request."""
    came = bytearray()
    while not came.endswith(last):
        piece = connection.recv(1 << 20)
        if not piece:
            raise Wrong(f"the connection is closed after {shortened(bytes(came[-100:]))}")
        came += piece
    return bytes(came)


def same(text, answers):
    """The answer that both have sent to a text."""
    one, other = answers
    if one != other:
        at = next((at for at, pair in enumerate(zip(one, other)) if pair[0] != pair[1]), min(map(len, answers)))
        near = [each[max(0, at - 60) : at + 60] for each in answers]
        raise Wrong(f"the answers differ at byte {at}, {near[0]} and {near[1]}, to {text[:2_000]}")
    return one


def fill(both, dice):
    """Sets all keys, in any order, and so evicts some. Returns the keys in this order."""
    keys = list(range(KEYS))
    dice.shuffle(keys)
    for at in range(0, KEYS, 500):
        sets = (b"set k%d %d 0 3 noreply\r\n123\r\n" if key % 2 else b"ms k%d 3 F%d q\r\n456\r\n" for key in keys[at : at + 500])
        both.answer(b"".join(each % (key, at) for each, key in zip(sets, keys[at : at + 500])))
    return [b"k%d" % key for key in keys]


def pipeline_of(maker, faults, flush):
    """Requests in a row, with a flush among them, or none, and the places where they are cut."""
    requests = [faults.made(maker.request().encode("latin-1")) for _ in range(1 + maker.below(LONGEST))]
    requests.insert(maker.below(len(requests) + 1), flush)
    text, pieces = b"".join(requests), maker.one_of([1, 1, 1, 2, 3, 20])
    return text, sorted(maker.below(len(text)) for _ in range(pieces - 1))


def play(both, maker, flush):
    """Plays pipelines, with a flush in a random one, or none."""
    faults, flushed = Faults(maker), maker.below(PIPELINES)
    for at in range(PIPELINES):
        text, cuts = pipeline_of(maker, faults, flush if at == flushed else b"")
        shown = NUMBERED.findall(both.answer(text, cuts))
        maker.numbers = [(key.decode(), int(number)) for key, number in shown[-20:]] or maker.numbers


def refuse_blocks(both):
    """The longest block, and two that are too long, in front of other requests. They begin as a request does."""
    for length in (1_048_576, 1_048_577, 2_000_000):
        for head in (b"set k1 0 0 %d\r\n", b"ms k2 %d\r\n"):
            both.answer(head % length + b"get k3 k4 k5\r\n".ljust(length, b"v") + b"\r\nget k1 k6 k7\r\nmg k2 s\r\n")


def show(both):
    """Shows the items of all keys with their numbers, and returns how many there are."""
    keys = [b" ".join(b"k%d" % key for key in range(first, min(first + 60, KEYS))) for first in range(0, KEYS, 60)]
    return sum(len(NUMBERED.findall(both.answer(b"gets %s\r\n" % some))) for some in keys)


def pipelines_are_answered_alike(program, seed):
    maker = Maker(random.Random(seed))
    with contextlib.ExitStack() as stack:
        both = Both(stack, program)
        for flush in (b"", maker.one_of(FLUSHES), b"flush_all 4000000000\r\n"):
            fill(both, maker.dice)
            play(both, maker, flush)
        refuse_blocks(both)
        held = show(both)
        if not LOOKS < held <= ITEMS:
            raise Wrong(f"{held} items are there at the end")


def a_change_behind_a_hint(program, line, block, done):
    """The first requests of a look change items, and the others ask for them."""
    with contextlib.ExitStack() as stack:
        both = Both(stack, program)
        *_, first, second, third, fourth = fill(both, random.Random(1))
        keys = [first, second, third, fourth]
        shown = both.answer(b"".join(line % key + block for key in keys) + b"".join(each % key for each in SHOWN for key in keys))
        want(shown.split(b"\r\n")[: len(keys)], [done] * len(keys))


def an_eviction_behind_a_hint(program):
    """The first requests of a look evict the items for which the others ask."""
    with contextlib.ExitStack() as stack:
        both = Both(stack, program)
        keys = fill(both, random.Random(1))
        oldest, newest = keys[KEYS - ITEMS :][:4], keys[-8:]
        text = b"".join(b"set new%d 0 0 1\r\nx\r\n" % at for at in range(len(oldest)))
        shown = both.answer(text + b"get %s\r\n" % b" ".join(newest) + b"".join(b"mg %s v\r\n" % key for key in oldest))
        want((shown.count(b"VALUE"), shown.count(b"EN\r\n")), (len(newest), len(oldest)))


def main(program, seeds):
    checks = [(f"seed {seed}", pipelines_are_answered_alike, (program, seed)) for seed in seeds]
    checks += [(f"{name} behind a hint", a_change_behind_a_hint, (program, *change)) for name, change in CHANGES.items()]
    checks.append(("evictions behind a hint", an_eviction_behind_a_hint, (program,)))
    return tally(checks)


if __name__ == "__main__":
    if len(sys.argv) < 2:
        sys.exit(__doc__)
    sys.exit(main(sys.argv[1], sys.argv[2:] or ["1", "2"]) if are_built(sys.argv[1]) else 1)
