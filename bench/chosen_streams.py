"""The streams that chosen.py plays: what a stranger may send a server or a proxy.

    STREAMS[3].make()    the play of a stream: its pieces, each for one of its connections, and how many requests and faults they are

The program holds FILLED (a server with 1,000 items holds these too, and fewer of the others that nobody asks for).
"""

import base64
import itertools
from typing import Callable, NamedTuple

TEXT = 512 * 1024  # bytes of a play, unless its stream is small by nature
SEGMENTS = 2_000  # pieces of a play whose pieces are read one by one
VALUE = b"v" * 100

# Many keys of each kind: how far a single one is searched depends on the hashes of a run.
HELD = [b"k%d" % number for number in range(100)]
STORED = [b"s%d" % number for number in range(100)]
COUNTED = [b"n%d" % number for number in range(100)]
LONG = [b"%03d" % number + b"L" * 247 for number in range(24)]
SHORT = [b"%c" % letter for letter in b"pqrstuvwxyz"]
COLD = [b"k%d" % (number * 7_919 % 100_000) for number in range(15_500)]  # stored by a server with 100,000 items, far from the processor
ABSENT = [b"a%d" % number for number in range(100)]
LONG_ABSENT = [b"%03d" % number + b"A" * 247 for number in range(24)]
SHORT_ABSENT = [b"%c" % letter for letter in b"ABCDEFGHIJKLMNOPQRSTUVWXYZ01234"]  # as many as a look takes beside one
FILLED = {key: VALUE for key in STORED + LONG} | {key: b"1" for key in COUNTED} | {key: b"p" for key in SHORT}

KEYS_OF_A_LONG_LINE = 32_000
MOST_CONNECTIONS = 1_024
ENTRIES = 31  # lines that follow the first in a look ahead


FAST, READ, AT_REST = "as fast as it is taken", "when all before is read", "when all before is read and the program waits"


class Play(NamedTuple):
    """Pieces, each with the number of its connection, and when each is sent. A settled connection has sent a line before, which shows
    that it speaks text."""

    pieces: list
    requests: int
    sent: str = FAST
    connections: int = 1
    is_settled: bool = True


class Stream(NamedTuple):
    """A stream: what a stranger wants with it, and the name of the plain one that it is compared with."""

    name: str
    plain: str
    wish: str
    make: Callable[[], Play]
    is_for_proxies: bool = True


# How a text is sent.


def flow(text, requests=1, size=TEXT):
    """A text sent repeatedly on one connection, as fast as it is taken."""
    times = max(1, size // len(text))
    return Play([(0, text * times)], requests * times)


def unsettled(play):
    """A text sent repeatedly from connections of which nothing is known."""
    return play._replace(is_settled=False)


def batches(lines, count):
    """Lines, this many in each piece."""
    pieces = [b"".join(itertools.islice(itertools.cycle(lines), at, at + count)) for at in range(0, 400 * count, count)]
    return Play([(0, piece) for piece in pieces], 400 * count, READ)


def cut(text, size, requests, head=b""):
    """A text in pieces of a size, after a piece that is its head."""
    heads = [(0, head)] if head else []
    return Play(heads + [(0, text[at : at + size]) for at in range(0, len(text), size)], requests, AT_REST)


def turn_by_turn(lines):
    """A line on each of as many connections as a program has, byte by byte: each sends its next byte once all have sent the one before."""
    of_each = list(itertools.islice(itertools.cycle(lines), MOST_CONNECTIONS))
    pieces = [(number, line[at : at + 1]) for at in range(max(map(len, of_each))) for number, line in enumerate(of_each)]
    return Play([piece for piece in pieces if piece[1]], MOST_CONNECTIONS, READ, MOST_CONNECTIONS)


def slowly(front, line=b"set s0 0 0 %d\r\n", requests=2):
    """A line after the text in front, whose block arrives in 2,000 pieces of 50 bytes."""
    block = b"x" * (SEGMENTS * 50)
    return cut(block + b"\r\nset s0 0 0 0\r\n\r\n", 50, requests, front + line % len(block))


# Lines.


def get(*keys):
    return b"get " + b" ".join(keys) + b"\r\n"


def put(block, line):
    """A storage command whose line has a place for the length."""
    return line % len(block) + block + b"\r\n"


def each(form, keys=HELD):
    """Lines of a form that has a place for a key."""
    return [form.replace(b"KEY", key) for key in keys]


def flow_of(form, keys=HELD, requests=1):
    """Lines of a form, one key after another."""
    return flow(b"".join(each(form, keys)), len(keys) * requests)


def refused_after_hits(line):
    """A good get, and as many lines on items that are far from the processor as a look takes after it."""
    lines = each(line, COLD)
    entries = [GET_ONE + b"".join(lines[at : at + ENTRIES]) for at in range(0, len(lines), ENTRIES)]
    return flow(b"".join(entries), len(lines) + len(entries))


def puts(block, line=b"set KEY 0 0 %d\r\n"):
    return flow_of(put(block, line), STORED)


def sets():
    """Sets of one key after another."""
    return each(put(VALUE, b"set KEY 0 0 %d\r\n"), STORED)


def part_refused(keys, count):
    """This many sets, and a line that is refused, of one key after another."""
    before = itertools.cycle([b"".join(sets()[at : at + count]) for at in range(0, len(STORED) - count, count)])
    return flow(b"".join(next(before) + b"md %s !\n" % key for key in keys), (count + 1) * len(keys))


def hints_one_off():
    """As many sets as a look takes, and after the first a refused line that has no hint: each of the others gets another one's."""
    rounds = [[first, b"mg YQ== b !\n", *others] for first, *others in (sets()[at : at + 32] for at in range(0, 96, 32))]
    return flow(b"".join(itertools.chain(*rounds)), sum(map(len, rounds)))


def coded(keys):
    return [base64.b64encode(key) for key in keys]


def filled_with(text, size):
    """A text repeated, up to this size."""
    return (text * (size // len(text) + 1))[:size]


def far(line, count, spaces=61):
    """Lines each of which makes a look ahead that splits words at each single space continue after the last of them: there it finds
    lines of empty words. The line's place is for the bytes between; it has a fixed size, and the bytes after its line end are its
    block."""
    size = len(line % 0)
    block = size - (line % 0).index(b"\n") - 1
    lines = [line % max(0, block + size * after - 2) for after in range(count)]
    return b"".join(reversed(lines)) + (b"get" + b" " * spaces + b"\n") * ENTRIES


def mixed_lengths():
    """Sets of blocks of 0 to 20,000 bytes, small and large in turn, and a get after each."""
    small = list(range(0, 20_001, 97))
    blocks = itertools.chain(*zip(small, reversed(small)))
    text = b"".join(put(b"x" * length, b"set s0 0 0 %d\r\n") + get(b"k1") for length in blocks)
    return Play([(0, text + put(b"", b"set s0 0 0 %d\r\n"))], 4 * len(small) + 1)


# Lines that look like good ones, and are not.
FAULTY = {
    "get-control": get(*SHORT_ABSENT, b"a\x01"),
    "get-127": get(*SHORT_ABSENT, b"a\x7f"),
    "get-251": get(*SHORT_ABSENT, b"a" * 251),
    "get-none": b"get" + b" " * 61 + b"\r\n",
    "gat-x": b"gat x " + b" ".join(SHORT_ABSENT) + b"\r\n",
    "gat-none": b"gat 0\r\n",
    "incr-x": b"incr k x\r\n",
    "incr-words": b"incr k" + b" 0" * 60 + b"\r\n",
    "set-junk": put(b"junk!", b"set k 0 0 %d junk junk\r\n"),
    "set-flags": put(b"", b"set k x 0 %d\r\n"),
    "ms-flag": put(b"junk!", b"ms k %d z\r\n"),
    "mg-twice": b"mg k v v\r\n",
    "mn-x": b"mn x\r\n",
    "touch-k": b"touch k\r\n",
}

FAULTY_FOR_PROXIES = {"get-control", "get-251", "get-none", "incr-words", "set-junk", "ms-flag"}

GET_ONE = get(b"k1")
GET, LINE_OF_24, LINE_OF_24_ABSENT = b"get KEY\r\n", get(*HELD[:24]), get(*ABSENT[:24])
GETS_LONG = get(*SHORT_ABSENT * 24, b"a" * 251)
LONG_LINE = get(*(SHORT * KEYS_OF_A_LONG_LINE)[:KEYS_OF_A_LONG_LINE])
LONG_LINE_ABSENT = get(*(SHORT_ABSENT * KEYS_OF_A_LONG_LINE)[:KEYS_OF_A_LONG_LINE])

STREAMS = [
    # Plain ones, with which the others are compared.
    Stream("get", "get", "to be served", lambda: flow_of(GET)),
    Stream("get-24", "get-24", "to be served 24 keys", lambda: flow(LINE_OF_24)),
    Stream("get-24-absent", "get-24", "24 keys that are searched in vain", lambda: flow(LINE_OF_24_ABSENT)),
    Stream("get-absent", "get", "keys that are searched in vain", lambda: flow_of(GET, ABSENT)),
    Stream("set", "set", "to store 100 bytes", lambda: puts(VALUE)),
    Stream("set-1000", "set-1000", "to store 1,000 bytes", lambda: puts(b"x" * 1_000)),
    Stream("incr", "incr", "to count", lambda: flow_of(b"incr KEY 1\r\n", COUNTED)),
    Stream("mg", "mg", "to be shown a value", lambda: flow_of(b"mg KEY v\r\n")),
    Stream("ms", "ms", "to store 100 bytes", lambda: puts(VALUE, b"ms KEY %d\r\n")),
    Stream("get-by-32", "get-by-32", "to be served 32 requests at a time", lambda: batches(each(GET), 32)),
    Stream("get-in-1", "get-in-1", "a read for each byte", lambda: cut(b"".join(each(GET) * 3), 1, 300)),
    Stream("get-in-50", "get-in-50", "a read for each 50 bytes", lambda: cut(b"".join(each(GET) * 100), 50, 10_000)),
    Stream("get-250-by-1", "get-250-by-1", "to be served a request at a time, with a look at each", lambda: batches(each(GET, LONG), 1)),
    Stream("block-in-50", "block-in-50", "to store a block that comes slowly", lambda: slowly(b"")),
    # Spaces in front of a line.
    Stream("front-1", "get", "a get that is not taken for a plain one", lambda: flow_of(b" " + GET)),
    Stream("front-16", "get", "spaces of which fewer are there than are passed together", lambda: flow_of(b" " * 16 + GET)),
    Stream("front-60", "get", "spaces that are walked more than once", lambda: flow_of(b" " * 60 + GET)),
    Stream("front-500", "get", "the same on a line that is still short", lambda: flow_of(b" " * 500 + GET)),
    Stream("front-10k", "get", "the same on a line that is no longer short", lambda: flow_of(b" " * 10_000 + GET)),
    Stream("front-65k", "get", "the same on the longest line", lambda: flow_of(b" " * 65_000 + GET)),
    Stream("front-60-by-32", "get-by-32", "spaces that a look ahead takes for words", lambda: batches(each(b" " * 60 + GET), 32), False),
    Stream("block-in-50-behind-10k", "block-in-50", "spaces that are walked for each piece of a block", lambda: slowly(b" " * 10_000)),
    Stream("block-in-50-behind-65k", "block-in-50", "the same behind as many as a line has", lambda: slowly(b" " * 65_000)),
    Stream("block-in-50-after-get", "block-in-50", "a short line that is read again for each piece",
           lambda: slowly(get(b"k1") + b" " * 480, requests=3)),
    Stream("line-in-1-behind-60k", "get-in-1", "a line that is searched again for each byte",
           lambda: cut(b" " * SEGMENTS + get(b"k1"), 1, 1, b" " * 60_000)),
    # Lines before the first that is not empty: it may yet be a stranger's.
    Stream("empty-lines", "get", "a look at each line for a stranger's", lambda: unsettled(flow(b"\r\n"))),
    Stream("empty-lines-of-1", "get", "the same", lambda: unsettled(flow(b" \n"))),
    Stream("empty-lines-of-2", "get", "spaces in pairs, and a line end behind each", lambda: unsettled(flow(b"  \n"))),
    Stream("empty-lines-of-16", "get", "the same, of fewer than are passed together", lambda: unsettled(flow(b" " * 16 + b"\n"))),
    Stream("empty-lines-of-60", "get", "the same at each space", lambda: unsettled(flow(b" " * 60 + b"\n"))),
    Stream("empty-lines-of-65k", "get", "the same on the longest line", lambda: unsettled(flow(b" " * 65_000 + b"\n"))),
    Stream("first-line-of-65k", "get", "a look at each word of a line that ends in no version",
           lambda: unsettled(flow(b"a " * 32_500 + b"\n", size=1))),
    Stream("first-line-in-1", "get-in-1", "a look at what has come for each byte",
           lambda: unsettled(cut(b"a " * (SEGMENTS // 2) + b"\r\n", 1, 1))),
    # Spaces between words, and words that are empty.
    Stream("between-2", "get", "two spaces where a fast path wants one", lambda: flow_of(b"get  KEY\r\n")),
    Stream("pairs-24", "get-24", "a look at 16 bytes for each pair of spaces", lambda: flow(LINE_OF_24.replace(b" ", b"  "))),
    Stream("between-60", "get-24", "many spaces between keys", lambda: flow(LINE_OF_24.replace(b" ", b" " * 60))),
    Stream("behind-60", "get", "spaces before the line's end", lambda: flow_of(b"get KEY" + b" " * 60 + b"\r\n")),
    Stream("far-ms", "get", "a look ahead for each 9 bytes, from a line that is refused",
           lambda: Play([(0, far(b"ms  %04d\n", 700))] * 30, 30 * 731, READ), False),
    Stream("far-set", "set", "the same by good requests alone",
           lambda: Play([(0, far(b"set k  0 %04d 0\r\n\r\n", 325))] * 30, 30 * 356, READ), False),
    Stream("version-by-32", "get-by-32", "a look ahead at requests that have no key", lambda: batches([b"version\r\n"], 32), False),
    Stream("mn-by-32", "get-by-32", "the same", lambda: batches([b"mn\r\n"], 32), False),
    Stream("incr-absent-by-40", "get-by-32", "a look ahead that helps nothing",
           lambda: batches(each(b"incr KEY 1\r\n", ABSENT), 40), False),
    Stream("gone-by-then", "set", "a look ahead for items that are gone when their turn comes",
           lambda: flow_of(b"delete KEY\r\n" + GET + put(VALUE, b"set KEY 0 0 %d\r\n"), STORED, 3), False),
    # Faulty lines that look like good ones, alone and after a good request.
    *(Stream(f"bad-{name}", "get", "a refusal that is dear to find", lambda line=line: flow(line), name in FAULTY_FOR_PROXIES)
      for name, line in FAULTY.items()),
    *(Stream(f"good-{name}", "get", "work ahead for a line that is refused", lambda line=line: flow_of(GET + line, requests=2), False)
      for name, line in FAULTY.items()),
    Stream("good-get-33", "get-24-absent", "work ahead for a line that has more keys than there is room",
           lambda: flow_of(GET + get(*ABSENT[:33]), requests=2), False),
    # The most expensive that look_model.py found: good requests that no look takes after another one, since they have a space too many.
    Stream("get-1-behind", "get-absent", "a look for each key", lambda: flow_of(b"get KEY \n", ABSENT), False),
    Stream("gat-1-behind", "get-absent", "the same", lambda: flow_of(b"gat 0 KEY \n", ABSENT), False),
    Stream("get-3-behind", "get-24-absent", "a look for each 3 keys", lambda: flow_of(b"get KEY a b \n", ABSENT), False),
    Stream("get-3-two-held-behind", "get-24-absent", "the same, and no pause", lambda: flow_of(b"get KEY k1 a \n"), False),
    Stream("get-3-one-held-behind", "get-24-absent", "the same, and no more than half is found", lambda: flow_of(b"get KEY a b \n"), False),
    Stream("get-16-nine-held-behind", "get-24-absent", "a look for each 16 keys, and no pause",
           lambda: flow(get(*HELD[:9], *ABSENT[:7]).replace(b"\r", b" ")), False),
    Stream("get-24-behind", "get-24-absent", "a look for each 24 keys", lambda: flow(LINE_OF_24_ABSENT.replace(b"\r", b" ")), False),
    Stream("get-absent-between-2", "get-absent", "a look for each key", lambda: flow_of(b"get  KEY\n", ABSENT), False),
    Stream("touch-between-2", "get-absent", "the same", lambda: flow_of(b"touch  KEY 0\n", ABSENT), False),
    Stream("mg-between-2", "get-absent", "the same", lambda: flow_of(b"mg  KEY\n", ABSENT), False),
    Stream("cold-get", "cold-get", "to be served items that are far from the processor", lambda: flow_of(GET, COLD), False),
    Stream("cold-md-refused", "cold-get", "items that are fetched for a refusal", lambda: refused_after_hits(b"md KEY !\n"), False),
    Stream("cold-ms-refused", "cold-get", "the same", lambda: refused_after_hits(b"ms KEY 0 !\n\r\n"), False),
    Stream("cold-incr-refused", "cold-get", "the same", lambda: refused_after_hits(b"incr KEY x\n"), False),
    Stream("set-eighth-cold", "set", "an eighth of a look's keys for refusals, with items that are fetched for them",
           lambda: part_refused(COLD[:600], 7), False),
    Stream("set-quarter-refused", "set", "a quarter of a look's keys for refusals", lambda: part_refused(LONG, 3), False),
    Stream("set-quarter-cold", "set", "the same, with items that are fetched for them", lambda: part_refused(COLD[:1_300], 3), False),
    Stream("set-one-off", "set", "hints that are another key's", hints_one_off, False),
    Stream("good-gets-long", "get", "a long line that is read ahead and refused", lambda: flow_of(GET + GETS_LONG, requests=2), False),
    # Data blocks.
    Stream("block-of-gets", "set-1000", "a block that is taken for commands", lambda: puts(filled_with(get(*ABSENT[:4]), 1_000))),
    Stream("block-of-one-get", "set", "the same in a small block", lambda: puts(get(*SHORT_ABSENT))),
    Stream("block-of-spaces", "set-1000", "a block that is taken for empty words", lambda: puts(b" " * 1_000)),
    Stream("block-of-line-ends", "set-1000", "a block that is taken for empty lines", lambda: puts(b"\n" * 1_000)),
    Stream("block-without-end", "set-1000", "a block whose end is not where it should be",
           lambda: flow_of(b"set KEY 0 0 1000\r\n" + b"x" * 1_002, STORED)),
    Stream("blocks-of-all-sizes", "set-1000", "a size at which a path changes", mixed_lengths),
    Stream("swallowed", "set-1000", "a refusal, and a block to be dropped", lambda: puts(b"x" * 1_000, b"set KEY 0 x %d\r\n")),
    Stream("swallowed-2m", "set-1000", "a block too large, to be dropped", lambda: flow(put(b"x" * 2_000_000, b"set s0 0 0 %d\r\n"))),
    Stream("swallowed-in-50", "block-in-50", "a dropped block in small pieces", lambda: slowly(b" " * 60_000, b"set s0 0 x %d\r\n")),
    # Keys.
    Stream("mg-coded", "mg", "a key that is decoded more than once", lambda: flow_of(b"mg KEY b v\r\n", coded(HELD))),
    Stream("ms-coded", "ms", "the same", lambda: flow_of(put(VALUE, b"ms KEY %d b\r\n"), coded(STORED))),
    Stream("mg-coded-250", "mg", "the same with the longest key", lambda: flow_of(b"mg KEY b v\r\n", coded(LONG))),
    Stream("mg-badly-coded", "mg", "a key that is refused late", lambda: flow_of(b"mg KEY! b v\r\n", [key[:-1] for key in coded(LONG)])),
    Stream("incr-absent", "incr", "the same", lambda: flow_of(b"incr KEY 1\r\n", ABSENT)),
    Stream("get-250", "get", "keys that are dear to hash", lambda: flow_of(GET, LONG)),
    Stream("get-250-absent", "get", "the same in vain", lambda: flow_of(GET, LONG_ABSENT)),
    Stream("get-24-of-250-absent", "get-24", "the same in vain, many on a line", lambda: flow(get(*LONG_ABSENT))),
    # Small pieces.
    Stream("get-24-in-50", "get-in-50", "a line in two pieces", lambda: cut(LINE_OF_24 * 1_000, 50, 1_000)),
    Stream("set-in-1", "get-in-1", "a block in pieces of a byte", lambda: cut(put(VALUE, b"set s0 0 0 %d\r\n") * 17, 1, 17)),
    Stream("set-in-50", "get-in-50", "line ends that are cut anywhere", lambda: cut(put(VALUE, b"set s0 0 0 %d\r\n") * 850, 50, 850)),
    # The longest lines.
    Stream("get-32k", "get-24", "a line of 32,000 keys", lambda: flow(LONG_LINE, size=1)),
    Stream("get-32k-again", "get-24", "such lines after each other", lambda: flow(LONG_LINE)),
    Stream("get-32k-absent", "get-24-absent", "a line of 32,000 keys in vain", lambda: flow(LONG_LINE_ABSENT, size=1)),
    Stream("get-32k-absent-again", "get-24-absent", "such lines after each other", lambda: flow(LONG_LINE_ABSENT)),
    # Quiet commands.
    Stream("set-noreply", "set", "work that nobody is told of", lambda: puts(VALUE, b"set KEY 0 0 %d noreply\r\n")),
    Stream("incr-noreply", "incr", "the same", lambda: flow_of(b"incr KEY 1 noreply\r\n", COUNTED)),
    Stream("mg-quiet", "mg", "misses that are not answered", lambda: flow_of(b"mg KEY v q\r\n", ABSENT)),
    Stream("mg-coded-held-word", "mg-quiet", "items that are fetched by the words of keys in base64",
           lambda: flow_of(b"mg KEY b v q\r\n", [b"k%d" % number for number in range(100, 1_000)])),
    Stream("ms-quiet", "ms", "work that nobody is told of", lambda: puts(VALUE, b"ms KEY %d q\r\n")),
    Stream("mn", "mg", "the shortest request", lambda: flow(b"mn\r\n")),
    # Many connections.
    Stream("connections-in-1", "get-in-1", "1,024 connections that send a byte at a time", lambda: turn_by_turn(each(GET))),
]
