#!/usr/bin/env python3
"""Searches for the stream on which a server's looks ahead cost the most relative to the serving of its requests.

Usage: look_model.py [--seconds S] [--seed N] [--shown N] [--without NAME,NAME ..] [--before]

It is a model of the look, byte by byte (`Look`), and of what the reader takes (tests/lib/model.py). `Costs` has the cost of both, in
instructions. The three words after a storage command's key count as words, though the look finds them at once in a short line; that it
tries this first in a longer line is not counted. A stream is some lines repeatedly, all arrived at once, or up to the end of a line. The
search changes lines, their words and their order by the dice, keeps what is no cheaper, and begins anew if nothing was gained for long; it
ends after S seconds (20). It prints the most expensive streams of N beginnings (5): the cost of their looks relative to their serving, and
one round of their lines. No line has a command of --without.

On every stream that is tried the looks may cost at most `bound`, by the bytes that arrived and the requests that were served. If they cost
more, the stream is printed, and the exit status is 1.

With --before the look is that of commit 68ef589, which has no such bound: the search must find streams like those that stopped it.
"""

import argparse
import pathlib
import random
import sys
import time
from typing import NamedTuple

HERE = pathlib.Path(__file__).resolve().parent
sys.path.insert(0, str(HERE.parent / "tests" / "lib"))

import model

WINDOW = 8_192  # bytes after the request at which a look begins that it may read
MOST_KEYS = MOST_LINES = 32
MOST_EMPTY_WORDS = 64
FEW_KEYS = 3  # fewer are not hashed
SHORT_TEXT = 64  # with fewer bytes there is no look
PASSES = 4  # requests at which no look begins after one that gained little; twice as many after each such look that follows it
VAIN_PASSES, VAIN_BYTES = 4, 128  # at so many more for a line that is refused while a hint is left, and one more for so many bytes
KEYS_TO_ONE_REFUSED = 8  # once such lines are more than one to this many keys of a look
MOST_FLAGS = 64  # bytes in which a meta command's flag for base64 is looked for
MOST_PASSES = 64  # at most at this many
LONGEST_KEY, LONGEST_NAME, CODED_LIMIT, NUMBER = 250, 15, 336, 20
RETRIEVALS, DATED = (b"get", b"gets"), (b"gat", b"gats")
STORAGE = tuple(name.encode() for name in model.STORAGE)
META = (b"mg", b"ms", b"md", b"ma")
KEYED = (b"incr", b"decr", b"touch", b"delete", b"mg", b"md", b"ma")

MOST_LENGTH = 30_000  # bytes of a stream's round with its longest block
MOST_LINES_OF_A_ROUND = 8
FAR, FAR_SIZE = b"@", b"0000"
LONGEST_TRY = 400  # changes without a gain


class Costs(NamedTuple):
    """Instructions, as bench/look_costs.py counts them on a proved build. Of a look: itself, and once more if keys are hashed; a byte
    and a line that it reads, a byte of a line that is searched for words too long, a word that it splits, a key that it hashes and
    fetches, a byte of that. Of serving: a request or fault, a byte of it, a key, a byte of that, a key that is stored."""

    look: float = 450
    hashing: float = 65
    byte: float = 0.75
    line: float = 75
    long_byte: float = 1.6
    word: float = 50
    key: float = 100
    key_byte: float = 1.6
    request: float = 600
    request_byte: float = 2.1
    request_key: float = 205
    request_key_byte: float = 2.2
    request_held: float = 250


COSTS = Costs()


# What the reader takes.


def is_held(key):
    """Whether the cache stores an item of a key."""
    return key.startswith(b"k")


def is_coded(line):
    """Whether the key of a meta command's line is in base64: its word is not the key that is looked up, and has no hint."""
    name, *words = line.split()
    return name in META and b"b" in words[1:]


class Front(NamedTuple):
    """The first request or fault of a text: its end, its keys, whether it is a fault, and whether its key is in base64."""

    end: int
    keys: tuple
    is_faulty: bool
    is_coded: bool = False

    def cost(self, size):
        cost = COSTS.request + COSTS.request_byte * size + COSTS.request_key * len(self.keys)
        return cost + COSTS.request_key_byte * sum(map(len, self.keys)) + COSTS.request_held * sum(map(is_held, self.keys))


class Reader(model.Server):
    """An empty server, which notes the keys of commands."""

    def __init__(self):
        super().__init__(1, 1 << 30, 1 << 20)
        self.keys = []

    def settle(self, key, moment):
        if key is not None:
            self.keys.append(key)

    def put(self, key, flags, deadline, value):
        self.items = [model.Item(key, flags, deadline, 1, value)]
        return self.items[0]

    def front(self, text, at):
        """The first request or fault from there on; None if it is not whole."""
        connection = self.connections[0]
        connection.unread, connection.output, connection.closed, self.keys = text[at:], b"", False, []
        self.turn(connection, 0)
        end = len(text) - len(connection.unread)
        is_faulty = connection.output.startswith((b"ERROR", b"CLIENT_ERROR", b"SERVER_ERROR"))
        coded = bool(self.keys) and is_coded(text[at:end].partition(b"\n")[0])
        return Front(end, tuple(self.keys), is_faulty, coded) if end > at and not connection.closed else None


# What a look reads.


class Seen(NamedTuple):
    """The result of a look: how far it took lines, what it read and split, and the keys that it hashes."""

    end: int
    bytes: int
    lines: int
    long_bytes: int
    words: int
    keys: list

    def cost(self):
        cost = COSTS.look + COSTS.byte * self.bytes + COSTS.line * self.lines + COSTS.long_byte * self.long_bytes + COSTS.word * self.words
        if len(self.keys) < FEW_KEYS:
            return cost
        return cost + COSTS.hashing + COSTS.key * len(self.keys) + COSTS.key_byte * sum(map(len, self.keys))

    def pause(self, before):
        """At how many requests no look begins after this one, if there were none at this number after the last that gained little."""
        if sum(map(is_held, self.keys)) > len(self.keys) // 2:
            return 0
        return min(MOST_PASSES, max(PASSES, before * 2))


class Kept(NamedTuple):
    """The state that the last look leaves: how many of the bytes in front it has read, at how many requests then none begins, at how
    many none began after the last that gained little, for how many keys there are hints, and how many of its lines may yet be refused
    free."""

    bytes: int = 0
    passes: int = 0
    pause: int = 0
    hints: int = 0
    spare: int = 0


class Ended(Exception):
    """The look ends in this line, which is not taken."""


class Look:
    """A look at the keys of a request and at the text after it: as many whole lines as it takes, each only as the reader takes it."""

    def __init__(self, text, front, at, limit):
        self.text, self.place, self.limit = text, front.end, min(limit, front.end + WINDOW)
        self.keys = list(front.keys[:MOST_KEYS])
        self.words, self.bytes, self.lines, self.long_bytes = len(self.keys), 0, 0, 0

    @staticmethod
    def begins(front, last):
        """Whether a look begins at a request, by the state that the last one left."""
        return last.bytes == 0 and last.passes == 0 and Look.has_hint(front)

    @staticmethod
    def has_hint(front):
        return front.keys and not front.is_faulty and not front.is_coded

    @staticmethod
    def kept(seen, at, last, there):
        if len(seen.keys) < FEW_KEYS:
            return Kept(seen.end - at, PASSES if there - seen.end >= SHORT_TEXT else 0, last.pause, 0)
        pause = seen.pause(last.pause)
        return Kept(seen.end - at, pause, pause, len(seen.keys), len(seen.keys) // KEYS_TO_ONE_REFUSED)

    @staticmethod
    def after(last, front, size):
        """The state once a request was served."""
        if front.is_faulty and last.hints:
            more = 0 if last.spare else VAIN_PASSES + size // VAIN_BYTES
            passes = min(MOST_PASSES, last.passes + more)
            return Kept(max(0, last.bytes - size), passes, last.pause, last.hints - 1, max(0, last.spare - 1))
        passes = last.passes if last.bytes or not Look.has_hint(front) else max(0, last.passes - 1)
        used = len(front.keys) if Look.has_hint(front) else 0
        return Kept(max(0, last.bytes - size), passes, last.pause, max(0, last.hints - used), last.spare)

    @classmethod
    def seen(cls, text, front, at, limit):
        look = cls(text, front, at, limit)
        taken, keys = look.place, list(look.keys)
        try:
            while look.goes_on(front):
                look.lines += 1
                look.take_line()
                taken, keys = look.place, list(look.keys)
        except Ended:
            pass
        return Seen(taken, look.bytes, look.lines, look.long_bytes, look.words, keys)

    def goes_on(self, front):
        return self.lines < MOST_LINES and len(front.keys) <= MOST_KEYS and len(self.keys) < MOST_KEYS

    def byte(self):
        return self.text[self.place] if self.place < self.limit else -1

    def word(self, most):
        """The word after one space, up to a byte that is no more than a space."""
        if self.byte() != 32:
            raise Ended
        self.place += 1
        self.words += 1
        start = self.place
        while self.byte() > 32 and self.byte() != 127 and self.place - start <= most:
            self.place += 1
        self.bytes += self.place - start + 1
        if self.place == start or self.place - start > most or self.byte() < 0:
            raise Ended
        return self.text[start : self.place]

    def take_key(self, most):
        word = self.word(most)
        if len(self.keys) == MOST_KEYS:
            raise Ended
        self.keys.append(word)

    def take_meta_key(self):
        """Takes none in base64. The first flags are read for it. Returns the text after the line."""
        word, flags = self.word(CODED_LIMIT), self.place
        after = self.end_of_line()
        line = self.text[flags : min(after, flags + MOST_FLAGS)].rstrip(b"\r\n")
        self.bytes += 6 * len(line)
        if b"b" not in line.split():
            if len(self.keys) == MOST_KEYS:
                raise Ended
            self.keys.append(word)
        return after

    def end_of_line(self):
        """The text after the line, in which no control byte is from here on."""
        end = self.place
        while end < self.limit and self.text[end] > 31 and self.text[end] != 127:
            end += 1
        self.bytes += end - self.place
        if self.text[end : min(end + 2, self.limit)] == b"\r\n":
            return end + 2
        if self.text[end : min(end + 1, self.limit)] != b"\n":
            raise Ended
        return end + 1

    def name(self):
        start = self.place
        while self.byte() > 32 and self.place - start < LONGEST_NAME:
            self.place += 1
        return self.text[start : self.place]

    def take_keys(self):
        """Takes as many as there is room for, if no word of the line is too long for a key. Returns the text after the line."""
        self.take_key(LONGEST_KEY)
        while self.byte() == 32:
            start = self.place
            word = self.word(LONGEST_KEY)
            if len(self.keys) == MOST_KEYS:
                self.place = start
                after = self.end_of_line()
                self.long_bytes += after - start
                if any(len(word) > LONGEST_KEY for word in self.text[start:after].split()):
                    raise Ended
                return after
            self.keys.append(word)
        return self.end_of_line()

    def take_line(self):
        name = self.name()
        self.bytes += len(name)
        if name in RETRIEVALS or name in DATED:
            if name in DATED and model.i64(self.word(NUMBER)) is None:
                raise Ended
            after = self.take_keys()
        elif name in META:
            after = self.take_meta_key()
        elif name in KEYED:
            self.take_key(CODED_LIMIT)
            after = self.end_of_line()
        elif name in STORAGE:
            self.take_key(LONGEST_KEY)
        elif name == b"mn" and self.byte() != 32:
            after = self.end_of_line()
        else:
            raise Ended
        if name in STORAGE or name == b"ms":
            words = [self.word(NUMBER) for _ in range(1 if name == b"ms" else 3)]
            after = after if name == b"ms" else self.end_of_line()
            length = model.digits(words[-1], 10, 2**31)
            after += self.limit if length is None else length + 2
        if after > self.limit:
            raise Ended
        self.place = after


class LookBefore(Look):
    """The look of commit 68ef589: from any request or fault on, if no hint is left, at words between single bytes, which may be empty."""

    def __init__(self, text, front, at, limit):
        super().__init__(text, Front(at, (), False), at, limit)

    @staticmethod
    def begins(_, last):
        return last.hints == 0

    @staticmethod
    def kept(seen, _at, _last, _there):
        return Kept(hints=len(seen.keys))

    @staticmethod
    def after(last, front, size):
        return Kept(hints=max(0, last.hints - (1 if front.is_faulty else len(front.keys))))

    def goes_on(self, front):
        return self.lines == 0 or self.lines < MOST_LINES and 0 < len(self.keys) < MOST_KEYS

    def word(self, most=CODED_LIMIT):
        if self.byte() != 32:
            raise Ended
        return self.word_after_a_byte()

    def word_after_a_byte(self):
        self.place += 1
        self.words += 1
        start = self.place
        while self.byte() > 32 and self.place - start < CODED_LIMIT:
            self.place += 1
        return self.text[start : self.place]

    def end_words(self):
        start = self.place
        while self.byte() > 13:
            self.place += 1
        self.bytes += self.place - start
        self.place += 1 + (self.byte() == 13)

    def take_line(self):
        name = self.name()
        if name in RETRIEVALS or name in DATED:
            if name in DATED:
                self.word()
            self.take_words()
        elif name in KEYED:
            self.take_key(CODED_LIMIT)
            self.end_words()
        elif name in STORAGE or name == b"ms":
            self.take_key(CODED_LIMIT)
            words = [self.word() for _ in range(1 if name == b"ms" else 3)]
            self.end_words()
            length = model.digits(words[-1], 10, 2**31)
            self.place += self.limit if length is None else length + 2
        elif name == b"mn":
            self.end_words()
        else:
            raise Ended
        if self.place > self.limit:
            raise Ended

    def take_words(self):
        for _ in range(MOST_EMPTY_WORDS):
            if self.byte() == 10:
                self.place += 1
                return
            word = self.word_after_a_byte()
            if word and len(self.keys) == MOST_KEYS:
                break
            self.keys += [word] if word else []
        raise Ended


# The cost of a stream.


class Line(NamedTuple):
    """A line of a stream, this many times. If the reader finds a length in it, a block of that size follows it. The word FAR has as many
    bytes as there are up to the round's last line, if two are passed over after them."""

    words: tuple
    times: int = 1
    filling: bytes = b"x"
    end: bytes = b"\n"
    is_cut: bool = False  # The text up to here is before the rest.

    def texts(self, after):
        """All copies, if this many bytes are between them and the last line."""
        texts = []
        for _ in range(self.times):
            size = len(self.block([FAR_SIZE if word == FAR else word for word in self.words]))
            far = b"%04d" % min(9_999, max(0, after + size - 2))
            words = [far if word == FAR else word for word in self.words]
            block = b"" if FAR in self.words and self.length(words) == int(far) else self.block(words)
            texts.append(b" ".join(words) + self.end + block)
            after += len(texts[-1])
        return b"".join(reversed(texts))

    @staticmethod
    def length(words):
        read = [word for word in words if word]
        place = 4 if read[:1] and read[0] in STORAGE else 2 if read[:1] == [b"ms"] else len(read)
        return model.digits(read[place], 10, 2**20) if place < len(read) else None

    def block(self, words):
        length = self.length(words)
        return b"" if length is None else (self.filling * (length // len(self.filling) + 1))[:length] + b"\r\n"


class Sum(NamedTuple):
    """Instructions of looks and of serving in a stretch of a stream, the bytes and the requests and faults of it."""

    looks: float = 0
    serving: float = 0
    bytes: int = 0
    requests: int = 0

    def plus(self, looks, serving, size):
        return Sum(self.looks + looks, self.serving + serving, self.bytes + size, self.requests + 1)

    def since(self, before):
        return Sum(*(now - then for now, then in zip(self, before)))

    def ratio(self):
        return self.looks / self.serving if self.serving else 0

    def bound(self):
        """The most that looks cost."""
        return self.requests * most_by_request() + self.bytes * most_by_byte()


def most_by_request():
    """The most that looks cost for a request that is served: each begins at one, and ends in a line that it does not take."""
    return COSTS.look + COSTS.hashing + COSTS.line


def most_by_byte():
    """The most that they cost for a byte beside that. None is in the lines of two looks, and none is hashed twice; one may be split
    twice, in a line that is not taken, and as the request at which the next look begins. A line that is taken has at least three bytes,
    and a word two with the space before it."""
    return COSTS.byte + COSTS.long_byte + COSTS.key_byte + COSTS.line / 3 + COSTS.word + COSTS.key / 2


class Stream:
    """Lines repeatedly: the text from a place on is that from the same place of the first round on."""

    def __init__(self, round, kind, cuts=()):
        self.round, self.kind, self.cuts, self.fronts, self.looks = round, kind, cuts, {}, {}
        self.size = len(round)
        self.text = round * (MOST_LENGTH // self.size + 2)

    @staticmethod
    def of_lines(lines, kind):
        texts, after = [lines[-1].texts(0)], 0
        for line in lines[-2::-1]:
            texts.insert(0, line.texts(after))
            after += len(texts[0])
        ends = [sum(map(len, texts[: number + 1])) for number in range(len(texts))]
        return Stream(b"".join(texts), kind, [end for end, line in zip(ends, lines) if line.is_cut])

    def front(self, reader, at):
        if at not in self.fronts:
            self.fronts[at] = reader.front(self.text[: at + MOST_LENGTH], at)
        return self.fronts[at]

    def there(self, end):
        """How far the text has arrived, once it is at this place."""
        if not self.cuts:
            return len(self.text)
        rounds, at = divmod(end - 1, self.size)
        after = [cut for cut in self.cuts if cut > at]
        return rounds * self.size + (after[0] if after else self.size + self.cuts[0])

    def look(self, front, at):
        if at not in self.looks:
            self.looks[at] = self.kind.seen(self.text, front, at, self.there(front.end))
        return self.looks[at]

    def sum(self, reader):
        """The sum of a stretch that repeats. It is empty if a request is never whole."""
        at, last, sum, seen = 0, Kept(), Sum(), {}
        while (at, last) not in seen:
            seen[at, last] = sum
            front, cost = self.front(reader, at), 0
            if front is None:
                return Sum()
            if self.there(front.end) - at >= SHORT_TEXT:
                if self.kind.begins(front, last):
                    look = self.look(front, at)
                    cost, last = look.cost(), self.kind.kept(look, at, last, self.there(front.end))
                last = self.kind.after(last, front, front.end - at)
            sum = sum.plus(cost, front.cost(front.end - at), front.end - at)
            at = front.end % self.size
        return sum.since(seen[at, last])


# The search.

NUMBERS = [b"0", b"1", b"5", b"9", b"30", b"60", b"100", b"500", b"1000", b"2000", b"4000", b"6000", b"8000", b"x", b"-1", FAR, FAR]
KEYS = [b"a", b"k", b"k", b"a" * 4, b"a" * 16, b"k" * 100, b"a" * 250, b"a" * 251, b"a\x7f", b"\x01", b""]
EXTRAS = [b"", b"", FAR, b"noreply", b"q", b"v", b"b", b"z", b"v" * 300]
NAMES = [*RETRIEVALS, *DATED, b"set", b"cas", b"ms", *KEYED, b"mn", b"version", b"flush_all", b"xx", b""]
FILLINGS = [b"x", b" ", b"\n", b"get a b c d\n", b"get" + b" " * 61 + b"\n", b"incr a 1\n"]
TIMES = [1, 1, 1, 2, 3, 8, 31, 60]


class Search:
    def __init__(self, dice, kind, without):
        self.dice, self.kind, self.reader, self.tried = dice, kind, Reader(), 0
        self.names = [name for name in NAMES if name not in without]

    def line(self):
        """A line as a client would send it, or nearly so."""
        name = self.dice.choice(self.names)
        key, times = self.dice.choice(KEYS), self.dice.choice(TIMES)
        if name in RETRIEVALS or name in DATED:
            keys = [self.dice.choice(KEYS[:3])] * self.dice.choice([1, 2, 3, 8, 24, 31, 32, 33, 64])
            return Line((name, *([b"0"] if name in DATED else []), *keys), times)
        if name in STORAGE or name == b"ms":
            numbers = [] if name == b"ms" else [b"0", b"0"]
            more = [b"1"] if name == b"cas" else []
            length = FAR if self.dice.random() < 0.3 else self.dice.choice(NUMBERS)
            return Line((name, key, *numbers, length, *more), times, self.dice.choice(FILLINGS))
        more = {b"incr": [b"1"], b"decr": [b"1"], b"touch": [b"0"]}.get(name, [])
        return Line((name, *([key] if name in KEYED else []), *more), times)

    def other_words(self, words):
        words, at = list(words), self.dice.randrange(len(words))
        if at == 0:
            return (self.dice.choice(self.names), *words[1:])
        word = self.dice.choice(self.dice.choice([NUMBERS, KEYS, EXTRAS]))
        match self.dice.randrange(6):
            case 0:
                words[at] = word
            case 1:
                words.insert(at + 1, word)
            case 2:
                words[at + 1 : at + 1] = [word] * self.dice.choice([2, 8, 31, 60])
            case 3:
                del words[at]
            case 4 if len(words) > 2:
                del words[at + 1 :]
            case _ if words[at].isdigit():
                words[at] = b"%d" % max(0, int(words[at]) + self.dice.choice([-1, 1]) * self.dice.choice([1, 2, 9, 30, 300]))
        return tuple(words)

    def other_line(self, line):
        match self.dice.randrange(8):
            case 0:
                return line._replace(filling=self.dice.choice(FILLINGS))
            case 1:
                return line._replace(end=self.dice.choice([b"\n", b"\r\n", b" \n"]))
            case 2:
                return line._replace(is_cut=not line.is_cut)
            case 3 | 4:
                return line._replace(times=self.dice.choice([*TIMES, line.times + 1, line.times + 1, max(1, line.times - 1)]))
            case _:
                return line._replace(words=self.other_words(line.words))

    def changed(self, lines):
        lines, at = list(lines), self.dice.randrange(len(lines))
        match self.dice.randrange(7):
            case 0:
                lines.insert(at, self.line())
            case 1:
                lines.insert(at, self.other_line(lines[at]))
            case 2 if len(lines) > 1:
                del lines[at]
            case 3:
                lines.insert(self.dice.randrange(len(lines)), lines.pop(at))
            case _:
                lines[at] = self.other_line(lines[at])
        return lines[:MOST_LINES_OF_A_ROUND]

    def sum_of(self, lines):
        self.tried += 1
        stream = Stream.of_lines(lines, self.kind)
        sum = stream.sum(self.reader) if stream.size < MOST_LENGTH // 2 else Sum()
        if self.kind is Look and sum.looks > sum.bound():
            raise Above(sum, lines)
        return sum

    def climb(self, deadline):
        """Goes from a beginning to a stream that no change makes more expensive for long. A change that costs a little is kept now and
        then."""
        lines = [self.line() for _ in range(self.dice.randrange(1, 4))]
        here = self.sum_of(lines)
        best, tries = (here, lines), 0
        while tries < LONGEST_TRY and time.monotonic() < deadline:
            changed = lines
            for _ in range(self.dice.choice([1, 1, 2, 3])):
                changed = self.changed(changed)
            there = self.sum_of(changed)
            tries += 1
            if there.ratio() >= here.ratio() * (1 - 0.02 * (self.dice.random() < 0.1)):
                lines, here = changed, there
            if here.ratio() > best[0].ratio():
                best, tries = (here, lines), 0
        return best


class Above(Exception):
    """A stream whose looks cost more than the bound."""


def shown(sum, lines):
    """A stream in two lines or more: its cost, and the lines of a round."""
    told = [f"{sum.ratio():.2f}: looks {sum.looks:,.0f}, serving {sum.serving:,.0f}; {sum.bytes:,} bytes, {sum.requests:,} requests"]
    for line in lines:
        text = line._replace(times=1).texts(0)
        more = f" .. of {len(text):,} bytes" if len(text) > 90 else ""
        far = ", its number so far that the last line follows" if FAR in line.words else ""
        told.append(f"      {line.times} x {text[:90]!r}{more}{far}{', and a pause' if line.is_cut else ''}")
    return "\n".join(told)


def main():
    words = argparse.ArgumentParser(description=__doc__, formatter_class=argparse.RawDescriptionHelpFormatter)
    words.add_argument("--seconds", type=float, default=20)
    words.add_argument("--seed", type=int, default=1)
    words.add_argument("--shown", type=int, default=5)
    words.add_argument("--without", default="", help="names of commands, with commas")
    words.add_argument("--before", action="store_true", help="the look of commit 68ef589")
    asked = words.parse_args()
    search = Search(random.Random(asked.seed), LookBefore if asked.before else Look, asked.without.encode().split(b","))
    deadline, found = time.monotonic() + asked.seconds, []
    try:
        while time.monotonic() < deadline:
            found.append(search.climb(deadline))
    except Above as above:
        print(f"above its bound of {above.args[0].bound():,.0f}: {shown(*above.args)}")
        return 1
    found.sort(key=lambda each: -each[0].ratio())
    if not asked.before:
        bound = f"{most_by_request():,.0f} instructions for each request and {most_by_byte():,.0f} for each byte"
        print(f"No stream is above the bound of {bound}.")
    print(f"{search.tried:,} streams from {len(found)} beginnings; instructions of looks over those of serving:")
    print(*(shown(*each) for each in found[: asked.shown]), sep="\n")
    return 0


if __name__ == "__main__":
    sys.exit(main())
