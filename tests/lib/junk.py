"""Batches of mutated requests, for fuzz.py: each is determined by a seed, a connection and a number, and is equal every time. looks.py
makes others, with keys, exptimes and flags of its own.

A request is one of a command of the protocol, as a client would send it, and then, more often than not, changed: bits are flipped, bytes
removed, added or doubled, lengths made wrong or huge, lines made longer than the server reads.

All keys and values of a connection have its **tag** (`c017-` for connection 17), and no other connection ever sends those five bytes: if
a mutation made another's tag, it is made the connection's own again.
"""

import base64
import random
import re

TAG = re.compile(rb"c\d\d\d-")
KEYS = 16
LINE_LIMIT = 65536
VALUE_LIMIT = 1048576

FLAGS = ["0", "1", "4294967295"] * 4 + ["4294967296", "-1", "x"]
EXPTIMES = ["0", "1", "60", "4000000000"] * 4 + ["-1", "2592001", "99999999999999999999", "1x"]
NUMBERS = ["0", "1", "5", "18446744073709551615"] * 4 + ["18446744073709551616", "-1", "", "0x1"]
LENGTHS = ["2147483647", "2147483648", "4294967295", "99999999999", "18446744073709551616", "-1", "-2147483648", "1e9", ""]
FLUSHES = ["flush_all", "flush_all 0", "flush_all 1", "flush_all -1", "flush_all noreply", "flush_all 2592001 noreply"]
ODD_LINES = ["", " ", "get", "set", "mg", "ms a", "stats", "verbosity 1", "GET a", "put a 0 0 1", "mn x", "version x", "\0"]

LETTERS = {"mg": "bcfkqstv", "ms": "bckqs", "md": "bkqI", "ma": "bckqtv"}
TOKENS = {"mg": "OTNR", "ms": "OTCFM", "md": "OC", "ma": "OTCMNJD"}
MODES = {"ms": "EAPRSeaprsx", "ma": "IDid+-x"}


def tag_of(number):
    return b"c%03d-" % number


class Maker:
    """Makes requests of a connection by the dice."""

    exptimes, letters = EXPTIMES, LETTERS
    sizes = [1, 1, 1, 2, 24]  # the number of keys of a retrieval

    def __init__(self, dice, tag):
        self.dice, self.tag = dice, tag.decode()

    def one_of(self, things):
        return things[int(self.dice.random() * len(things))]

    def below(self, number):
        return int(self.dice.random() * number)

    def key(self):
        if self.dice.random() < 0.97:
            return f"{self.tag}{self.below(KEYS)}"
        return self.tag.ljust(self.one_of([249, 250, 250, 251]), "k")

    def coded_key(self):
        """A key in base64, of bytes that no plain key has. It has no tag: a changed one may be a key of others too."""
        return base64.b64encode(f"\0 \x7f{self.tag[1:4]}{self.below(4)}".encode()).decode()

    def value(self):
        kind = self.dice.random()
        if kind < 0.3:
            return str(self.below(1000))
        if kind < 0.9:
            return self.tag + "v" * self.below(60)
        if kind < 0.99:
            return f"{self.tag}\r\nEND\r\n" * self.below(4)
        if kind < 0.9997:
            return self.tag * self.below(2000)
        return self.tag * ((VALUE_LIMIT + self.below(3) * 5) // 5)

    def noreply(self):
        return self.one_of(["", "", "", "", " noreply", " norepl"])

    def storage(self):
        name = self.one_of(["set", "set", "set", "add", "replace", "append", "prepend", "cas"])
        value = self.value()
        number = f" {self.one_of(NUMBERS)}" if name == "cas" else ""
        flags, exptime = self.one_of(FLAGS), self.one_of(self.exptimes)
        return f"{name} {self.key()} {flags} {exptime} {len(value)}{number}{self.noreply()}\r\n{value}\r\n"

    def retrieval(self):
        name = self.one_of(["get", "get", "get", "gets", "gat", "gats"])
        exptime = f" {self.one_of(self.exptimes)}" if name in ("gat", "gats") else ""
        keys = " ".join(self.key() for _ in range(self.one_of(self.sizes)))
        return f"{name}{exptime} {keys}\r\n"

    def short(self):
        """A command of one line that shows no value."""
        name = self.one_of(["touch", "delete", "incr", "decr", "version", "mn", "odd"])
        if name == "touch":
            return f"touch {self.key()} {self.one_of(self.exptimes)}{self.noreply()}\r\n"
        if name == "delete":
            return f"delete {self.key()}{self.one_of(['', '', ' 0', ' 1'])}{self.noreply()}\r\n"
        if name in ("incr", "decr"):
            return f"{name} {self.key()} {self.one_of(NUMBERS)}{self.noreply()}\r\n"
        if name == "odd":
            return self.one_of(ODD_LINES) + "\r\n" if self.dice.random() < 0.95 else "quit\r\n"
        return name + "\r\n"

    def token(self, name, flag):
        if flag == "O":
            return self.tag + "o" * self.below(30)
        if flag == "M":
            return self.one_of(MODES[name])
        return self.one_of(self.exptimes) if flag in "TN" else self.one_of(FLAGS) if flag == "F" else self.one_of(NUMBERS)

    def meta(self):
        name = self.one_of(["mg", "mg", "ms", "ms", "md", "ma"])
        chosen = self.dice.sample(self.letters[name] + TOKENS[name], self.below(6))
        coded = "b" in chosen
        flags = "".join(f" {flag}{self.token(name, flag) if flag in TOKENS[name] else ''}" for flag in chosen)
        key = self.coded_key() if coded else self.key()
        if name != "ms":
            return f"{name} {key}{flags}\r\n"
        value = self.value()
        return f"ms {key} {len(value)}{flags}\r\n{value}\r\n"

    def request(self):
        kind = self.dice.random()
        if kind < 0.3:
            return self.storage()
        if kind < 0.5:
            return self.retrieval()
        return self.short() if kind < 0.65 else self.meta()


class Mutator:
    """Changes the bytes of a request."""

    def __init__(self, maker):
        self.maker, self.dice = maker, maker.dice
        self.ways = [self.flip_bits, self.cut, self.put_in, self.end_line_otherwise, self.change_length, self.move_words]
        self.rare_ways = [self.make_length_huge, self.make_line_long, self.break_off, self.make_garbage]

    def place(self, request):
        return int(self.dice.random() * len(request))

    def flip_bits(self, request):
        changed = bytearray(request)
        for _ in range(self.maker.one_of([1, 1, 2, 3])):
            changed[self.place(request)] ^= 1 << self.maker.below(8)
        return bytes(changed)

    def cut(self, request):
        at = self.place(request)
        return request[:at] + request[at + 1 + self.maker.below(8) :]

    def put_in(self, request):
        at = self.place(request)
        kinds = [b"\0", b" ", b"\r", b"\n", b"\r\n", b"\t", b"\x7f", b"\xff", request[at : at + 8], self.dice.randbytes(8)]
        return request[:at] + self.maker.one_of(kinds) + request[at:]

    def end_line_otherwise(self, request):
        end = self.maker.one_of([b"\r\n\r\n", b"\n", b"\r", b"\n\r", b"\r\r\n", b"", b" \r\n", b"\0\r\n"])
        return request.replace(b"\r\n", end, self.maker.one_of([1, 2]))

    def change_length(self, request):
        """The last number of the line, if there is one, becomes a little more or less."""
        line, end, rest = request.partition(b"\r\n")
        return re.sub(rb"\d{1,9}(?=[^\d]*$)", self.another_number, line) + end + rest

    def another_number(self, number):
        return b"%d" % max(0, int(number[0]) + self.maker.one_of([-2, -1, 1, 2, 10, 100]))

    def move_words(self, request):
        line, end, rest = request.partition(b"\r\n")
        words = line.split(b" ")
        at = self.place(words)
        way = self.maker.below(4)
        if way == 0:
            del words[at]
        elif way == 1:
            words.insert(at, words[self.place(words)])
        elif way == 2:
            self.dice.shuffle(words)
        else:
            words[at] = words[at].upper()
        return b" ".join(words) + end + rest

    def make_length_huge(self, request):
        length = self.maker.one_of(LENGTHS).encode()
        return re.sub(rb"\d+(?=( noreply)?\r\n)", length, request, count=1)

    def make_line_long(self, request):
        at = self.place(request)
        length = self.maker.one_of([300, 2000, 3000, LINE_LIMIT // 2, LINE_LIMIT - len(request), LINE_LIMIT])
        return request[:at] + self.maker.one_of([b" ", b"x", b"0", b"\0", b"\r"]) * length + request[at:]

    def break_off(self, request):
        return request[: self.place(request)]

    def make_garbage(self, _):
        return self.dice.randbytes(self.maker.below(200)) + self.maker.one_of([b"", b"\n", b"\r\n"])

    def mutated(self, request):
        drawn = self.dice.random()
        if drawn < 0.5 or not request:
            return request
        if drawn < 0.99 or len(request) > LINE_LIMIT:
            return self.maker.one_of(self.ways)(request)
        return self.maker.one_of(self.rare_ways)(request)


def dice_of(seed, number, batch):
    return random.Random(f"{seed} {number} {batch}")


def batch_of(dice, number, count, may_flush):
    """This many requests of a connection, in a row."""
    tag = tag_of(number)
    maker = Maker(dice, tag)
    mutator = Mutator(maker)
    requests = []
    for _ in range(count):
        flush = may_flush and dice.random() < 0.1
        request = maker.one_of(FLUSHES) + "\r\n" if flush else maker.request()
        requests.append(mutator.mutated(request.encode("latin-1")))
    return TAG.sub(tag, b"".join(requests))


def may_close(batch):
    """Whether a server may close a connection that sent this: it has `quit`, or a line that is longer than it reads."""
    return b"quit" in batch or any(len(line) >= LINE_LIMIT for line in batch.split(b"\n"))
