#!/usr/bin/env python3
"""Sends a server, or a proxy in front of two, mutated requests over many connections at once, and checks that it lives and
mixes nothing up.

Usage: fuzz.py SERVER [--through PROXY] [--requests N] [--connections N] [--seed N]
                                                               (1,000,000 requests, 100 connections, seed 1)
       fuzz.py --batch CONNECTION NUMBER [--seed N] > FILE             (the bytes of a batch that the other form sends)

SERVER is the built mc_serverd (or memcached, whose lines are known too). Each connection sends batches of 1 to 79 requests
(junk.py), whole or in pieces. After each it reaches a known state: by a request whose answer is known, or by closing and
connecting again, or by both if the junk has swallowed that request. Then it makes an exchange that is known byte for byte. Now
and then a client asks for 600 MB and reads none of it.

It fails, and prints the connection, the batch, the bytes that were sent and those that arrived, if

- the server ends, or closes a connection that sent neither `quit` nor a line that is too long;
- bytes arrive that are no reply of the protocol, or a reply with the tag of another connection (see junk.py): in its
  line, or in the value of a key that has the connection's own tag;
- an exchange is answered by other bytes, or not within ten seconds. (A `flush_all`, which connection 0 alone sends, in some
  of its batches, may empty the cache during another's exchange. Then that is made once more.)
- the server ever had more memory resident than: what it had at the start, and twice the budget with 200 bytes more for
  each item, and 4 MiB for each connection (unread bytes are at most 1.1 MB, in a buffer that may be twice as large while it
  grows, and answers), and 16 MiB.

With a proxy, the rules for the server are checked in the proxy; no link of it may be lost.

At the end it prints how often each answer was given, what was sent, and the cost for the server.
"""

import argparse
import collections
import contextlib
import errno
import pathlib
import re
import selectors
import socket
import struct
import sys
import time

sys.path.insert(0, str(pathlib.Path(__file__).resolve().parents[1] / "lib"))

import junk
from servers import Proxy, Server, connected, is_memcached

# Little enough for items to be evicted all the time, and enough that the items of an exchange stay until it asks for them.
BUDGET = 4 * 2**20
ITEMS = 1_000
MEMORY_AN_ITEM = 200
MEMORY_A_CONNECTION = 4 * 2**20
MEMORY_BESIDE = 16 * 2**20

PATIENCE = 10.0  # this long an answer may take
QUIET = 0.5  # this long without an answer: the junk has swallowed the request
QUIET_BEHIND_FLUSHES = 2.0  # longer, since no flush may be left
GREEDY_BATCHES = 1 / 2000
GREEDY_GETS, GREEDY_GETS_OF_A_PROXY = 600, 20
GREEDY_TIME = 0.5

LINE = (
    rb"STORED|NOT_STORED|EXISTS|NOT_FOUND|DELETED|TOUCHED|OK|END|ERROR|MN|EN|\d{1,20}|VERSION [\d.]+"
    rb"|CLIENT_ERROR (line too long|bad command line format|invalid flag|bad token in command line format"
    rb"|invalid numeric delta argument|bad data chunk|cannot increment or decrement non-numeric value)"
    rb"|SERVER_ERROR (object too large for cache|out of memory storing object)"
    rb"|(HD|NS|EX|NF)( [^ \n]*)*"
)
LINE_OF_MEMCACHED = LINE + rb"|(CLIENT_ERROR|SERVER_ERROR|STAT|ME|EN) .*"
VALUE = re.compile(rb"VALUE [^ ]+ \d+ (\d+)( \d+)?|VA (\d+)( .*)?")


class Failed(Exception):
    pass


class Replies:
    """The replies of a connection, checked as they arrive."""

    def __init__(self, tag, line, counts):
        self.tag, self.line, self.counts = tag, line, counts
        self.rest = b""

    def lines_of(self, piece):
        """The lines that arrived whole with a piece, each value with its line."""
        data, lines, at = self.rest + piece, [], 0
        while (end := data.find(b"\r\n", at)) >= 0:
            line = data[at:end]
            if line.startswith((b"VALUE ", b"VA ")):
                behind = end + 4 + self.size_of(line)
                if len(data) < behind:
                    break
                self.look_at_value(line, data[end + 2 : behind])
            elif self.line.fullmatch(line):
                behind = end + 2
            else:
                raise Failed(f"no reply of the protocol: {line[:200]!r}")
            self.look_at_tags(line, line)
            self.counts[line if b"_ERROR " in line else line.split(b" ", 1)[0]] += 1
            lines.append(line)
            at = behind
        self.rest = data[at:]
        return lines

    def size_of(self, line):
        shown = VALUE.fullmatch(line)
        size = int(shown[1] or shown[3]) if shown else junk.VALUE_LIMIT + 1
        if size > junk.VALUE_LIMIT:
            raise Failed(f"no line of a value: {line[:200]!r}")
        return size

    def look_at_value(self, line, block):
        if not block.endswith(b"\r\n"):
            raise Failed(f"a value that does not end where its line says: {line!r}, at the end {block[-20:]!r}")
        if (b"VALUE " if line.startswith(b"VALUE ") else b" k") + self.tag in line:
            self.look_at_tags(line, block)

    def look_at_tags(self, line, text):
        for tag in junk.TAG.findall(text):
            if tag != self.tag:
                raise Failed(f"what is another connection's: {tag!r} with {line[:200]!r}")


def batch_of(seed, number, batch):
    """The dice, the number of requests and the bytes of a batch. Connection 0 flushes in each eighth of its batches."""
    dice = junk.dice_of(seed, number, batch)
    count = dice.randrange(1, 80)
    return dice, count, junk.batch_of(dice, number, count, number == 0 and batch % 8 == 0)


def exchange_of(tag):
    """Requests, and exactly their answer."""
    good, number = tag + b"good", tag + b"number"
    value = tag + b"\r\n\0" * 20
    both = value + b"more"
    asked = b"set %s 5 0 %d\r\n%s\r\nappend %s 0 0 4\r\nmore\r\n" % (good, len(value), value, good)
    asked += b"get %s\r\nmg %s k f s t v O7\r\nms %s 2 T60 q\r\n41\r\nincr %s 1\r\nmn\r\n" % (good, good, number, number)
    asked += b"delete %s\r\nmd %s q\r\nget %s %s\r\n" % (good, number, good, number)
    shown = b"VALUE %s 5 %d\r\n%s\r\nEND\r\n" % (good, len(both), both)
    shown_by_meta = b"VA %d k%s f5 s%d t-1 O7\r\n%s\r\n" % (len(both), good, len(both), both)
    return asked, b"STORED\r\nSTORED\r\n" + shown + shown_by_meta + b"42\r\nMN\r\nDELETED\r\nEND\r\n"


class Connection:
    """One of the connections: `does` says what it is doing, `deadline` when that has taken too long.

    junk: it sends a batch. barrier: it awaits the answer to the request after the batch. end: it has closed its side, and
    waits until the server closes the other. exchange: it awaits the known answer. done: it has sent all its requests.
    """

    def __init__(self, fuzz, number):
        self.fuzz, self.number = fuzz, number
        self.tag = junk.tag_of(number)
        self.batch_number, self.requests = -1, 0
        self.batch, self.flushes = b"", False
        self.socket = None
        self.connect()
        self.begin_exchange()

    # The socket

    def connect(self):
        if self.socket is not None:
            self.fuzz.selector.unregister(self.socket)
            self.socket.close()
            self.fuzz.counts["connections made again"] += 1
        self.socket = connected(self.fuzz.server.port, PATIENCE)
        self.socket.setblocking(False)
        self.fuzz.selector.register(self.socket, selectors.EVENT_READ, self)
        self.replies = Replies(self.tag, self.fuzz.line, self.fuzz.answers)
        self.unsent = collections.deque()

    def give(self, *pieces):
        self.unsent.extend(piece for piece in pieces if piece)
        self.fuzz.selector.modify(self.socket, selectors.EVENT_READ | selectors.EVENT_WRITE, self)

    def happens(self, events):
        """Does what the selector allows."""
        try:
            if events & selectors.EVENT_READ:
                self.receive()
            if events & selectors.EVENT_WRITE and self.unsent:
                self.send()
        except OSError as error:
            if error.errno not in (errno.ECONNRESET, errno.EPIPE, errno.ENOTCONN):
                raise
            self.closed_by_server()

    def send(self):
        piece = self.unsent.popleft()
        sent = self.socket.send(piece)
        self.fuzz.counts["bytes sent"] += sent
        self.deadline = time.monotonic() + PATIENCE
        if sent < len(piece):
            self.unsent.appendleft(piece[sent:])
        if not self.unsent:
            self.fuzz.selector.modify(self.socket, selectors.EVENT_READ, self)
            if self.does == "junk":
                self.end_batch()

    def receive(self):
        does = self.does
        piece = self.socket.recv(262144)
        if not piece:
            self.closed_by_server()
            return
        self.fuzz.counts["bytes received"] += len(piece)
        if does == "exchange":
            self.compare(piece)
            return
        lines = self.replies.lines_of(piece)
        if does == "barrier" and self.barrier in lines:
            if lines[-1] != self.barrier or self.replies.rest:
                raise Failed(f"after the last answer came {lines[-3:]} and {self.replies.rest[:100]!r}")
            self.begin_exchange()
        elif does in ("barrier", "end"):
            self.deadline = time.monotonic() + self.quiet()

    def closed_by_server(self):
        if self.does == "exchange":
            raise Failed("the server closed the connection in a known exchange")
        if self.does != "end":
            self.fuzz.counts["connections closed by the server"] += 1
            if not (junk.may_close(self.batch) or self.fuzz.of_memcached):
                raise Failed("the server closed a connection that had sent no `quit` and no line that is too long")
        if self.does == "junk":
            self.count_requests(sum(map(len, self.unsent)))
        self.connect()
        self.begin_exchange()

    def passes(self, moment):
        """Does what is due if something has taken too long."""
        if self.does == "done" or moment < self.deadline:
            return
        if self.does == "junk":
            raise Failed("the server takes no more bytes")
        if self.does == "exchange":
            raise Failed(f"no answer to a known exchange but {self.got!r}")
        self.fuzz.counts["batches whose end was swallowed"] += self.does == "barrier"
        self.connect()
        self.begin_exchange()

    # The states.

    def begin_batch(self):
        if self.requests >= self.fuzz.requests_each:
            self.does = "done"
            return
        self.does = "junk"
        self.batch_number += 1
        self.dice, self.count, self.batch = batch_of(self.fuzz.seed, self.number, self.batch_number)
        self.flushes = b"flush_all" in self.batch
        if self.flushes:
            self.fuzz.flushing = True
        if self.dice.random() < GREEDY_BATCHES:
            self.fuzz.add_greedy(self.tag)
        drawn = self.dice.random()
        cuts = 0 if drawn < 0.7 else self.dice.randrange(1, 4) if drawn < 0.85 else self.dice.randrange(60)
        places = sorted(self.dice.randrange(len(self.batch) + 1) for _ in range(cuts))
        self.deadline = time.monotonic() + PATIENCE
        self.give(*(self.batch[start:end] for start, end in zip([0, *places], [*places, len(self.batch)])))

    def quiet(self):
        return QUIET_BEHIND_FLUSHES if self.flushes else QUIET

    def count_requests(self, unsent=0):
        """Counts the requests of the batch, except those whose bytes were not sent."""
        sent = self.count * (len(self.batch) - unsent) // max(1, len(self.batch))
        self.requests += max(1, sent)
        self.fuzz.counts["requests sent"] += sent

    def end_batch(self):
        """The batch was sent: reaches a known state, by one of four ways."""
        self.count_requests()
        way = 0 if self.flushes else self.dice.random()
        self.does, self.deadline = "barrier", time.monotonic() + self.quiet()
        if way < 0.6:
            opaque = b"O%sb%d" % (self.tag, self.batch_number)
            self.barrier = b"NF " + opaque
            # Its sending is watched as the batch's was; an answer cannot arrive before.
            self.unsent.append(b"\r\nmd %snone %s\r\n" % (self.tag, opaque))
            self.send()
            self.deadline = time.monotonic() + self.quiet()
        elif way < 0.8:
            self.socket.shutdown(socket.SHUT_WR)
            self.does = "end"
        else:
            if way < 0.9:
                self.socket.setsockopt(socket.SOL_SOCKET, socket.SO_LINGER, struct.pack("ii", 1, 0))
            self.connect()
            self.begin_exchange()

    def begin_exchange(self):
        asked, self.answer = exchange_of(self.tag)
        if self.flushes:
            asked, self.answer = b"flush_all\r\n" + asked, b"OK\r\n" + self.answer
        self.does, self.got, self.began = "exchange", b"", time.monotonic()
        self.deadline = self.began + PATIENCE
        self.give(asked)

    def compare(self, piece):
        self.got += piece
        if self.got == self.answer:
            self.fuzz.counts["known exchanges"] += 1
            if self.flushes:
                self.fuzz.flushing, self.fuzz.last_flush = False, time.monotonic()
                self.flushes = False
            self.begin_batch()
        elif not self.answer.startswith(self.got):
            if not (self.fuzz.flushing or self.fuzz.last_flush >= self.began):
                raise Failed(f"to the exchange {exchange_of(self.tag)[0]!r}\ncame    {self.got!r}\nwanted  {self.answer!r}")
            self.fuzz.counts["exchanges made again for a flush"] += 1
            self.connect()
            self.begin_exchange()


class Fuzz:
    """All connections, and what they have in common."""

    def __init__(self, server, requests, connections, seed, greedy_gets):
        self.server, self.seed, self.greedy_gets = server, seed, greedy_gets
        self.of_memcached = is_memcached(server.program)
        self.line = re.compile(LINE_OF_MEMCACHED if self.of_memcached else LINE)
        self.requests_each = -(-requests // connections)
        self.selector = selectors.DefaultSelector()
        self.counts, self.answers = collections.Counter(), collections.Counter()
        self.flushing, self.last_flush = False, 0.0
        self.greedy = []
        self.memory_limit = server.memory() + 2 * (BUDGET + ITEMS * MEMORY_AN_ITEM)
        self.memory_limit += connections * MEMORY_A_CONNECTION + MEMORY_BESIDE
        self.memory_early = None
        self.connections = [Connection(self, number) for number in range(connections)]

    def add_greedy(self, tag):
        """Another connection, which stores a large value, asks for it many times, and reads nothing."""
        key = tag + b"greedy"
        greedy = connected(self.server.port, PATIENCE)
        greedy.sendall(b"set %s 0 60 1000000 noreply\r\n%s\r\n" % (key, tag * 200000))
        greedy.sendall(b"get %s\r\n" % key * self.greedy_gets)
        self.greedy.append((time.monotonic() + GREEDY_TIME, greedy))
        self.counts["connections that read nothing"] += 1

    def pass_time(self, moment):
        for connection in self.connections:
            self.at = connection
            connection.passes(moment)
        while self.greedy and self.greedy[0][0] < moment:
            self.greedy.pop(0)[1].close()

    def look_at_server(self):
        if self.server.process.poll() is not None:
            raise Failed("no connection saw it end")
        if self.server.memory("VmHWM") > self.memory_limit:
            raise Failed(f"the server had {self.server.memory('VmHWM'):,} bytes resident")
        if self.memory_early is None and self.counts["requests sent"] * 10 > self.requests_each * len(self.connections):
            self.memory_early = self.server.memory()

    def run(self):
        last = 0.0
        while any(connection.does != "done" for connection in self.connections):
            for key, events in self.selector.select(0.02):
                self.at = key.data
                key.data.happens(events)
            moment = time.monotonic()
            if moment > last + 0.02:
                last = moment
                self.pass_time(moment)
                self.look_at_server()

    def tell_failure(self, failure):
        at = self.at
        time.sleep(0.1)  # A server that is ending may still take connections.
        status = self.server.process.poll()
        print(f"FAILED: {failure}" if status is None else f"FAILED: the server ended, with status {status}; {failure}")
        print(f"at connection {at.number}, after batch {at.batch_number} ({at.does}), of seed {self.seed}")
        print(f"the batch, {len(at.batch)} bytes: {at.batch[:3000]!r}")
        print(f"came last and was not taken apart: {at.replies.rest[-500:]!r}")

    def tell_counts(self, seconds):
        for answer, count in sorted(self.answers_by_kind().items(), key=lambda each: -each[1]):
            print(f"{count:>10,} {answer}")
        print()
        for what, count in sorted(self.counts.items()):
            print(f"{count:>14,} {what}")
        most, processor = self.server.memory("VmHWM"), self.server.processor_time()
        print(f"{self.memory_early:>14,} bytes of memory after a tenth, {self.server.memory():,} at the end")
        print(f"{most:>14,} bytes of memory at most, of {self.memory_limit:,} that are allowed")
        each = processor / max(1, self.counts["requests sent"]) * 1e6
        print(f"{processor:>14.2f} seconds of processor time of the server, {each:.2f} microseconds for a request")
        print(f"{seconds:>14.1f} seconds in all")

    def answers_by_kind(self):
        kinds = collections.Counter()
        for answer, count in self.answers.items():
            kinds["a number" if answer.isdigit() else answer.decode("latin-1")] += count
        return kinds


def start(asked, stack):
    """The program that is tried, and how many gets a client sends that reads nothing."""
    servers = [stack.enter_context(Server(asked.server, BUDGET, ITEMS)) for _ in range(2 if asked.through else 1)]
    if asked.through is None:
        return servers[0], GREEDY_GETS
    proxy = Proxy(asked.through, [server.address for server in servers])
    return stack.enter_context(proxy), GREEDY_GETS_OF_A_PROXY


def fuzz(asked):
    with contextlib.ExitStack() as stack:
        server, greedy_gets = start(asked, stack)
        started = time.monotonic()
        fuzz = Fuzz(server, asked.requests, asked.connections, asked.seed, greedy_gets)
        fuzz.at = fuzz.connections[0]
        try:
            fuzz.run()
            fuzz.look_at_server()
        except (Failed, OSError) as failure:
            fuzz.tell_failure(failure)
            return 1
        fuzz.tell_counts(time.monotonic() - started)
        sent, again = fuzz.counts["requests sent"], fuzz.counts["known exchanges"]
        print(f"{sent:,} requests sent over {asked.connections} connections, {again:,} known exchanges, nothing failed")
    return 0


def main():
    words = argparse.ArgumentParser(description=__doc__, formatter_class=argparse.RawDescriptionHelpFormatter)
    words.add_argument("server", metavar="SERVER", nargs="?")
    words.add_argument("--through", metavar="PROXY")
    words.add_argument("--requests", type=int, default=1_000_000)
    words.add_argument("--connections", type=int, default=100)
    words.add_argument("--seed", type=int, default=1)
    words.add_argument("--batch", type=int, nargs=2, metavar=("CONNECTION", "NUMBER"))
    asked = words.parse_args()
    if (asked.server is None) == (asked.batch is None) or not 1 <= asked.connections <= 1000:
        words.error("a SERVER or a --batch is wanted, and 1 to 1,000 connections")
    if asked.batch is None:
        return fuzz(asked)
    sys.stdout.buffer.write(batch_of(asked.seed, *asked.batch)[2])
    return 0


if __name__ == "__main__":
    sys.exit(main())
