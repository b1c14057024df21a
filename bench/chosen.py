#!/usr/bin/env python3
"""Plays streams that a stranger may choose to the server and the proxy of two built checkouts, in turn.

Usage: chosen.py OLD NEW [--seconds S] [STREAM ..]

OLD and NEW are checkouts whose crates/mc_serverd/out/mc_serverd and crates/mc_proxyd/out/mc_proxyd are built. The streams are
those of chosen_streams.py, all or the named ones; with `proxy/` in front of its name a stream is played to a proxy over two servers of
the same checkout, and a name may be a pattern (`proxy/*`, `front-*`). A server holds 100,000 items of 100 bytes.

A line has for each stream the nanoseconds of processor time, the program's own and the kernel's for it, for each byte and for each
request, in OLD and in NEW. It also has their ratio, with the middle half of the rounds. Then it has the cost in NEW relative to the plain
stream that this one is compared with, by bytes and by requests (expensive is what is above 1 in both). Last is how many times as long NEW
takes with 100,000 items as with 1,000, with which it makes no look ahead. Figures are medians of rounds. A stream is played until OLD
has taken S seconds (0.2).

Both must answer the same bytes: if they do not, a line says so, and the exit status is 1.
"""

import argparse
import contextlib
import datetime
import fnmatch
import hashlib
import os
import pathlib
import select
import signal
import socket
import statistics
import struct
import sys
import time

HERE = pathlib.Path(__file__).resolve().parent
sys.path.insert(0, str(HERE.parent / "tests" / "lib"))
sys.path.insert(0, str(HERE))

from chosen_streams import AT_REST, FAST, FILLED, STREAMS, VALUE
from serve import SERVERS_OF_A_PROXY, pin, processors
from servers import Proxy, Server, connected

ITEMS, FEW_ITEMS = 100_000, 1_000
BUDGET, MOST_ITEMS = 200_000_000, 200_000
ROUNDS, LEAST_ROUNDS = 15, 5  # of a stream; fewer if a single play takes long
PATIENCE = 30  # seconds that a program may take for anything
MOST_TIME = 10  # seconds after which no more rounds of a stream begin
SENT_AT_ONCE = 65_536
READ_AT_ONCE = 1 << 20
WANTED_BESIDE_OLD, WANTED_BESIDE_FEW = 1.5, 1.6
OF_A_PROXY = "proxy/"

# The kernel's list of sockets, asked for one of them (linux/inet_diag.h, linux/sock_diag.h).
SOCK_DIAG, SOCK_DIAG_BY_FAMILY, REQUEST = 4, 20, 1
HEADER, ASKED, ADDRESS, COOKIE = "=IHHII", "=BBBBI", ">HH4s12x4s12x", "=III"
QUEUE_AT = struct.calcsize(HEADER) + 4 + struct.calcsize(ADDRESS) + struct.calcsize(COOKIE) + 4
ANY = 0xFFFFFFFF


class Stopped(Exception):
    """A program makes no progress."""


class Reading:
    """Asks the kernel whether a program has read all bytes that were sent to it on a connection."""

    def __init__(self):
        self.kernel = socket.socket(socket.AF_NETLINK, socket.SOCK_RAW, SOCK_DIAG)

    def question(self, connection):
        """What the kernel is asked about the other side of a connection."""
        ours, theirs = connection.getsockname(), connection.getpeername()
        body = struct.pack(ASKED, socket.AF_INET, socket.IPPROTO_TCP, 0, 0, ANY)
        body += struct.pack(ADDRESS, theirs[1], ours[1], socket.inet_aton(theirs[0]), socket.inet_aton(ours[0]))
        body += struct.pack(COOKIE, 0, ANY, ANY)
        return struct.pack(HEADER, struct.calcsize(HEADER) + len(body), SOCK_DIAG_BY_FAMILY, REQUEST, 0, 0) + body

    def waiting(self, question):
        """How many bytes were sent and are not read."""
        self.kernel.send(question)
        answer = self.kernel.recv(4096)
        if struct.unpack_from(HEADER, answer)[1] != SOCK_DIAG_BY_FAMILY:
            raise Stopped("a program closed a connection, or the kernel does not say what it has read")
        return struct.unpack_from("=I", answer, QUEUE_AT)[0]


class Client:
    """A connection to a program, and the answers on it."""

    def __init__(self, program, reading, is_settled=True):
        self.connection, self.reading, self.answers = connected(program.port, PATIENCE), reading, []
        if is_settled:
            self.connection.sendall(b"version\r\n")
            self.connection.recv(100)
        self.connection.setblocking(False)
        self.question = reading.question(self.connection)

    def take(self):
        """Takes the answers that have arrived, and returns whether there may be more."""
        try:
            answer = self.connection.recv(READ_AT_ONCE)
        except BlockingIOError:
            return True
        self.answers.append(answer)
        return answer != b""

    def send(self, text):
        """Sends a text, and takes answers meanwhile, so that neither side waits for the other."""
        left = memoryview(text)
        while True:
            with contextlib.suppress(BlockingIOError):
                left = left[self.connection.send(left[:SENT_AT_ONCE]) :]
            if not left:
                return
            if self.poll(select.POLLIN | select.POLLOUT) & select.POLLIN and not self.take():
                raise Stopped("a program closed a connection")

    def await_reading(self):
        """Waits until the program has read the bytes that were sent."""
        deadline = time.monotonic() + PATIENCE
        while self.reading.waiting(self.question):
            self.take()
            if time.monotonic() > deadline:
                raise Stopped("a program reads no more")

    def await_end(self):
        """Ends the sending side, and takes all answers."""
        self.connection.shutdown(socket.SHUT_WR)
        while self.poll(select.POLLIN) and self.take():
            pass

    def poll(self, events):
        """Waits until the connection can be read or written, and returns which."""
        poll = select.poll()
        poll.register(self.connection, events)
        ready = poll.poll(PATIENCE * 1_000)
        if not ready:
            raise Stopped("a program neither reads nor answers")
        return ready[0][1]


class Program:
    """A program that is measured, and its answers to a stream."""

    def __init__(self, listener, reading):
        self.listener, self.reading, self.answers, self.last = listener, reading, None, []
        self.state = os.open(f"/proc/{listener.process.pid}/stat", os.O_RDONLY)

    def await_rest(self):
        """Waits until the program waits."""
        deadline = time.monotonic() + PATIENCE
        while os.pread(self.state, 512, 0).rpartition(b") ")[2][:1] != b"S":
            if time.monotonic() > deadline:
                raise Stopped("a program does not come to rest")

    def clock(self):
        """Seconds of its processor time, once it waits: the kernel adds the time of a run when the run ends."""
        self.await_rest()
        return self.listener.processor_time()

    def send(self, play, clients):
        for number, piece in play.pieces:
            client = clients[number]
            if play.sent != FAST:
                client.await_reading()
                client.take()
            if play.sent == AT_REST:
                self.await_rest()
            client.send(piece)

    def played(self, play):
        """Plays the stream to the program. Returns its answers, in pieces, and the seconds of processor time that it took."""
        with contextlib.ExitStack() as stack:
            clients = [Client(self.listener, self.reading, play.is_settled) for _ in range(play.connections)]
            for client in clients:
                stack.enter_context(client.connection)
            start = self.clock()
            self.send(play, clients)
            for client in clients:
                client.await_end()
            seconds = self.clock() - start
        return [answer for client in clients for answer in client.answers], seconds

    def filled(self, items):
        """A program of this kind with this number of items, and those that streams ask for."""
        keys = [(b"k%d" % number, VALUE) for number in range(items)]
        text = b"".join(b"set %s 0 0 %d\r\n%s\r\n" % (key, len(value), value) for key, value in [*keys, *FILLED.items()])
        client = Client(self.listener, self.reading)
        with client.connection:
            client.send(text)
            client.await_end()
        if b"".join(client.answers) != b"STORED\r\n" * (items + len(FILLED)):
            raise SystemExit(f"bench/chosen.py: {self.listener.program} cannot be filled")
        return self

    def begin(self):
        """A stream begins."""
        self.answers = hashlib.sha1()

    def play(self, play, times):
        """Plays it several times, and returns the seconds of one play."""
        total = 0
        for _ in range(times):
            self.last, seconds = self.played(play)
            for piece in self.last:
                self.answers.update(piece)
            total += seconds
        return total / times


def differing(old, new):
    """How the answers of two programs differ, if they do: by those to the last play."""
    if old.answers.digest() == new.answers.digest():
        return ""
    last = [b"".join(program.last) for program in (old, new)]
    place = len(os.path.commonprefix(last))
    before, now = (answer[max(0, place - 40) : place + 40] for answer in last)
    return f"at byte {place:,} of the last play OLD answers {before!r}, NEW {now!r}"


class Took:
    """The time of a stream in each program: seconds of a play, in each round and their median."""

    def __init__(self, stream, play, rounds, differing):
        self.stream, self.play, self.rounds, self.differing = stream, play, rounds, differing
        self.bytes = sum(len(piece) for _, piece in play.pieces)
        self.seconds = [statistics.median(column) for column in zip(*rounds)]

    def each(self, at):
        """Nanoseconds of a byte and of a request."""
        return self.seconds[at] / self.bytes * 1e9, self.seconds[at] / self.play.requests * 1e9

    def ratio(self, one, other):
        """The middle half of the rounds, and in the middle their median."""
        ratios = [each[one] / each[other] for each in self.rounds]
        return statistics.quantiles(ratios, n=4) if len(ratios) > 1 else ratios * 3


def measured(stream, programs, seconds):
    """Plays a stream to the programs in rounds, which begin with each in turn. It is played to all equally often."""
    play = stream.make()
    for program in programs:
        program.begin()
    times = max(1, round(seconds / ROUNDS / programs[0].play(play, 1)))
    for program in programs[1:]:
        program.play(play, 1)
    rounds, begun = [], time.monotonic()
    while len(rounds) < LEAST_ROUNDS or sum(each[0] for each in rounds) * times < seconds:
        took = [0.0] * len(programs)
        for step in range(len(programs)):
            at = (len(rounds) + step) % len(programs)
            took[at] = programs[at].play(play, times)
        rounds.append(took)
        if time.monotonic() > begun + MOST_TIME:
            break
    return Took(stream, play, rounds, differing(*programs[:2]))


def program_of(top, crate):
    program = top / "crates" / crate / "out" / crate
    if not program.is_file():
        raise SystemExit(f"bench/chosen.py: {program} is not built")
    return program


class Bench:
    """The place where programs are started, and the processors that they are kept on."""

    def __init__(self, stack, asked):
        self.stack, self.tops, self.seconds, self.reading = stack, (asked.old, asked.new), asked.seconds, Reading()
        self.cores = asked.cores

    def core(self, number):
        return self.cores[number % len(self.cores)] if self.cores else None

    def server(self, top, core):
        server = self.stack.enter_context(Server(program_of(top, "mc_serverd"), BUDGET, MOST_ITEMS))
        pin(server.process.pid, self.core(core))
        return server

    def proxy(self, top):
        servers = [self.server(top, 2 + number) for number in range(SERVERS_OF_A_PROXY)]
        proxy = self.stack.enter_context(Proxy(program_of(top, "mc_proxyd"), [server.address for server in servers]))
        pin(proxy.process.pid, self.core(0))
        return proxy

    def servers(self):
        """OLD's and NEW's, full, and NEW's with few items."""
        filled = [(self.tops[0], ITEMS), (self.tops[1], ITEMS), (self.tops[1], FEW_ITEMS)]
        return [Program(self.server(top, 0), self.reading).filled(items) for top, items in filled]

    def proxies(self):
        return [Program(self.proxy(top), self.reading).filled(ITEMS) for top in self.tops]


def told(number):
    return f"{number:,.2f}" if number < 100 else f"{number:,.0f}"


def row(prefix, took, plain):
    """A line of the table."""
    costs = [" | ".join(map(told, took.each(at))) for at in (0, 1)]
    low, ratio, high = took.ratio(1, 0)
    beside = "– | – | –"
    if plain is not took:
        beside = " | ".join([plain.stream.name, *(told(mine / its) for mine, its in zip(took.each(1), plain.each(1)))])
    many = f"{took.ratio(1, 2)[1]:.2f}" if len(took.seconds) > 2 else "–"
    return f"| {prefix}{took.stream.name} | {' | '.join(costs)} | {ratio:.2f} ({low:.2f} to {high:.2f}) | {beside} | {many} |"


def run(prefix, streams, bench, programs):
    """Measures the streams, and returns the time of each."""
    of_all = {}
    for stream in streams:
        try:
            took = of_all[stream.name] = measured(stream, programs, bench.seconds)
        except (ConnectionError, TimeoutError, Stopped) as fault:
            raise SystemExit(f"bench/chosen.py: {prefix}{stream.name}: {fault}")
        print(row(prefix, took, of_all[stream.plain]), flush=True)
        if took.differing:
            print(f"{prefix}{stream.name}: the answers differ: {took.differing}", flush=True)
    return list(of_all.values())


def are_wanted(took):
    """Whether a stream is within its targets."""
    beside_few = took.ratio(1, 2)[1] if len(took.seconds) > 2 else 0
    return took.ratio(1, 0)[1] <= WANTED_BESIDE_OLD and beside_few <= WANTED_BESIDE_FEW


def chosen(patterns, streams):
    """The streams that are asked for, with the plain ones that they are compared with."""
    wanted = {each.name for each in streams if any(fnmatch.fnmatchcase(each.name, pattern) for pattern in patterns)}
    for each in reversed(streams):  # A plain one is played before those that are compared with it.
        if each.name in wanted:
            wanted.add(each.plain)
    return [each for each in streams if each.name in wanted]


def told_start(asked):
    print(f"{datetime.datetime.now():%Y-%m-%d %H:%M}, {os.cpu_count()} processors, load {os.getloadavg()[0]:.2f};", end=" ")
    print(f"OLD is {asked.old}, NEW is {asked.new}; {asked.seconds} seconds of a stream.\n")
    heads = ["Stream", "OLD, ns a byte", "a request", "NEW, ns a byte", "a request", "NEW over OLD"]
    heads += ["NEW beside", "by bytes", "by requests", f"{ITEMS:,} over {FEW_ITEMS:,} items"]
    print(f"| {' | '.join(heads)} |\n" + "|---" * len(heads) + "|", flush=True)


def told_end(all_took):
    """What misses its target, and the exit status."""
    above = [took.stream.name for took in all_took if not are_wanted(took)]
    wrong = [took.stream.name for took in all_took if took.differing]
    print(f"\n{len(all_took)} streams. Above {WANTED_BESIDE_OLD} times OLD, or {WANTED_BESIDE_FEW} times {FEW_ITEMS:,} items:", end=" ")
    print(f"{', '.join(above) or 'none'}. Answered otherwise by NEW: {', '.join(wrong) or 'none'}.")
    return 1 if wrong else 0


def asked_for():
    words = argparse.ArgumentParser(description=__doc__, formatter_class=argparse.RawDescriptionHelpFormatter)
    words.add_argument("old", metavar="OLD", type=lambda word: pathlib.Path(word).resolve())
    words.add_argument("new", metavar="NEW", type=lambda word: pathlib.Path(word).resolve())
    words.add_argument("streams", metavar="STREAM", nargs="*", help="names or patterns; all, where none are given")
    words.add_argument("--seconds", type=float, default=0.2, help="of processor time that OLD takes for a stream (0.2)")
    asked = words.parse_args()
    patterns = asked.streams or ["*", OF_A_PROXY + "*"]
    asked.by_servers = chosen([each for each in patterns if not each.startswith(OF_A_PROXY)], STREAMS)
    of_proxies = [each.removeprefix(OF_A_PROXY) for each in patterns if each.startswith(OF_A_PROXY)]
    asked.by_proxies = chosen(of_proxies, [each for each in STREAMS if each.is_for_proxies])
    if not asked.by_servers + asked.by_proxies:
        words.error(f"the streams are {', '.join(each.name for each in STREAMS)}")
    return asked


def main():
    asked = asked_for()
    for each in (signal.SIGINT, signal.SIGTERM):
        signal.signal(each, lambda *_: sys.exit(1))
    asked.cores = processors()
    pin(os.getpid(), asked.cores[1] if asked.cores else None)
    told_start(asked)
    took = []
    for prefix, streams, start in (("", asked.by_servers, Bench.servers), (OF_A_PROXY, asked.by_proxies, Bench.proxies)):
        if streams:
            with contextlib.ExitStack() as stack:
                bench = Bench(stack, asked)
                took += run(prefix, streams, bench, start(bench))
    return told_end(took)


if __name__ == "__main__":
    sys.exit(main())
