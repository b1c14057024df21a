#!/usr/bin/env python3
"""Plays a crowd of clients that take what they can, and checks that memory stays within its limit and comes back.

Usage: crowd.py SERVER [--proxy PROXY] [--buffers BYTES] [--clients N] [--seconds N] [--seed N]
                                                        (64 MiB, 200 clients, 30 seconds, seed 1)

SERVER is the built mc_serverd, PROXY the built mc_proxyd. With a proxy the crowd is its own, and it has two servers. Each client does one
thing of KINDS after another. One in five leaves in the middle. Another client asks for a small value every 5 ms all the time. Once the
seconds are over, those that are there read all their pending answers. The script ends with status 1, and says why, if

- an answer is wrong, or does not come within a minute though the client reads and its connection is open;
- the most memory that the program ever had is above what it had before the crowd, --buffers, and what docs/RUNNING.md counts beside that;
- ten seconds after the crowd has left, the program has more than 24 MiB above what it had before;
- a new client is not answered then.

The programs run with the units' settings of the C library. It prints how many requests were answered, how many clients the program closed, how long the other client waited, and the memory.
"""

import argparse
import collections
import pathlib
import random
import statistics
import sys
import threading
import time
from typing import NamedTuple

sys.path.insert(0, str(pathlib.Path(__file__).resolve().parents[1] / "lib"))

from checks import allow_many_files, asked
from servers import Proxy, Server
from suite import NAME

MEGABYTE = 1_000_000
LARGE = [b"%c" % code for code in range(65, 91)]  # a key is a letter: capitals have a megabyte each
SMALL = [b"%c" % code for code in range(97, 123)]
STORED, END = b"STORED\r\n", b"END\r\n"
TICK = 0.01  # seconds between two steps of all clients
PAUSE = 0.005  # seconds between two gets of the other client
SECONDS_TO_ANSWER, SECONDS_TO_REST = 60, 10
ROOM_OF_CLIENTS = (1024 * 32 << 10) + (4 << 20)  # bytes beside --buffers
ROOM_OF_A_LINK = 18 << 20
LEFT = 24 << 20  # bytes that may stay once the crowd has left
SERVER_GIVES_BACK = {"MALLOC_MMAP_THRESHOLD_": "1048576", "MALLOC_TRIM_THRESHOLD_": "8388608"}
PROXY_GIVES_BACK = {"MALLOC_MMAP_THRESHOLD_": "262144", "MALLOC_TRIM_THRESHOLD_": "8388608"}
ALL, SLOWLY, NOTHING = 1 << 18, 20_000, 0  # how much a client reads in a step
PIECE = 1 << 18  # how much it sends in a step


def value_of(key):
    return key * (MEGABYTE if key.isupper() else 100)


BLOCKS = {key: b"VALUE %b 0 %d\r\n%b\r\n" % (key, len(value_of(key)), value_of(key)) for key in LARGE + SMALL}


class Task(NamedTuple):
    """What a client sends, in pieces between which it waits; the keys of each line of gets, or none if it stores; how much it reads in a step."""

    pieces: list
    gets: list = ()
    reads: int = ALL
    wait: float = 0

    def answers(self):
        """The parts of the answer, in order."""
        if not self.gets:
            yield STORED
        for keys in self.gets:
            yield from (BLOCKS[key] for key in keys)
            yield END


def asks(lines, **how):
    return Task([b"".join(b"get %b\r\n" % b" ".join(keys) for keys in lines)], lines, **how)


def stores_in_halves(dice):
    key = dice.choice(LARGE)
    text = b"set %b 0 0 %d\r\n%b\r\n" % (key, MEGABYTE, value_of(key))
    cut = dice.randrange(len(text))
    return Task([text[:cut], text[cut:]], wait=dice.uniform(0, 2))


def large_keys(dice):
    return [dice.choices(LARGE, k=dice.choice([1, 3, 20]))]


KINDS = {
    "large values, reads all": lambda dice: asks(large_keys(dice)),
    "large values, reads slowly": lambda dice: asks(large_keys(dice), reads=SLOWLY),
    "large values, reads nothing": lambda dice: asks(large_keys(dice), reads=NOTHING),
    "a pipeline of large values": lambda dice: asks([[key] for key in dice.choices(LARGE, k=dice.choice([10, 100]))]),
    "a pipeline of small values": lambda dice: asks([[key] for key in dice.choices(SMALL, k=500)]),
    "a line of 10,000 keys": lambda dice: asks([dice.choices(SMALL, k=10_000)]),
    "a store in two halves": stores_in_halves,
}


class Wrong(Exception):
    """An answer is wrong, or missing."""


class Client:
    """A client of the crowd."""

    def __init__(self, program, dice):
        self.program, self.dice, self.connection = program, dice, None
        self.answered = self.closed = 0
        self.begin(time.monotonic())

    def begin(self, now):
        """Begins another task, on a new connection if the last one has ended."""
        if self.connection is None:
            self.connection = self.program.connected()
            self.connection.setblocking(False)
        self.kind = self.dice.choice(sorted(KINDS))
        self.task = KINDS[self.kind](self.dice)
        self.reads, self.pieces, self.due = self.task.reads, collections.deque(map(memoryview, self.task.pieces)), now
        leaves = self.reads == NOTHING or self.dice.random() < 0.2
        self.until = now + (self.dice.uniform(0.1, 8) if leaves else SECONDS_TO_ANSWER)
        self.parts, self.is_done = self.task.answers(), False
        self.part = memoryview(next(self.parts))

    def end(self):
        if self.connection is not None:
            self.connection.close()
        self.connection = None

    def step(self, now):
        """Sends and reads. A client that leaves does so once its time is over."""
        try:
            self.send(now)
            if self.reads:
                self.take(self.connection.recv(self.reads))
        except BlockingIOError:
            pass
        except OSError:
            self.closed += 1
            self.end()
        if now >= self.until and not self.is_done:
            self.end()

    def send(self, now):
        if self.pieces and now >= self.due:
            piece = self.pieces.popleft()
            sent = self.connection.send(piece[:PIECE])
            if sent < len(piece):
                self.pieces.appendleft(piece[sent:])
            else:
                self.due = now + self.task.wait

    def take(self, came):
        """Compares what arrived with the answer."""
        if not came:
            raise ConnectionError
        came = memoryview(came)
        while len(came) and not self.is_done:
            size = min(len(came), len(self.part))
            if came[:size] != self.part[:size]:
                raise Wrong(f"{self.kind}: {bytes(came[:60])!r} in place of {bytes(self.part[:60])!r}")
            came, self.part = came[size:], self.part[size:]
            if not len(self.part):
                self.part = memoryview(next(self.parts, b""))
                self.is_done = not len(self.part)
        self.answered += self.is_done
        if len(came):
            raise Wrong(f"{self.kind}: {bytes(came[:60])!r} behind the answer")


class Other(threading.Thread):
    """Another client, which asks for a small value again and again."""

    def __init__(self, program):
        super().__init__(daemon=True)
        self.program, self.waits, self.error, self.is_over = program, [], None, threading.Event()

    def run(self):
        try:
            with self.program.connected() as connection:
                while not self.is_over.wait(PAUSE):
                    begun = time.perf_counter()
                    asked(connection, b"get a\r\n", BLOCKS[b"a"] + END)
                    self.waits.append(1000 * (time.perf_counter() - begun))
        except Exception as error:
            self.error = error

    def stop(self):
        self.is_over.set()
        self.join()


def play(program, options):
    """Plays the crowd, and returns its clients once each has left or has read all its pending answers."""
    dice = random.Random(options.seed)
    clients = [Client(program, random.Random(dice.random())) for _ in range(options.clients)]
    end = time.monotonic() + options.seconds
    while (now := time.monotonic()) < end:
        for client in clients:
            if client.connection is None or client.is_done:
                client.begin(now)
            client.step(now)
        time.sleep(max(0, now + TICK - time.monotonic()))
    settle([client for client in clients if client.connection is not None and not client.is_done])
    for client in clients:
        client.end()
    return clients


def settle(clients):
    end = time.monotonic() + SECONDS_TO_ANSWER
    for client in clients:
        client.reads, client.until = ALL, end
    while clients and (now := time.monotonic()) < end:
        for client in clients:
            client.step(now)
        clients = [client for client in clients if client.connection is not None and not client.is_done]
    if clients:
        raise Wrong(f"no whole answer to {dict(collections.Counter(client.kind for client in clients))}")


def faults(program, options, before, other):
    """What is wrong once the crowd has left."""
    links = 2 if options.proxy else 0
    copied = options.buffers // 2 if options.proxy else 0  # the answer that is just made
    most, bound = program.memory("VmHWM"), before + options.buffers + copied + ROOM_OF_CLIENTS + links * ROOM_OF_A_LINK
    if most > bound:
        yield f"took {most >> 20} MiB, which is above {bound >> 20}"
    if other.error:
        yield f"another client: {other.error!r}"
    end = time.monotonic() + SECONDS_TO_REST
    while program.memory() > before + LEFT and time.monotonic() < end:
        time.sleep(0.2)
    if program.memory() > before + LEFT:
        yield f"kept {(program.memory() - before) >> 20} MiB"
    with program.connected() as connection:
        asked(connection, b"get A a\r\n", BLOCKS[b"A"] + BLOCKS[b"a"] + END)


def crowd(program, options):
    """Plays the crowd, prints what was seen, and returns what is wrong."""
    with program.connected() as connection:
        for key in LARGE + SMALL:
            asked(connection, b"set %b 0 0 %d\r\n%b\r\n" % (key, len(value_of(key)), value_of(key)), STORED)
    before, other = program.memory(), Other(program)
    other.start()
    try:
        clients = play(program, options)
    except Wrong as error:
        return [str(error)]
    finally:
        other.stop()
    wrong = list(faults(program, options, before, other))
    answered, closed = sum(each.answered for each in clients), sum(each.closed for each in clients)
    waits = other.waits or [0]
    print(f"{answered} answered, {closed} closed; another client waited {statistics.median(waits):.1f} ms in the median, {max(waits):.0f} at most")
    sizes = before, program.memory("VmHWM"), program.memory()
    print("MiB before, most, after: " + ", ".join(f"{each / 2**20:.1f}" for each in sizes))
    return wrong


def main():
    parser = argparse.ArgumentParser(description=__doc__, formatter_class=argparse.RawDescriptionHelpFormatter)
    parser.add_argument("server", type=pathlib.Path)
    parser.add_argument("--proxy", type=pathlib.Path)
    parser.add_argument("--buffers", type=int, default=64 << 20)
    parser.add_argument("--clients", type=int, default=200)
    parser.add_argument("--seconds", type=float, default=30)
    parser.add_argument("--seed", type=int, default=1)
    options = parser.parse_args()
    allow_many_files()
    words = ["--buffers", str(options.buffers)]
    if not options.proxy:
        with Server(options.server, words=words, environment=SERVER_GIVES_BACK) as server:
            wrong = crowd(server, options)
    else:
        with Server(options.server) as first, Server(options.server) as second:
            with Proxy(options.proxy, [first.address, second.address], words=words, environment=PROXY_GIVES_BACK) as proxy:
                wrong = crowd(proxy, options)
    for line in wrong:
        print(f"{NAME}: {line}")
    return 1 if wrong else 0


if __name__ == "__main__":
    sys.exit(main())
