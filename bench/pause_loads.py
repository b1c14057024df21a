"""The clients of bench/pauses.py: one that gets a key at a time and measures each get, and others that load the same server or proxy.

    with Watcher(port, [b"get a\\r\\n"]) as watcher:
        ..the other client's requests..
    watcher.waits.longest

A load returns its requests, its seconds and what to say of it. Requests of pipelines are cut from templates, in which only the digits of
a key are replaced: formatting each request would take the load longer than it takes the server to answer.
"""

import bisect
import contextlib
import functools
import multiprocessing
import os
import pathlib
import resource
import string
import time
from typing import NamedTuple

from serve import COST_OF_AN_ITEM, KEY_SIZE, processors
from servers import connected

VALUE_SIZE = 100
PIPELINE = 50
STEPS = (1, 2, 5, 10, 50)  # milliseconds
SECONDS_BETWEEN_FLUSHES = 10
GETS = [b"get key-%016d\r\n" % key for key in range(100)]
MOST_KEYS = 32_000  # of one byte: their line has 64,005 bytes, and mc_proxyd takes one of 65,536
LETTERS = [b"%c" % letter for letter in string.ascii_letters.encode()]
BLOCK_SIZE, BLOCKS, SECONDS_BETWEEN_BLOCKS = 1_000_000, 50, 0.02
LIMITS = [(resource.RLIMIT_AS, 4 * 2**30)]

# A key ends in two digits of its own; the fourteen before them are the same for a pipeline.
OPEN, EARLIER = b"?" * 14, b"!" * 14
SAME_DIGITS = 100
SIZES = 391  # values of `sizes` have 10 bytes and up to 390 more

# With four processors or more: which processors belong to whom.
PARTS = {"server": (0, 3), "proxy": (0,), "load": (1,), "watcher": (2,), "behind": (3,)}


class Load(NamedTuple):
    requests: int
    seconds: float
    note: str


class Waits:
    """How many requests took how many milliseconds, and the longest."""

    def __init__(self):
        self.counts, self.longest = [0] * (len(STEPS) + 1), 0.0

    def add(self, milliseconds):
        self.counts[bisect.bisect_right(STEPS, milliseconds)] += 1
        self.longest = max(self.longest, milliseconds)

    def cells(self):
        return [*(f"{count:,}" for count in self.counts), f"{self.longest:,.1f} ms"]


def keep(pid, part):
    """Keeps a process (0: this one) on the processors of its part, if there are enough."""
    cores = processors()
    if len(cores) >= 4:
        for thread in pathlib.Path(f"/proc/{pid or os.getpid()}/task").iterdir():
            os.sched_setaffinity(int(thread.name), {cores[number] for number in PARTS[part]})


def received(connection):
    part = connection.recv(2**20)
    if not part:
        raise ConnectionError("the connection was closed")
    return part


def lines(connection, count):
    """The next lines that arrive."""
    answer = received(connection)
    while answer.count(b"\n") < count:
        answer += received(connection)
    return answer


def size_up_to(connection, end):
    """Reads up to these bytes, and returns how many arrived in all."""
    size, last = 0, b""
    while not last.endswith(end):
        part = received(connection)
        size, last = size + len(part), last + part[-len(end) :]
    return size


class Watcher:
    """A client, in a process of its own, that gets keys in turn, one at a time, and measures each get until the block ends."""

    def __init__(self, port, gets):
        self.ended, (self.mine, self.its) = multiprocessing.Event(), multiprocessing.Pipe(duplex=False)
        self.process = multiprocessing.Process(target=self.watch, args=(port, gets), daemon=True)

    def watch(self, port, gets):
        keep(0, "watcher")
        waits, number = Waits(), 0
        with connected(port, timeout=60) as connection:
            while not self.ended.is_set():
                start = time.perf_counter()
                connection.sendall(gets[number % len(gets)])
                size_up_to(connection, b"END\r\n")
                waits.add((time.perf_counter() - start) * 1e3)
                number += 1
        self.its.send(waits)

    def __enter__(self):
        self.process.start()
        self.its.close()
        return self

    def __exit__(self, kind, *_):
        self.ended.set()
        if kind is None:
            self.waits = self.mine.recv()
        self.process.join()


def store(key, size):
    return b"set %b 0 0 %d\r\n%b\r\n" % (key, size, b"v" * size)


@functools.cache
def template(mix, first):
    """The requests of a pipeline, the first digits of each key left open. The first key is a number below the mix's period."""
    own = [(OPEN, b"%02d" % (key % SAME_DIGITS)) for key in range(first, first + PIPELINE)]
    if mix == "sizes":
        return b"".join(store(b"key-%b%b" % key, 10 + (first + k) * 7919 % SIZES) for k, key in enumerate(own))
    stores = [store(b"key-%b%b" % key, VALUE_SIZE) for key in own]
    if mix == "deletes":
        deletes = PIPELINE * 3 // 10
        stores[-deletes:] = [b"delete key-%b%b\r\n" % (EARLIER, own[k][1]) for k in range(deletes)]
    return b"".join(stores)


class Pipelines:
    """Pipelines of requests for a server of this many items. Each stores keys that are larger than all before."""

    def __init__(self, mix, items):
        self.mix, self.items = mix, items
        self.period = SAME_DIGITS * (SIZES if mix == "sizes" else 1)
        self.distance = items // 2 // SAME_DIGITS  # in first digits: how long ago a key was stored that is deleted
        self.stored = self.found = self.flushes = 0

    def requests(self, mix, first):
        digits = first // SAME_DIGITS
        pipeline = template(mix, first % self.period).replace(OPEN, b"%014d" % digits)
        return pipeline.replace(EARLIER, b"%014d" % (digits - self.distance)) if mix == "deletes" else pipeline

    def send(self, connection, mix, first, count):
        """Sends at least this many requests. The first key is a multiple of 100."""
        flushed = time.monotonic()
        for key in range(first, first + count, PIPELINE):
            connection.sendall(self.requests(mix, key))
            answers = lines(connection, PIPELINE)
            self.stored += answers.count(b"STORED\r\n")
            self.found += answers.count(b"DELETED\r\n")
            if mix == "flush" and time.monotonic() - flushed >= SECONDS_BETWEEN_FLUSHES:
                connection.sendall(b"flush_all\r\n")
                self.flushes += lines(connection, 1) == b"OK\r\n"
                flushed = time.monotonic()

    def fill(self, connection):
        self.send(connection, "new", 0, self.items)
        self.stored = 0

    def run(self, connection, count):
        start = time.monotonic()
        self.send(connection, self.mix, -(-self.items // SAME_DIGITS) * SAME_DIGITS, count)
        seconds, done = time.monotonic() - start, -(-count // PIPELINE) * PIPELINE
        deletes = done * 3 // 10 if self.mix == "deletes" else 0
        note = self.mix + (f", {self.flushes} times" if self.mix == "flush" else "")
        note += f", {self.found:,} of {deletes:,} found" if deletes else ""
        refused = done - deletes - self.stored
        return Load(done, seconds, note + (f", {refused:,} stores refused" if refused else ""))


class SmallItems:
    """Items of one byte, under the shortest keys."""

    def __init__(self, count):
        self.count = count

    def fill(self, connection):
        for first in range(0, self.count, PIPELINE):
            connection.sendall(b"".join(b"set %x 0 0 1\r\nv\r\n" % key for key in range(first, first + PIPELINE)))
            lines(connection, PIPELINE)

    def last_get(self):
        return b"get %x\r\n" % (self.count - 1)


def block(number):
    return store(b"block-%d" % number, BLOCK_SIZE)


def store_block_each(connection, numbers, waits):
    """Stores a large value under each key, and adds to the waits how long each store takes."""
    start, refused = time.monotonic(), 0
    for number in numbers:
        request = block(number)
        time.sleep(SECONDS_BETWEEN_BLOCKS)
        sent = time.perf_counter()
        connection.sendall(request)
        refused += lines(connection, 1) != b"STORED\r\n"
        waits.add((time.perf_counter() - sent) * 1e3)
    return Load(len(numbers), time.monotonic() - start, f", {refused} refused" if refused else "")


def wait(port, seconds):
    time.sleep(seconds)
    return Load(0, seconds, "alone")


def store_letters(connection):
    connection.sendall(b"".join(store(letter, VALUE_SIZE) for letter in LETTERS))
    lines(connection, len(LETTERS))


def request_of_keys(keys):
    return b"get " + b" ".join(LETTERS[key % len(LETTERS)] for key in range(keys)) + b"\r\n"


def is_answered(port, keys):
    """Whether a get of this many keys is answered, with the value of each, within ten seconds."""
    missing = keys * len(b"VALUE a 0 100\r\n%b\r\n" % (b"v" * VALUE_SIZE)) + len(b"END\r\n")
    with contextlib.suppress(OSError), connected(port, timeout=10) as connection:
        connection.sendall(request_of_keys(keys))
        while missing > 0:
            missing -= len(received(connection))
    return missing == 0


def get_many_keys(port, seconds):
    keys = MOST_KEYS
    while not is_answered(port, keys):
        keys //= 2
    request, gets = request_of_keys(keys), 0
    start = time.monotonic()
    with connected(port, timeout=60) as connection:
        while time.monotonic() < start + seconds:
            connection.sendall(request)
            size_up_to(connection, b"END\r\n")
            gets += 1
    refused = f" ({2 * keys:,} refused)" if keys < MOST_KEYS else ""
    return Load(gets, time.monotonic() - start, f"gets of {keys:,} keys of one byte{refused}")


def store_blocks(port, seconds):
    blocks, stores, refused = [block(number) for number in range(10)], 0, 0
    start = time.monotonic()
    with connected(port, timeout=60) as connection:
        while time.monotonic() < start + seconds:
            connection.sendall(blocks[stores % len(blocks)])
            refused += lines(connection, 1) != b"STORED\r\n"
            stores += 1
    return Load(stores, time.monotonic() - start, "stores of 1,000,000 bytes" + (f", {refused} refused" if refused else ""))


def leave_unread(port, seconds):
    gets, at, sent, connections, start = b"".join(GETS), 0, 0, 0, time.monotonic()
    while time.monotonic() < start + seconds:
        connections, at = connections + 1, 0
        with contextlib.suppress(OSError), connected(port, timeout=0.5) as connection:
            while time.monotonic() < start + seconds:
                size = connection.send(gets[at:])
                at, sent = (at + size) % len(gets), sent + size
    return Load(sent // len(GETS[0]), time.monotonic() - start, f"reads no answer, {connections} connections")
