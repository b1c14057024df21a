#!/usr/bin/env python3
"""Gives a server a budget above the memory of the machine, and reports what its clients see once memory is used up.

Usage: no_memory.py SERVER [--megabytes N] [--sizes BYTES,BYTES ..] [--stores KIND,KIND]

SERVER is the built mc_serverd. It has a budget of 16 GiB, and may take N MiB (16) of addresses more than it has at its start, as with
`ulimit -v`. It is started anew for each size of a value. Twenty clients store a small value each. Then another one stores values of the size
under new keys, until a hundred in a row are refused. Then it gets values that were stored, sets their keys again, and stores after ten
deletes.

A row of the table has

    stored, told, closed   how many were stored, were answered `SERVER_ERROR out of memory storing object`, and had the client closed
    gets                   how many were answered by their values
    sets of held keys      how many of them were stored, told and closed
    stored after deletes   whether a value is stored then
    of the twenty          how many are still served with their values
    server                 whether it stays

A size passes if no client is closed, each get and each of the twenty is answered, and the server stays and stores again. The last line is 'N
passed, M failed'.
"""

import argparse
import pathlib
import resource
import subprocess
import sys
import time

sys.path.insert(0, str(pathlib.Path(__file__).resolve().parents[1] / "lib"))

from checks import received
from filling import NO_MEMORY, VALUES, at_once, key_of, store, store_of
from servers import Server
from suite import are_built, counted

BUDGET = 16 << 30
ITEMS = 1_000_000
OTHERS = 20
ROW = 100  # refusals in a row after which the memory is used up
TRIED = 1_000  # most gets and sets of stored keys
DELETED = 10
SECONDS = 120
SECONDS_SHORT = 3  # within which a value is stored once there is memory: keys that are not held are refused for a second at most
FIRST_OF_OTHERS = 10**9  # the number of the key of the first of the twenty clients
STORED, TOLD, CLOSED = "stored", "told", "closed"


class Client:
    """A client that connects anew if its connection is closed."""

    def __init__(self, server):
        self.server, self.connection = server, None

    def answered(self, text, wanted):
        """Sends a text, and returns this many bytes of its answer, or its first line if that is an error; None if the connection is
        closed."""
        try:
            if self.connection is None:
                self.connection = self.server.connected()
            self.connection.sendall(text)
            came = received(self.connection, min(len(wanted), 8))
            if not came:
                raise ConnectionError
            if came != wanted[:8]:
                return came + received(self.connection, len(NO_MEMORY) - len(came))
            return came + received(self.connection, len(wanted) - len(came))
        except OSError:
            self.close()
            return None

    def store(self, number, size):
        """The outcome of a store."""
        answer = self.answered(store_of(number, size), b"STORED\r\n")
        known = {b"STORED\r\n": STORED, NO_MEMORY: TOLD, None: CLOSED}
        if answer not in known:
            raise RuntimeError(f"to a store came {answer[:100]!r}")
        return known[answer]

    def is_held(self, number, size):
        """Whether a get is answered by the value."""
        text = b"VALUE %b 0 %d\r\n%b\r\nEND\r\n" % (key_of(number), size, VALUES[:size])
        return self.answered(b"get %b\r\n" % key_of(number), text) == text

    def close(self):
        if self.connection is not None:
            self.connection.close()
        self.connection = None


class Trial:
    """A server that may take little more memory than at its start, and its clients."""

    def __init__(self, server, size, megabytes):
        self.server, self.size = server, size
        self.storing, self.reading = Client(server), Client(server)
        self.others = [Client(server) for _ in range(OTHERS)]
        for number, other in enumerate(self.others, FIRST_OF_OTHERS):
            other.store(number, 100)
        most = server.memory("VmSize") + (megabytes << 20)
        resource.prlimit(server.process.pid, resource.RLIMIT_AS, (most, most))

    def fill(self):
        """Stores until the memory is used up. Returns the first keys that are surely stored, how many, and the outcomes."""
        outcomes, held, row, end = {STORED: 0, TOLD: 0, CLOSED: 0}, 0, 0, time.monotonic() + SECONDS
        step = at_once(self.size)
        with self.server.connected() as connection:
            try:
                while store(connection, [(held + each, self.size) for each in range(step)]) == 0:
                    held += step
            except OSError:
                outcomes[CLOSED] += 1
        outcomes[STORED], number = held, held + step
        while row < ROW and time.monotonic() < end:
            outcome = self.storing.store(number, self.size)
            outcomes[outcome] += 1
            row = 0 if outcome == STORED else row + 1
            number += 1
        return held, outcomes

    def stores_again(self, held):
        """Whether a value is stored once some are deleted."""
        for number in range(min(DELETED, held)):
            self.reading.answered(b"delete %b\r\n" % key_of(number), b"DELETED\r\n")
        end = time.monotonic() + SECONDS_SHORT
        number = FIRST_OF_OTHERS - 1
        while time.monotonic() < end:
            if self.storing.store(number, self.size) == STORED:
                return True
            number -= 1
        return False

    def outcome(self):
        """The cells of a row, and whether all was as expected."""
        held, outcomes = self.fill()
        keys = range(0, held, max(1, held // TRIED))
        gets = sum(self.reading.is_held(number, self.size) for number in keys)
        again = [self.reading.store(number, self.size) for number in keys]
        stores = self.stores_again(held)
        served = sum(other.is_held(number, 100) for number, other in enumerate(self.others, FIRST_OF_OTHERS))
        stays = self.server.process.poll() is None
        closed = outcomes[CLOSED] + again.count(CLOSED)
        sets = ", ".join(str(again.count(each)) for each in (STORED, TOLD, CLOSED))
        cells = [*(f"{outcomes[each]:,}" for each in (STORED, TOLD, CLOSED)), f"{gets} of {len(keys)}", sets]
        cells += ["yes" if stores else "no", f"{served} of {OTHERS}", "stays" if stays else "ended"]
        return cells, closed == 0 and gets == len(keys) and served == OTHERS and stores and stays

    def close(self):
        for client in (self.storing, self.reading, *self.others):
            client.close()


def tried(given, kind, size):
    """Tries a size, prints its row, and returns whether all was as expected."""
    with Server(given.server, BUDGET, ITEMS, words=["--store", kind], stderr=subprocess.DEVNULL) as server:
        trial = Trial(server, size, given.megabytes)
        try:
            cells, is_right = trial.outcome()
        finally:
            trial.close()
    print("| " + " | ".join([kind, f"{size:,}", *cells]) + " |", flush=True)
    return is_right


def main():
    parser = argparse.ArgumentParser()
    parser.add_argument("server")
    parser.add_argument("--megabytes", type=int, default=16, help="MiB of addresses beside those of the start (16)")
    parser.add_argument("--sizes", default="10,100,1000,10000,100000,1000000")
    parser.add_argument("--stores", default="table,lru")
    given = parser.parse_args()
    if not are_built(given.server):
        return 1
    head = ["Store", "Bytes of a value", "stored", "told", "closed", "gets", "sets of held keys", "stored after deletes", "of the twenty", "server"]
    print("| " + " | ".join(head) + " |\n|" + "---|" * len(head))
    return counted([tried(given, kind, int(size)) for kind in given.stores.split(",") for size in given.sizes.split(",")])


if __name__ == "__main__":
    sys.exit(main())
