#!/usr/bin/env python3
"""Measures the most memory that a server takes while many clients each store a large value at the same time.

Usage: peak.py SERVER [--beside PROGRAM] [--clients N] [--size BYTES] [--stores KIND,KIND] [--words WORDS]

SERVER is the built mc_serverd, beside Debian's memcached with one thread. N clients (1,000) each send a set of BYTES bytes (1,000,000), a
piece of 64 KiB in turn, except the last byte. Once the server has read all that, each sends the last byte, and waits for its answer. Three
servers are tried: one whose budget holds all values; this one again, which stores them already, so that each is stored anew; and one whose
budget holds a twentieth of them, and which evicts the others.

The table has the resident memory of the process at the start of that, once all but the last bytes have arrived, and at the end; the most that
it ever had; and the ratio of the most to the values. The target is at most 1.20 if the budget holds them. Refused is how many were answered
that memory is missing. --words gives SERVER further options. The table is printed in Markdown.
"""

import argparse
import contextlib
import datetime
import pathlib
import selectors
import socket
import sys
import time

HERE = pathlib.Path(__file__).resolve().parent
sys.path.insert(0, str(HERE.parent / "tests" / "lib"))

from checks import allow_many_files
from filling import NO_MEMORY, cost_of, store_of
from servers import Server, connected

PIECE = 65_536
PATIENCE = 60  # seconds until a client gives up on its server
PART = 20  # a small budget holds one of this many values
QUIET = 0.25  # seconds in which a server that has read everything takes less than a hundredth of them


class Storing:
    """A client that stores a value, in pieces."""

    def __init__(self, port, key, size):
        self.connection = connected(port, timeout=PATIENCE)
        self.left = memoryview(store_of(key, size))

    def send_piece(self):
        """Sends the next piece, as far as the system takes it, and returns whether only the last byte is left."""
        with contextlib.suppress(BlockingIOError):
            sent = self.connection.send(self.left[: min(PIECE, len(self.left) - 1)], socket.MSG_DONTWAIT)
            self.left = self.left[sent:]
        return len(self.left) == 1

    def send_last(self):
        self.connection.sendall(self.left)

    def answer(self):
        return self.connection.recv(100)


def send_all_but_the_last_bytes(clients):
    with selectors.DefaultSelector() as selector:
        for client in clients:
            selector.register(client.connection, selectors.EVENT_WRITE, client)
        while selector.get_map():
            ready = selector.select(PATIENCE)
            if not ready:
                raise SystemExit("bench/peak.py: the server reads no more")
            for key, _ in ready:
                if key.data.send_piece():
                    selector.unregister(key.fileobj)


def wait_until_quiet(server):
    """Waits until a server has read the bytes that were sent to it."""
    before, spent = server.processor_time(), QUIET
    while spent > QUIET / 100:
        time.sleep(QUIET)
        now = server.processor_time()
        before, spent = now, now - before


def stored_at_once(server, asked):
    """Lets all clients store their values. Returns the resident bytes once all but the last bytes have arrived, and the answers."""
    clients = [Storing(server.port, key, asked.size) for key in range(asked.clients)]
    try:
        send_all_but_the_last_bytes(clients)
        wait_until_quiet(server)
        read = server.memory()
        for client in clients:
            client.send_last()
        return read, [client.answer() for client in clients]
    finally:
        for client in clients:
            client.connection.close()


def row(name, server, before, asked):
    read, answers = stored_at_once(server, asked)
    others = set(answers) - {b"STORED\r\n", NO_MEMORY}
    if others:
        raise SystemExit(f"bench/peak.py: to a store came {others.pop()!r}")
    most, end = server.memory("VmHWM"), server.memory()
    cells = [*name, *(f"{each / 2**20:.1f}" for each in (before, read, most, end))]
    ratio = f"{most / (asked.clients * asked.size):.2f}"
    print("| " + " | ".join([*cells, ratio, f"{answers.count(NO_MEMORY):,}"]) + " |", flush=True)


def rows(program, words, asked):
    """The rows of a program: of a budget that holds all values, and of a small one."""
    name = " ".join([pathlib.Path(program).name, *words])
    budget = asked.clients * cost_of(asked.size) * 11 // 10
    with Server(program, budget, words=words) as server:
        row([name, "holds all"], server, server.memory(), asked)
        row([name, "holds all already"], server, server.memory(), asked)
    small = max(budget // PART, 2 * cost_of(asked.size))
    with Server(program, small, words=words, megabytes=max(64, small >> 20)) as server:
        row([name, f"holds one in {PART}"], server, server.memory(), asked)


def main():
    words = argparse.ArgumentParser(description=__doc__, formatter_class=argparse.RawDescriptionHelpFormatter)
    words.add_argument("server", metavar="SERVER")
    words.add_argument("--beside", metavar="PROGRAM", default="memcached")
    words.add_argument("--clients", metavar="N", type=int, default=1_000)
    words.add_argument("--size", metavar="BYTES", type=int, default=1_000_000)
    words.add_argument("--stores", metavar="KIND,KIND", default="table,lru")
    words.add_argument("--words", default="")
    asked = words.parse_args()
    allow_many_files()
    values = asked.clients * asked.size / 2**20
    print(f"{datetime.date.today()}, {asked.clients:,} clients that store {asked.size:,} bytes each, {values:,.1f} MB in all:\n")
    head = ["Program", "Budget", "MB before", "MB once the values are read", "most MB ever", "MB at the end", "most, of the values", "refused"]
    print("| " + " | ".join(head) + " |\n|" + "---|" * len(head))
    for kind in asked.stores.split(","):
        rows(asked.server, ["--store", kind, *asked.words.split()], asked)
    rows(asked.beside, [], asked)


if __name__ == "__main__":
    main()
