#!/usr/bin/env python3
"""Measures how long a flush_all delays the other connections of a server, and the cost of a store after it.

Usage: flush.py SERVER [--beside PROGRAM] [--items N] [--flushes N]

SERVER is the built mc_serverd, beside Debian's memcached with one thread. Each is filled with N items (1,000,000) of 20 and 100
bytes, and flushed; then it is filled again, and flushed again, five times. One connection sends the flush_all and another a get
after it. The table has the milliseconds until the answer of that get, at the median and at most, and those of its next get. It
has the cost of one store while the server is filled, by the clock of its process, for the first time and after a flush, and the
resident memory when it is filled for the first time and for the last.

It prints a table in Markdown.
"""

import argparse
import datetime
import os
import pathlib
import statistics
import sys
import time

HERE = pathlib.Path(__file__).resolve().parent
sys.path.insert(0, str(HERE.parent / "tests" / "lib"))

from servers import Server, connected

COST_OF_AN_ITEM = 64
KEY_SIZE = 20
VALUE_SIZE = 100
STORES_AT_ONCE = 1_000
GET = b"get key-%016d\r\n" % 0


def told(connection, request, size):
    """The answer to a request, of this many bytes."""
    connection.sendall(request)
    answer = b""
    while len(answer) < size:
        part = connection.recv(65_536)
        if not part:
            raise SystemExit("bench/flush.py: the server closed the connection")
        answer += part
    return answer


def fill(server, items):
    """Stores this many items, and returns the nanoseconds of the server's process for each."""
    value = b"v" * VALUE_SIZE
    answer = b"STORED\r\n"
    before = server.processor_time()
    with connected(server.port) as connection:
        for first in range(0, items, STORES_AT_ONCE):
            count = min(STORES_AT_ONCE, items - first)
            lines = [b"set key-%016d 0 0 %d\r\n%b\r\n" % (first + k, VALUE_SIZE, value) for k in range(count)]
            answers = told(connection, b"".join(lines), count * len(answer))
            if answers != answer * count:
                raise SystemExit(f"bench/flush.py: to a store came {answers[:100]!r}")
    return (server.processor_time() - before) / items * 1e9


def flush(server):
    """Milliseconds from a flush_all to the answer of a get that another connection sent after it, and of its next get."""
    with connected(server.port) as flusher, connected(server.port) as other:
        for connection in (flusher, other):
            told(connection, b"version\r\n", 1)
        start = time.perf_counter()
        flusher.sendall(b"flush_all\r\n")
        first = told(other, GET, len(b"END\r\n"))
        answered = time.perf_counter()
        second = told(other, GET, len(b"END\r\n"))
        end = time.perf_counter()
        flushed = flusher.recv(100)
    if (second, flushed) != (b"END\r\n", b"OK\r\n") or not first.endswith(b"END\r\n"):
        raise SystemExit(f"bench/flush.py: to flush_all and two gets came {flushed!r}, {first!r}, {second!r}")
    return (answered - start) * 1e3, (end - answered) * 1e3


def row(program, items, flushes):
    budget = items * (KEY_SIZE + VALUE_SIZE + COST_OF_AN_ITEM) * 11 // 10
    with Server(program, budget, items * 11 // 10) as server:
        first_store = fill(server, items)
        filled = server.memory()
        times, later_stores = [flush(server)], []
        while len(times) < flushes:
            later_stores.append(fill(server, items))
            filled_again = server.memory()
            times.append(flush(server))
    held, then = zip(*times)
    waits = " | ".join(f"{statistics.median(each):.2f} (at most {max(each):.2f})" for each in (held, then))
    stores = f"{first_store:,.0f} | {statistics.median(later_stores):,.0f}"
    memory = f"{filled / 2**20:.1f} | {filled_again / 2**20:.1f}"
    return f"| {pathlib.Path(program).name} | {waits} | {stores} | {memory} |"


def main():
    words = argparse.ArgumentParser(description=__doc__, formatter_class=argparse.RawDescriptionHelpFormatter)
    words.add_argument("server", metavar="SERVER")
    words.add_argument("--beside", metavar="PROGRAM", default="memcached")
    words.add_argument("--items", metavar="N", type=int, default=1_000_000)
    words.add_argument("--flushes", metavar="N", type=int, default=6)
    given = words.parse_args()
    print(f"{datetime.datetime.now():%Y-%m-%d %H:%M}, {os.cpu_count()} processors; load at the start {os.getloadavg()[0]:.2f}.\n")
    print(f"| flush_all of {given.items:,} items | ms to the answer of another's get | ms of its next get", end="")
    print(" | ns of a store at first | after a flush | MB filled at first | filled at last |")
    print("|---|---|---|---|---|---|---|")
    for program in (given.server, given.beside):
        print(row(program, given.items, max(given.flushes, 2)), flush=True)
    print(f"\nLoad of the machine at the end: {os.getloadavg()[0]:.2f}.")


if __name__ == "__main__":
    main()
