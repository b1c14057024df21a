#!/usr/bin/env python3
"""Measures how long a server with many items takes to end.

Usage: ends.py SERVER [--beside PROGRAM] [--items N] [--rounds N] [--words WORDS]

SERVER is the built mc_serverd, beside Debian's memcached with one thread. Each is filled with N items (4,000,000) of 20 and 100 bytes
and ended, three times or as --rounds says:

    SIGTERM   by that signal, while a client is connected (memcached notices it at its next second)
    --accept  mc_serverd alone: started with `--accept 1`, it ends by itself when its client closes the connection, and frees each item

A figure is the milliseconds from the signal, or from the close of the connection, until the process has ended. --words gives SERVER further
options. The output is a table in Markdown.
"""

import argparse
import datetime
import os
import pathlib
import select
import signal
import sys
import time

HERE = pathlib.Path(__file__).resolve().parent
sys.path.insert(0, str(HERE.parent / "tests" / "lib"))
sys.path.insert(0, str(HERE))

from pause_loads import COST_OF_AN_ITEM, KEY_SIZE, VALUE_SIZE, Pipelines
from servers import Server, connected, is_memcached

PATIENCE = 120  # seconds


def status_at_end(process):
    """The status of a process once it has ended."""
    watched = os.pidfd_open(process.pid)
    ready, _, _ = select.select([watched], [], [], PATIENCE)
    os.close(watched)
    if not ready:
        raise SystemExit(f"bench/ends.py: the server has not ended within {PATIENCE} seconds")
    return process.wait()


def milliseconds_to_end(program, items, words, way):
    budget = items * (KEY_SIZE + VALUE_SIZE + COST_OF_AN_ITEM) * 11 // 10
    with Server(program, budget, items, words=words) as server, connected(server.port, timeout=60) as connection:
        Pipelines("new", items).fill(connection)
        memory = server.memory()
        start = time.perf_counter()
        if way == "SIGTERM":
            server.process.send_signal(signal.SIGTERM)
        else:
            connection.close()
        status = status_at_end(server.process)
        return (time.perf_counter() - start) * 1e3, memory, status


def row(program, items, rounds, words, way):
    if way == "--accept":
        words = [*words, "--accept", "1"]
    times, memory, statuses = zip(*(milliseconds_to_end(program, items, words, way) for _ in range(rounds)))
    ends = ", ".join(f"{each:,.0f}" for each in times)
    cells = [pathlib.Path(program).name, way, f"{items:,}", f"{max(memory) / 2**20:,.0f}", ends, str(statuses[0])]
    print("| " + " | ".join(cells) + " |", flush=True)


def main():
    words = argparse.ArgumentParser(description=__doc__, formatter_class=argparse.RawDescriptionHelpFormatter)
    words.add_argument("server", metavar="SERVER")
    words.add_argument("--beside", metavar="PROGRAM", default="memcached")
    words.add_argument("--items", metavar="N", type=int, default=4_000_000)
    words.add_argument("--rounds", metavar="N", type=int, default=3)
    words.add_argument("--words", default="")
    asked = words.parse_args()
    print(f"{datetime.datetime.now():%Y-%m-%d %H:%M}, {os.cpu_count()} processors; load at the start {os.getloadavg()[0]:.2f}.\n")
    head = ["Program", "Ended by", "Items", "MB", "Milliseconds until it has ended", "Status"]
    print("| " + " | ".join(head) + " |\n|" + "---|" * len(head), flush=True)
    ways = ["SIGTERM"] if is_memcached(asked.server) else ["SIGTERM", "--accept"]
    for way in ways:
        row(asked.server, asked.items, asked.rounds, asked.words.split(), way)
    row(asked.beside, asked.items, asked.rounds, [], "SIGTERM")


if __name__ == "__main__":
    main()
