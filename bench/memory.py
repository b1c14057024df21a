#!/usr/bin/env python3
"""Measures how many bytes of memory an item takes in a server, for values of several sizes.

Usage: memory.py SERVER [--beside PROGRAM] [--items N] [--sizes BYTES,BYTES ..] [--stores KIND,KIND]

SERVER is the built mc_serverd, with each of its stores, beside Debian's memcached with one thread. Each is started anew for each size,
and filled with N items (1,000,000) whose keys have 20 bytes, and whose values have 10, 100 or 1,000. Both store all of them.

The table has the resident memory of the process before it is filled and after that; the difference for each item; and the cost of the
item in the budget, which is 64 bytes beside its key and value. The size of the items' table at the start is no part of the difference:
the last column has all memory of the process, for each item. It is printed in Markdown.
"""

import argparse
import datetime
import pathlib
import sys

HERE = pathlib.Path(__file__).resolve().parent
sys.path.insert(0, str(HERE.parent / "tests" / "lib"))

from filling import cost_of, fill
from servers import HOST, Server, connected, free_port, is_memcached, statistics

STORES = "table,lru"
SIZES = "10,100,1000"


def row(program, words, items, size):
    """Fills a server, and returns the row of its memory."""
    admin = None if is_memcached(program) else free_port()
    listening = ["--admin", f"{HOST}:{admin}"] if admin else []
    with Server(program, items * cost_of(size) * 11 // 10, items * 11 // 10, words=[*words, *listening]) as server:
        empty = server.memory()
        with connected(server.port) as connection:
            refused = fill(connection, items, size)
        filled, held = server.memory(), int(statistics(admin or server.port)["curr_items"])
    if refused or held != items:
        raise SystemExit(f"bench/memory.py: {program} holds {held} of {items} items")
    name = " ".join([pathlib.Path(program).name, *words])
    megabytes = [f"{each / 2**20:.1f}" for each in (empty, filled)]
    cells = [f"{size:,}", name, *megabytes, f"{(filled - empty) / items:.0f}", f"{cost_of(size):,}", f"{filled / items:.0f}"]
    print("| " + " | ".join(cells) + " |", flush=True)


def main():
    words = argparse.ArgumentParser(description=__doc__, formatter_class=argparse.RawDescriptionHelpFormatter)
    words.add_argument("server", metavar="SERVER")
    words.add_argument("--beside", metavar="PROGRAM", default="memcached")
    words.add_argument("--items", metavar="N", type=int, default=1_000_000)
    words.add_argument("--sizes", metavar="BYTES,BYTES", default=SIZES)
    words.add_argument("--stores", metavar="KIND,KIND", default=STORES)
    asked = words.parse_args()
    print(f"{datetime.date.today()}, {asked.items:,} items:\n")
    head = ["Bytes of a value", "Program", "MB when empty", "MB", "bytes an item", "cost of a budget", "all, for each item"]
    print("| " + " | ".join(head) + " |\n|" + "---|" * len(head))
    for size in map(int, asked.sizes.split(",")):
        for store in asked.stores.split(","):
            row(asked.server, ["--store", store], asked.items, size)
        row(asked.beside, [], asked.items, size)


if __name__ == "__main__":
    main()
