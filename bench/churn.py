#!/usr/bin/env python3
"""Measures how much memory a full server has resident in proportion to the cost of its items: after it was filled, and after long churn of
mixed sizes.

Usage: churn.py SERVER [--beside PROGRAM] [--megabytes N] [--sizes BYTES,BYTES ..] [--times N] [--sigma S] [--stores KIND,KIND]
                [--environment NAME=VALUE ..] [--seed N] [--alone]

SERVER is the built mc_serverd with a budget of N MiB (256) and `--items auto`, beside Debian's memcached with one thread and `-m N`. Each is
started anew for each size (30, 100, 1,000 and 10,000 bytes of a value, keys of 20):

    full       filled with new keys whose values have the size, by half as much again as the budget holds
    the churn  10 times as many stores (--times) as items fit, under keys drawn from twice as many, so that about half of the stores replace
               an item and the others evict. The sizes are log-normal: half are below the size, by a sigma of 1.

The table has the items, their cost (key, value and 64 bytes each), the resident memory of the process, its ratio to that cost, and its ratio
to the budget; at the end the most that it ever had. The cost of memcached's items is counted likewise. Refused is how many stores were
answered that memory is missing. --environment is added to SERVER's environment, such as the settings of the C library. The table is printed
in Markdown.
"""

import argparse
import contextlib
import datetime
import itertools
import math
import pathlib
import random
import sys
import time

HERE = pathlib.Path(__file__).resolve().parent
sys.path.insert(0, str(HERE.parent / "tests" / "lib"))

from filling import COST_OF_AN_ITEM, KEY_SIZE, LARGEST, at_once, cost_of, fill, store
from servers import HOST, Server, connected, free_port, is_memcached, statistics

SIZES = "30,100,1000,10000"
WANTED = 1.25
DRAWN = 1 << 16  # sizes that are drawn beforehand
SECONDS_TO_REST = 2.5
PROBE = 100  # bytes of the value that shows what memcached counts for an item


class Full:
    """A server with a budget, its items, and their cost."""

    def __init__(self, program, words, asked):
        self.admin = None if is_memcached(program) else free_port()
        listening = ["--admin", f"{HOST}:{self.admin}"] if self.admin else []
        self.budget = asked.megabytes << 20
        environment = dict(word.split("=", 1) for word in asked.environment) if program == asked.server else None
        words = [*words, *listening]
        with contextlib.ExitStack() as stack:
            server = Server(program, self.budget, "auto", words=words, megabytes=asked.megabytes, environment=environment)
            self.server = stack.enter_context(server)
            self.connection = stack.enter_context(connected(server.port, timeout=60))
            self.counts_more = self.counted_more()
            self.stack = stack.pop_all()

    def statistic(self, name):
        return int(statistics(self.admin or self.server.port)[name])

    def counted_more(self):
        """How many bytes more than the cost of an item the program itself counts for one."""
        store(self.connection, [(0, PROBE)])
        return self.statistic("bytes") - cost_of(PROBE)

    def cells(self):
        """The items, their cost, the resident memory, and its ratios to the cost and to the budget."""
        time.sleep(SECONDS_TO_REST)
        items, resident = self.statistic("curr_items"), self.server.memory()
        cost = self.statistic("bytes") - items * self.counts_more
        ratios = (f"{resident / each:.2f}" for each in (cost, self.budget))
        return [f"{items:,}", *(f"{each / 2**20:.1f}" for each in (cost, resident)), *ratios]

    def __enter__(self):
        return self

    def __exit__(self, *_):
        self.stack.close()


def sizes_about(size, sigma, dice):
    """Log-normal sizes of values without end, half of which are below a size."""
    drawn = (round(dice.lognormvariate(math.log(size), sigma)) for _ in range(DRAWN))
    return itertools.cycle([min(max(each, 1), LARGEST) for each in drawn])


def churn(full, size, asked):
    """Stores under drawn keys, this many times as many as fit. Returns how many were refused memory."""
    dice = random.Random(asked.seed)
    sizes = sizes_about(size, asked.sigma, dice)
    mean = size * math.exp(asked.sigma**2 / 2)
    fitting = int(full.budget / (KEY_SIZE + mean + COST_OF_AN_ITEM))
    step, refused = at_once(int(mean)), 0
    for _ in range(0, fitting * asked.times, step):
        keys = dice.choices(range(2 * fitting), k=step)
        refused += store(full.connection, list(zip(keys, sizes)))
    return refused


def row(program, words, size, asked):
    with Full(program, words, asked) as full:
        refused = fill(full.connection, full.budget * 3 // 2 // cost_of(size), size)
        filled = full.cells()
        refused += churn(full, size, asked)
        churned, most = full.cells(), full.server.memory("VmHWM")
    name = " ".join([pathlib.Path(program).name, *words])
    print(f"| {' | '.join([f'{size:,}', name, *filled, *churned, f'{most / 2**20:.1f}', f'{refused:,}'])} |", flush=True)


def head_told(asked):
    told = f"a budget of {asked.megabytes} MiB, sigma {asked.sigma}, seed {asked.seed}"
    print(f"{datetime.date.today()}, {told}; wanted are at most {WANTED} of the cost.")
    if asked.environment:
        print(f"{pathlib.Path(asked.server).name} with {' '.join(asked.environment)}.")
    state = ["MB of cost", "MB resident", "of the cost", "of the budget"]
    head = ["Bytes of a value", "Program", "Full: items", *state, "After the churn: items", *state, "most MB ever", "refused"]
    print("\n| " + " | ".join(head) + " |\n|" + "---|" * len(head))


def main():
    words = argparse.ArgumentParser(description=__doc__, formatter_class=argparse.RawDescriptionHelpFormatter)
    words.add_argument("server", metavar="SERVER")
    words.add_argument("--beside", metavar="PROGRAM", default="memcached")
    words.add_argument("--alone", action="store_true", help="measure SERVER alone")
    words.add_argument("--megabytes", metavar="N", type=int, default=256)
    words.add_argument("--sizes", metavar="BYTES,BYTES", default=SIZES)
    words.add_argument("--times", metavar="N", type=int, default=10)
    words.add_argument("--sigma", metavar="S", type=float, default=1.0)
    words.add_argument("--stores", metavar="KIND,KIND", default="table")
    words.add_argument("--environment", metavar="NAME=VALUE", action="append", default=[])
    words.add_argument("--seed", metavar="N", type=int, default=1)
    asked = words.parse_args()
    head_told(asked)
    for size in map(int, asked.sizes.split(",")):
        for kind in asked.stores.split(","):
            row(asked.server, ["--store", kind], size, asked)
        if not asked.alone:
            row(asked.beside, [], size, asked)


if __name__ == "__main__":
    main()
