#!/usr/bin/env python3
"""Measures the cost of a request in a pool on threads, beside the same pool on one thread.

Usage: threads.py PROGRAM [--requests N] [--servers N,N ..] [--rounds N]

PROGRAM is the built mc_tools, of which `threads` plays N gets and sets of 8 clients over 1, 2 and 4 servers: `threads` with a thread for each
server and one for the proxy, `one` with all of them on one thread, and `load`, which only makes the clients' texts. The three take turns
within each round.

A cost is the processor time of the process, its own code and the kernel's work for it, less that of `load`, over the requests. The rate is
computed from the time from start to end, less that of `load`. Both are medians of all rounds; a ratio is that of both costs of a round, and
printed are the median and the middle half of them.

It prints a table in Markdown.
"""

import argparse
import datetime
import os
import pathlib
import platform
import re
import statistics
import subprocess
import time
from typing import NamedTuple

HOWS = ["load", "threads", "one"]


class Run(NamedTuple):
    seconds: float
    processor: float


def run_of(program, how, servers, requests):
    """One run: the seconds from start to end, and those of a processor. All requests must be answered."""
    start = time.perf_counter()
    process = subprocess.Popen([program, "threads", how, str(servers), str(requests)], stdout=subprocess.PIPE)
    told = process.stdout.read().decode()
    _, status, usage = os.wait4(process.pid, 0)
    seconds = time.perf_counter() - start
    process.returncode = os.waitstatus_to_exitcode(status)
    process.stdout.close()
    answers = re.search(r" answers (\d+),", told)
    if process.returncode != 0 or not answers or int(answers[1]) != (0 if how == "load" else requests):
        raise SystemExit(f"bench/threads.py: {how} with {servers} servers ended with {process.returncode} and told {told!r}")
    return Run(seconds, usage.ru_utime + usage.ru_stime)


def round_of(program, servers, requests, number):
    """The time of `threads` and `one` beyond that of `load`; which is first changes from round to round."""
    hows = HOWS if number % 2 == 0 else HOWS[::-1]
    runs = {how: run_of(program, how, servers, requests) for how in hows}
    load = runs["load"]
    return [Run(runs[how].seconds - load.seconds, runs[how].processor - load.processor) for how in HOWS[1:]]


def row_of(servers, requests, rounds):
    ratios = [threads.processor / one.processor for threads, one in rounds]
    low, ratio, high = statistics.quantiles(ratios, n=4)
    told = [str(servers)]
    for runs in zip(*rounds):
        rate = statistics.median(requests / run.seconds for run in runs)
        cost = statistics.median(run.processor / requests * 1e9 for run in runs)
        told.append(f"{rate:,.0f} | {cost:,.0f}")
    told.append(f"{ratio:.2f} ({low:.2f} to {high:.2f})")
    return f"| {' | '.join(told)} |"


def run(asked):
    told_machine(asked)
    print("| Servers | On threads: requests a second | ns a request | On one thread: requests a second | ns a request | Ratio |")
    print("|---|---|---|---|---|---|")
    for servers in map(int, asked.servers.split(",")):
        rounds = [round_of(asked.program, servers, asked.requests, number) for number in range(asked.rounds)]
        print(row_of(servers, asked.requests, rounds), flush=True)


def told_machine(asked):
    models = [line for line in pathlib.Path("/proc/cpuinfo").read_text().splitlines() if line.startswith("model name")]
    model = models[0].partition(": ")[2] if models else platform.machine()
    print(f"{datetime.datetime.now():%Y-%m-%d %H:%M}, {len(os.sched_getaffinity(0))} processors ({model}), Linux {platform.release()};")
    print(f"{asked.requests:,} requests of 8 clients, {asked.rounds} rounds. Load of the machine at the start: {os.getloadavg()[0]:.2f}.\n")


def main():
    words = argparse.ArgumentParser(description=__doc__, formatter_class=argparse.RawDescriptionHelpFormatter)
    words.add_argument("program", metavar="PROGRAM")
    words.add_argument("--requests", type=int, default=1_000_000, help="of all clients, a multiple of 8 (1,000,000)")
    words.add_argument("--servers", default="1,2,4", help="numbers of servers, with commas (1,2,4)")
    words.add_argument("--rounds", type=int, default=5, help="of each number of servers (5)")
    asked = words.parse_args()
    if asked.rounds < 2 or asked.requests % 8 != 0:
        words.error("there are two rounds or more, and as many requests for each client")
    run(asked)


if __name__ == "__main__":
    main()
