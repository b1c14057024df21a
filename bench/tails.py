#!/usr/bin/env python3
"""Measures how long single requests wait for their replies: the middle, the slow ones and the slowest.

Usage: tails.py SERVER [--through PROXY] [--beside PROGRAM] [--seconds S] [--rounds N] [--words WORDS]

SERVER is the built mc_serverd, beside Debian's memcached with one thread; with --through it is PROXY, the built mc_proxyd, beside
Debian's nutcracker, both in front of the same two servers. Each is loaded in turn, N times (5) for S seconds (3), by load.c on 50
connections: gets of stored keys of 20 bytes, whose values have 100.

    closed loop  each connection sends its next request once the last is answered; the table has the answers in a second, too
    open loop    requests fall due at half of the rate that the other program answered in its closed loop, the same for both; a request
                 waits from the moment at which it falls due

A figure is the median of the rounds, in microseconds; the slowest is that of all rounds. If there are two processors or more, the
program that is measured has one of its own and the load another. --words gives SERVER, or PROXY, further options. The output is a table
in Markdown.
"""

import argparse
import contextlib
import datetime
import pathlib
import statistics
import subprocess
import sys
import tempfile

HERE = pathlib.Path(__file__).resolve().parent
sys.path.insert(0, str(HERE.parent / "tests" / "lib"))
sys.path.insert(0, str(HERE))

from serve import COST_OF_AN_ITEM, KEY_SIZE, SERVERS_OF_A_PROXY, Data, Load, pin, processors
from servers import Proxy, Server

DATA = Data()


class Tails(Load):
    """The load program, which reports how long requests waited."""

    def waits(self, seconds):
        """The requests of a second, and the microseconds within which half of the replies arrived, 99 and 99.9 per cent, and all."""
        self.processes[0].stdin.write(f"wait {seconds}\n")
        self.processes[0].stdin.flush()
        requests, took, *waits = map(float, self.processes[0].stdout.readline().split())
        return requests / took, waits


def server(program, words=()):
    budget = DATA.keys * (KEY_SIZE + DATA.size + COST_OF_AN_ITEM) * 11 // 10
    return Server(program, budget, DATA.keys * 11 // 10, words=words)


def started(stack, asked, cores):
    """Both programs that are measured, filled."""
    words = asked.words.split()
    if asked.through is None:
        both = [stack.enter_context(server(asked.server, words)), stack.enter_context(server(asked.beside or "memcached"))]
    else:
        behind = [stack.enter_context(server(asked.server)) for _ in range(SERVERS_OF_A_PROXY)]
        for each, core in zip(behind, cores[2:] * SERVERS_OF_A_PROXY):
            pin(each.process.pid, core)
        addresses = [each.address for each in behind]
        both = [stack.enter_context(Proxy(asked.through, addresses, words)), stack.enter_context(Proxy(asked.beside or "nutcracker", addresses))]
    for each in both:
        if cores:
            pin(each.process.pid, cores[0])
    return both


def rounds_of(load, both, cores, asked, words):
    """The rounds of each program: which is first changes from round to round."""
    rounds = [[], []]
    with contextlib.ExitStack() as stack:
        core = cores[1] if cores else None
        loads = [stack.enter_context(Tails(load, each, core, DATA, words)) for each in both]
        for number in range(asked.rounds):
            for at in (0, 1) if number % 2 == 0 else (1, 0):
                rounds[at].append(loads[at].waits(asked.seconds))
    return rounds


def rows(name, both, rounds):
    for program, of_one in zip(both, rounds):
        rates, waits = zip(*of_one)
        half, most, nearly, slowest = zip(*waits)
        middles = (f"{statistics.median(each):,.0f}" for each in (half, most, nearly))
        cells = [name, pathlib.Path(program.program).name, f"{statistics.median(rates):,.0f}", *middles, f"{max(slowest):,.0f}"]
        print("| " + " | ".join(cells) + " |", flush=True)


def main():
    words = argparse.ArgumentParser(description=__doc__, formatter_class=argparse.RawDescriptionHelpFormatter)
    words.add_argument("server", metavar="SERVER")
    words.add_argument("--through", metavar="PROXY")
    words.add_argument("--beside", metavar="PROGRAM")
    words.add_argument("--seconds", type=float, default=3)
    words.add_argument("--rounds", type=int, default=5)
    words.add_argument("--words", default="")
    asked = words.parse_args()
    cores = processors()
    head = ["Loop", "Program", "Requests a second", "Half within", "99 % within", "99.9 % within", "The slowest"]
    print(f"{datetime.date.today()}, microseconds:\n\n| " + " | ".join(head) + " |\n|" + "---|" * len(head))
    with tempfile.TemporaryDirectory() as folder, contextlib.ExitStack() as stack:
        load = str(pathlib.Path(folder) / "load")
        subprocess.run(["cc", "-O2", "-o", load, str(HERE / "load.c"), "-lm"], check=True)
        both = started(stack, asked, cores)
        for each in both:
            with Load(load, each, None, DATA, "connections=10 pipeline=16 get=0 set=100") as filling:
                filling.tell("fill")
        closed = rounds_of(load, both, cores, asked, "")
        rows("closed", both, closed)
        rate = statistics.median(rate for rate, _ in closed[1]) / 2
        rows("open", both, rounds_of(load, both, cores, asked, f"rate={rate:.0f}"))


if __name__ == "__main__":
    main()
