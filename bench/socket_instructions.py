#!/usr/bin/env python3
"""Counts the instructions of a program's own code for a request on a socket, by valgrind's callgrind.

Usage: socket_instructions.py SERVER [--through PROXY] [--words WORD ..] [--cases NAME,NAME ..]

The program (SERVER, the built mc_serverd, or PROXY in front of two of them) runs under callgrind, and load.c loads it. A count
is the difference of two runs of different length, by the difference of their requests: the cost of the start and the filling is
in both. It does not change with the machine's load, but by some per cent with how many connections are ready at a time.

--words gives the program further options, in one text: --words '--store lru'. It prints a table in Markdown.
"""

import argparse
import pathlib
import re
import signal
import subprocess
import sys
import tempfile

HERE = pathlib.Path(__file__).resolve().parent
sys.path.insert(0, str(HERE.parent / "tests" / "lib"))
sys.path.insert(0, str(HERE))

from serve import CASES, CASES_OF_PROXIES, KEY_SIZE, COST_OF_AN_ITEM, SERVERS_OF_A_PROXY, Data, Load
from servers import Proxy, Server

SHORT, LONG = 1.0, 4.0
KEYS = 2_000
COLLECTED = re.compile(r"Collected : (\d+)")
NOT_COUNTED = {"million32", "get500"}


class Counted:
    """A program that runs under callgrind: a script in its place, and the output of callgrind."""

    def __init__(self, folder, program, words):
        self.said = folder / "said"
        self.script = folder / "program"
        counts = "valgrind --tool=callgrind --callgrind-out-file=/dev/null"
        self.script.write_text(f'#!/bin/sh\nexec {counts} --log-file={self.said} {program} "$@" {words}\n')
        self.script.chmod(0o755)

    def ended(self, listener):
        """Ends the program, and returns its instructions."""
        listener.process.send_signal(signal.SIGTERM)
        listener.process.wait()
        return int(COLLECTED.search(self.said.read_text())[1])


class Bench:
    def __init__(self, asked, folder):
        self.asked, self.load = asked, str(folder / "load")
        self.counted = Counted(folder, pathlib.Path(asked.through or asked.server).resolve(), asked.words)
        subprocess.run(["cc", "-O2", "-o", self.load, str(HERE / "load.c"), "-lm"], check=True)

    def server(self, program, data):
        budget = data.keys * (KEY_SIZE + data.size + COST_OF_AN_ITEM) * 11 // 10
        return Server(program, budget, data.keys * 11 // 10)

    def loaded(self, target, data, words, seconds):
        """The requests of a run, and the instructions of the program from its start to its end."""
        with Load(self.load, target, None, data, "connections=10 pipeline=16 get=0 set=100") as filling:
            filling.tell("fill")
        with Load(self.load, target, None, data, words) as load:
            requests, _ = load.tell(f"run {seconds}")
        return requests, self.counted.ended(target)

    def once(self, data, words, seconds):
        if self.asked.through is None:
            with self.server(self.counted.script, data) as target:
                return self.loaded(target, data, words, seconds)
        with self.server(self.asked.server, data) as one, self.server(self.asked.server, data) as other:
            with Proxy(self.counted.script, [one.address, other.address][:SERVERS_OF_A_PROXY]) as target:
                return self.loaded(target, data, words, seconds)

    def count(self, case):
        data = Data(min(case.data.keys, KEYS), case.data.size)
        few, many = (self.once(data, case.words, seconds) for seconds in (SHORT, LONG))
        return (many[1] - few[1]) // (many[0] - few[0])


def main():
    words = argparse.ArgumentParser(description=__doc__, formatter_class=argparse.RawDescriptionHelpFormatter)
    words.add_argument("server", metavar="SERVER")
    words.add_argument("--through", metavar="PROXY")
    words.add_argument("--words", default="")
    words.add_argument("--cases", help="the names of some, with commas; all, where none are given")
    asked = words.parse_args()
    cases = [case for case in (CASES_OF_PROXIES if asked.through else CASES) if case.name not in NOT_COUNTED]
    wanted = asked.cases.split(",") if asked.cases else [case.name for case in cases]
    print("| Request | Instructions |\n|---|---|")
    with tempfile.TemporaryDirectory() as folder:
        bench = Bench(asked, pathlib.Path(folder))
        for case in cases:
            if case.name in wanted:
                print(f"| {case.told} | {bench.count(case):,} |", flush=True)


if __name__ == "__main__":
    main()
