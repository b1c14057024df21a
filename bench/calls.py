#!/usr/bin/env python3
"""Counts the system calls that a request costs a server, beside Debian's memcached with one thread; or a proxy, beside Debian's nutcracker.

Usage: calls.py SERVER [--through PROXY] [--beside PROGRAM] [--cases NAME,NAME ..] [--requests N] [--by NAME,NAME]

SERVER is the built mc_serverd. With --through, PROXY, the built mc_proxyd, is measured beside nutcracker, both in front of the same two
servers. All are filled with 100,000 items of 20 and 100 bytes. For each case load.c sends N requests (20,000): gets one at a time on one
connection, on 50 and on 500, and 32 at a time on 50; sets on 50. Their calls are counted (--by)

    strace  by `strace -f -c` on the program that was started, which stops it at each call: so more connections are ready at a time
    perf    by `perf stat` and the kernel's own points of tracing, which hold it up little; only root may

The table has, for a request, the calls that read and that write, and in brackets how many of them failed, as nothing had arrived; those that
wait for events; all others; how often the program slept (its voluntary switches, in a run without counting); and which calls these are. It is
printed in Markdown.
"""

import argparse
import datetime
import os
import pathlib
import shutil
import signal
import subprocess
import sys
import tempfile
from typing import NamedTuple

HERE = pathlib.Path(__file__).resolve().parent
sys.path.insert(0, str(HERE.parent / "tests" / "lib"))
sys.path.insert(0, str(HERE))

from serve import CASES, CASES_OF_PROXIES, STORES, Bench, Case, Data, names_of

NAMED = "alone,get1,get500,get32,set1,set32"
ALONE = Case("alone", "get of one connection", None, words="connections=1")
READS, WRITES, WAITS = ("read", "recvfrom", "readv", "recvmsg"), ("write", "sendto", "writev", "sendmsg"), ("epoll_wait", "epoll_pwait")
OTHERS = ("epoll_ctl", "futex", "clock_gettime", "accept4", "close", "madvise", "mmap", "munmap", "brk")  # that perf counts by their names
WARM_UP = 2_000
SHOWN = 0.005  # calls for a request; from this number on the table names a call


class Count(NamedTuple):
    calls: int = 0
    failed: int = 0


class Strace:
    """Counts the calls of a program that this script has started, by strace."""

    name = "strace"

    def __init__(self, pid, folder):
        self.said = folder / "strace"
        words = ["strace", "-f", "-c", "-o", str(self.said), "-p", str(pid)]
        self.process = subprocess.Popen(words, stderr=subprocess.PIPE, text=True)
        line = self.process.stderr.readline()
        if "attached" not in line:
            raise SystemExit(f"bench/calls.py: {line.strip() or 'strace does not attach'}")

    def ended(self):
        """The counts, by the names of calls."""
        self.process.send_signal(signal.SIGINT)
        self.process.communicate()
        counts = {}
        for line in self.said.read_text().splitlines():
            fields = line.split()
            if len(fields) in (5, 6) and fields[3].isdigit() and fields[-1] != "total":
                counts[fields[-1]] = Count(int(fields[3]), int(fields[4]) if len(fields) == 6 else 0)
        return counts


class Perf:
    """Counts the calls of a program by perf, which counts the calls named here, by name."""

    name = "perf"

    def __init__(self, pid, folder):
        self.said = folder / "perf"
        (its_orders, self.orders), (self.answers, its_answers) = os.pipe(), os.pipe()
        events = ["-e", "raw_syscalls:sys_enter"]
        for name in READS + WRITES + WAITS + OTHERS:
            events += ["-e", f"syscalls:sys_enter_{name}", "-e", f"syscalls:sys_exit_{name}", "--filter", "ret < 0"]
        words = ["perf", "stat", "-x,", "-o", str(self.said), "-D", "-1", f"--control=fd:{its_orders},{its_answers}", *events, "-p", str(pid)]
        self.process = subprocess.Popen(words, pass_fds=(its_orders, its_answers), stderr=subprocess.PIPE, text=True)
        os.close(its_orders)
        os.close(its_answers)
        os.write(self.orders, b"enable\n")
        if not os.read(self.answers, 10).startswith(b"ack"):
            raise SystemExit(f"bench/calls.py: {self.process.communicate()[1].strip() or 'perf does not count'}")

    def ended(self):
        self.process.send_signal(signal.SIGINT)
        self.process.communicate()
        os.close(self.orders)
        os.close(self.answers)
        lines = (line.split(",") for line in self.said.read_text().splitlines() if line[:1].isdigit())
        told = {fields[2]: int(fields[0]) for fields in lines}
        counts = {
            name: Count(told[f"syscalls:sys_enter_{name}"], told[f"syscalls:sys_exit_{name}"])
            for name in READS + WRITES + WAITS + OTHERS
            if told.get(f"syscalls:sys_enter_{name}")
        }
        rest = told["raw_syscalls:sys_enter"] - sum(count.calls for count in counts.values())
        return {**counts, "others": Count(rest)}


def sleeps_of(pid):
    """How often the threads of a process have gone to sleep."""
    lines = (line for thread in pathlib.Path(f"/proc/{pid}/task").iterdir() for line in (thread / "status").read_text().splitlines())
    return sum(int(line.split()[1]) for line in lines if line.startswith("voluntary_ctxt_switches"))


def group(counts, names, requests):
    """The calls of some names for a request, and those that failed."""
    calls, failed = (sum(column) for column in zip(*(counts.get(name, Count()) for name in names)))
    return f"{calls / requests:.3f}" + (f" ({failed / requests:.3f})" if failed else "")


def row(case, name, how, counts, requests, sleeps):
    others = [each for each in counts if each not in READS + WRITES + WAITS]
    told = {each: count.calls / requests for each, count in sorted(counts.items(), key=lambda one: -one[1].calls)}
    named = ", ".join(f"{each} {share:.3f}" for each, share in told.items() if share >= SHOWN)
    groups = [group(counts, names, requests) if names else "0.000" for names in (READS, WRITES, WAITS, others)]
    print("| " + " | ".join([case.told, name, how.name, f"{requests:,}", *groups, f"{sleeps:.3f}", named]) + " |", flush=True)


def measure(pair, each, name, case, asked, folder):
    """The table's rows of a program in a case."""
    with pair.load(each, case.words) as load:
        load.tell(f"count {WARM_UP}")
        before = sleeps_of(each.process.pid)
        requests, _ = load.tell(f"count {asked.requests}")
        sleeps = (sleeps_of(each.process.pid) - before) / requests
        for how in (Strace, Perf):
            if how.name in asked.by.split(","):
                counting = how(each.process.pid, folder)
                requests, _ = load.tell(f"count {asked.requests}")
                row(case, name, how, counting.ended(), requests, sleeps)


def main():
    words = argparse.ArgumentParser(description=__doc__, formatter_class=argparse.RawDescriptionHelpFormatter)
    words.add_argument("server", metavar="SERVER")
    words.add_argument("--through", metavar="PROXY")
    words.add_argument("--beside", metavar="PROGRAM", help="memcached, or for a proxy nutcracker")
    words.add_argument("--cases", metavar="NAME,NAME", default=NAMED)
    words.add_argument("--requests", metavar="N", type=int, default=20_000)
    words.add_argument("--by", metavar="NAME,NAME", default="strace,perf")
    words.set_defaults(seconds=0, rounds=0, scrape=False, missed=False, free=False)
    asked = words.parse_args()
    beside = "nutcracker" if asked.through else "memcached"
    asked.beside = asked.beside or shutil.which(beside, path=os.environ["PATH"] + ":/usr/sbin")
    if asked.beside is None:
        words.error(f"{beside} is not installed (Debian: {beside})")
    print(f"{datetime.date.today()}, calls of a request:\n")
    head = ["Case", "Program", "By", "Requests", "Reads", "Writes", "Waits", "Others", "Sleeps", "Calls"]
    print("| " + " | ".join(head) + " |\n|" + "---|" * len(head))
    cases = {case.name: case for case in (ALONE, *(CASES_OF_PROXIES if asked.through else CASES)) if case.data == Data()}
    with tempfile.TemporaryDirectory() as name:
        folder = pathlib.Path(name)
        bench = Bench(asked, folder, STORES[0])
        with bench.pair(Data()) as pair:
            for case in map(cases.__getitem__, asked.cases.split(",")):
                for each, called in zip(pair.measured, names_of(bench)):
                    measure(pair, each, called, case, asked, folder)


if __name__ == "__main__":
    main()
