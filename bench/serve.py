#!/usr/bin/env python3
"""Measures the cost of a request in a server, beside Debian's memcached with one thread; or in a proxy, beside Debian's nutcracker.

Usage: serve.py SERVER [--through PROXY] [--stores KIND,KIND] [--beside PROGRAM] [--cases NAME,NAME ..] [--seconds S] [--rounds N] [--free]
                [--scrape] [--missed]

SERVER is the built mc_serverd. It is measured with each of its stores, `table` and `lru`, or those of --stores. (memcached in its place
measures memcached beside itself, with --stores table: all ratios should be about 1.) Both servers are filled, and loaded in turn within one
run: for each case many short rounds, each of both servers. The load is load.c, which is built by `cc -O2` into a temporary folder: it keeps a
batch of requests of each connection outstanding and checks every reply. If there are two processors or more, both servers have one of their own
and the load another. With --free nothing is kept on a processor, and two processes load, each by half of the connections: a figure counts if
both ways show it.

With --through, PROXY (the built mc_proxyd) is measured beside nutcracker (`distribution: ketama`, `hash: md5`): both are in front of the same
two servers, which are SERVER's, on processors of their own if there are enough. The time that these servers spend on a request is printed too,
since a proxy may send them more or fewer commands.

With --scrape, SERVER (or PROXY) has a listener of operators, which is asked for /metrics once a second, as Prometheus would ask. A round has a
second then. So `--beside SERVER --stores table --scrape` shows the cost of a scrape, as a part of all that the server does. With --missed,
PROXY has `--lost missed`: so `--through PROXY --beside PROXY --missed` shows the cost of that choice.

The measure is the processor time of the server's process, by its own clock, over the requests of a round: its own code and the kernel's work
for it. The speed of the load matters little. A cost is the median of all rounds. A ratio is that of both costs of a round, since a machine that
others use is not as fast at one second as at the next; printed are the median of all rounds, and the middle half of them. Some cases measure
other things: `memory` is the memory of a million items, or the resident memory of a proxy with 500 clients, and `flush` how long a `flush_all`
of a million items delays the other connections.

It prints tables in Markdown; docs/PERF.md has their rows.
"""

import argparse
import contextlib
import datetime
import os
import pathlib
import platform
import shutil
import statistics
import subprocess
import sys
import tempfile
import threading
import time
from typing import NamedTuple

HERE = pathlib.Path(__file__).resolve().parent
sys.path.insert(0, str(HERE.parent / "tests" / "lib"))

from servers import HOST, Proxy, Server, connected, free_port, is_memcached

STORES = ["table", "lru"]  # the first is SERVER's default
COST_OF_AN_ITEM = 64
KEY_SIZE = 20
WARM_UP = 0.3
FLUSHES = 3
SECONDS_TO_REST = 2.5
WANTED_BYTES_AN_ITEM = 190


class Data(NamedTuple):
    """The items that the servers are filled with."""

    keys: int = 100_000
    size: int = 100


class Case(NamedTuple):
    name: str
    told: str
    wanted: float | None
    data: Data = Data()
    words: str = ""


LARGE, MILLION = Data(10_000, 10_240), Data(1_000_000, 100)
PAGES, FILES = Data(1_000, 102_400), Data(200, 512_000)
CONNECTIONS = 50  # of a load, if no case says otherwise
CASES = [
    Case("get1", "get, one at a time", 0.92),
    Case("get32", "get, 32 at a time", 0.09, words="pipeline=32"),
    Case("set1", "set, one at a time", 0.83, words="get=0 set=100"),
    Case("set32", "set, 32 at a time", 0.28, words="get=0 set=100 pipeline=32"),
    Case("mg32", "mg with v, 32 at a time", 0.33, words="get=0 mg=100 pipeline=32"),
    Case("keys24", "get of 24 keys", 0.37, words="many=24"),
    Case("get500", "get of 500 connections", 0.90, words="connections=500"),
    Case("zipf", "9 gets to a set, keys by Zipf's law", 0.92, words="get=90 set=10 zipf=0.99"),
    Case("get10k", "get of 10,240 bytes, 10,000 keys", 0.85, LARGE),
    Case("set10k", "set of 10,240 bytes, 10,000 keys", 0.85, LARGE, "get=0 set=100"),
    Case("get100k", "get of 102,400 bytes, 1,000 keys", 0.85, PAGES),
    Case("set100k", "set of 102,400 bytes, 1,000 keys", 0.85, PAGES, "get=0 set=100"),
    Case("get500k", "get of 512,000 bytes, 200 keys", 0.85, FILES),
    Case("set500k", "set of 512,000 bytes, 200 keys", 0.85, FILES, "get=0 set=100"),
    Case("million32", "get of 1,000,000 keys, 32 at a time", 0.35, MILLION, "pipeline=32"),
]
OTHERS = ["memory", "flush"]
CASES_OF_PROXIES = [
    Case("get1", "get, one at a time", None),
    Case("get32", "get, 32 at a time", 0.25, words="pipeline=32"),
    Case("set1", "set, one at a time", None, words="get=0 set=100"),
    Case("set32", "set, 32 at a time", 0.25, words="get=0 set=100 pipeline=32"),
    Case("keys24", "get of 24 keys", 0.45, words="many=24"),
    Case("get500", "get of 500 connections", 0.50, words="connections=500"),
    Case("get10k", "get of 10,240 bytes, 10,000 keys", 0.80, LARGE),
    Case("set10k", "set of 10,240 bytes, 10,000 keys", 0.80, LARGE, "get=0 set=100"),
    Case("get100k", "get of 102,400 bytes, 1,000 keys", 0.80, PAGES),
    Case("set100k", "set of 102,400 bytes, 1,000 keys", 0.80, PAGES, "get=0 set=100"),
]
OTHERS_OF_PROXIES = ["memory"]
MANY_CLIENTS = 500
SERVERS_OF_A_PROXY = 2


class Load:
    """The load program, connected to a server: one process of it, or more that share its connections."""

    def __init__(self, program, server, processor, data, words, parts=1):
        settings = dict(word.split("=") for word in words.split())
        connections = int(settings.pop("connections", CONNECTIONS))
        rest = [f"keys={data.keys}", f"size={data.size}", *(f"{name}={number}" for name, number in settings.items())]
        self.processes = []
        for part in range(parts):
            share = (connections + part) // parts
            line = [program, str(server.port), f"connections={share}", *rest]
            self.processes.append(subprocess.Popen(line, stdin=subprocess.PIPE, stdout=subprocess.PIPE, text=True))
            pin(self.processes[-1].pid, processor)

    def tell(self, line):
        """Gives each process a line, and returns the requests that they made in all and the seconds that the slowest took."""
        for each in self.processes:
            each.stdin.write(line + "\n")
            each.stdin.flush()
        answers = [each.stdout.readline().split() for each in self.processes]
        if any(len(answer) != 2 for answer in answers):
            raise SystemExit("bench/serve.py: the load ended")
        return sum(int(answer[0]) for answer in answers), max(float(answer[1]) for answer in answers)

    def __enter__(self):
        return self

    def __exit__(self, *_):
        for each in self.processes:
            each.kill()
            each.wait()
            each.stdin.close()
            each.stdout.close()


class Scrapes:
    """Asks a listener of operators for /metrics once a second, in a thread of its own."""

    def __init__(self):
        self.port, self.asked, self.answered = free_port(), 0, 0
        self.ended, self.thread = threading.Event(), threading.Thread(target=self.ask)

    def words(self):
        """The words for the program that is scraped."""
        return ["--admin", f"{HOST}:{self.port}"]

    def ask(self):
        while not self.ended.wait(1):
            self.asked += 1
            with connected(self.port) as connection:
                connection.sendall(b"GET /metrics HTTP/1.1\r\nHost: localhost\r\n\r\n")
                answer = b"".join(iter(lambda: connection.recv(65536), b""))
            self.answered += b"\nmemcached_up 1\n" in answer

    def __enter__(self):
        self.thread.start()
        return self

    def __exit__(self, *_):
        self.ended.set()
        self.thread.join()
        if self.answered < max(self.asked, 1):
            raise SystemExit(f"bench/serve.py: {self.answered} of {self.asked} scrapes were answered")


class Round(NamedTuple):
    requests: int
    seconds: float
    processor: float
    user: float
    system: float
    behind: float

    def cost(self):
        return self.processor / self.requests * 1e9

    def cost_of_servers(self):
        """The time that the servers behind a proxy spent on a request."""
        return self.behind / self.requests * 1e9


def pin(pid, processor):
    """Keeps all threads of a process on a processor; on a machine of one processor nothing is kept."""
    if processor is not None:
        for thread in pathlib.Path(f"/proc/{pid}/task").iterdir():
            os.sched_setaffinity(int(thread.name), {processor})


def processors():
    """Processors of as many cores as there are: the first is for what is measured, the second for the load, the others for servers behind a
    proxy. There are none if there is only one."""
    cores = {}
    for processor in sorted(os.sched_getaffinity(0), reverse=True):
        siblings = pathlib.Path(f"/sys/devices/system/cpu/cpu{processor}/topology/thread_siblings_list")
        cores.setdefault(siblings.read_text() if siblings.exists() else str(processor), processor)
    return list(cores.values()) if len(cores) > 1 else []


class Pair:
    """Both servers, filled with the same items."""

    def __init__(self, bench, data):
        self.bench, self.data, self.behind = bench, data, []
        self.stack = contextlib.ExitStack()
        with self.stack:
            self.measured = self.start()
            for each in self.measured:
                pin(each.process.pid, bench.processor(0))
            self.empty = [each.memory() for each in self.measured]
            for each in self.measured:
                self.fill(each)
            self.stack = self.stack.pop_all()

    def start(self):
        return self.started(self.server)

    def started(self, begin):
        """Both programs; the first one is scraped, if that is asked for."""
        if not self.bench.scrape:
            return [begin(self.bench.programs[0], self.bench.first), begin(self.bench.programs[1])]
        scrapes = Scrapes()
        first = begin(self.bench.programs[0], [*self.bench.first, *scrapes.words()])
        self.stack.enter_context(scrapes)
        return [first, begin(self.bench.programs[1])]

    def server(self, program, words=()):
        budget = self.data.keys * (KEY_SIZE + self.data.size + COST_OF_AN_ITEM) * 11 // 10
        words = [*self.bench.words_of(program), *words]
        return self.stack.enter_context(Server(program, budget, self.data.keys * 11 // 10, words=words))

    def load(self, each, words, parts=1):
        return Load(self.bench.load, each, self.bench.processor(1), self.data, words, parts)

    def fill(self, each):
        with self.load(each, "connections=10 pipeline=64 get=0 set=100") as load:
            load.tell("fill")

    def round(self, each, load, seconds):
        user, system = each.user_and_system()
        processor, behind = each.processor_time(), sum(server.processor_time() for server in self.behind)
        requests, took = load.tell(f"run {seconds}")
        processor = each.processor_time() - processor
        behind = sum(server.processor_time() for server in self.behind) - behind
        user_now, system_now = each.user_and_system()
        return Round(requests, took, processor, user_now - user, system_now - system, behind)

    def measure(self, case):
        """The rounds of a case, of each of both; which is first changes from round to round."""
        rounds = [[], []]
        with contextlib.ExitStack() as stack:
            loads = [stack.enter_context(self.load(each, case.words, self.bench.loops)) for each in self.measured]
            for each, load in zip(self.measured, loads):
                self.round(each, load, WARM_UP)
            for number in range(self.bench.rounds):
                for at in (0, 1) if number % 2 == 0 else (1, 0):
                    rounds[at].append(self.round(self.measured[at], loads[at], self.bench.seconds))
        return rounds

    def __enter__(self):
        return self

    def __exit__(self, *_):
        self.stack.close()


class PairOfProxies(Pair):
    """Both proxies, in front of the same servers."""

    def start(self):
        self.behind = [self.server(self.bench.server) for _ in range(SERVERS_OF_A_PROXY)]
        for number, server in enumerate(self.behind, 2):
            pin(server.process.pid, self.bench.processor(number))
        self.addresses = [server.address for server in self.behind]
        return self.started(self.proxy)

    def proxy(self, program, words=()):
        return self.stack.enter_context(Proxy(program, self.addresses, words))


class Bench:
    """The programs that are measured, and the processors that they run on."""

    def __init__(self, asked, folder, store):
        self.server, self.store, self.is_of_proxies = asked.server, store, asked.through is not None
        self.programs = [asked.through or asked.server, asked.beside]
        self.seconds, self.rounds, self.scrape = asked.seconds, asked.rounds, asked.scrape
        self.first = ["--lost", "missed"] if asked.missed else []
        self.processors, self.loops = ([], 2) if asked.free else (processors(), 1)
        self.load = str(folder / "load")
        subprocess.run(["cc", "-O2", "-o", self.load, str(HERE / "load.c"), "-lm"], check=True)

    def processor(self, number):
        """One of the processors: of those beyond the first two there may be one, which the servers then share, or none."""
        if number < len(self.processors):
            return self.processors[number]
        return self.processors[2] if len(self.processors) > 2 else None

    def words_of(self, program):
        """The words for SERVER's store, if it is not the default."""
        return ["--store", self.store] if program == self.server and self.store != STORES[0] else []

    def pair(self, data):
        return (PairOfProxies if self.is_of_proxies else Pair)(self, data)


def cost_told(rounds):
    """Nanoseconds of a request, with those of its own code and of the kernel; and how busy the server was."""
    cost = statistics.median(each.cost() for each in rounds)
    user, system = sum(each.user for each in rounds), sum(each.system for each in rounds)
    own = cost * user / (user + system or 1)
    busy = sum(each.processor for each in rounds) / sum(each.seconds for each in rounds)
    return f"{cost:,.0f} ({own:,.0f} + {cost - own:,.0f}) | {busy:.0%}"


def servers_told(rounds):
    return f"{statistics.median(each.cost_of_servers() for each in rounds):,.0f}"


def row_of(case, rounds, is_of_proxies):
    low, ratio, high = statistics.quantiles((ours.cost() / theirs.cost() for ours, theirs in zip(*rounds)), n=4)
    told = [case.told, cost_told(rounds[0]), cost_told(rounds[1]), f"{ratio:.2f} ({low:.2f} to {high:.2f})"]
    told.append("" if case.wanted is None else f"{case.wanted:.2f}")
    told += map(servers_told, rounds) if is_of_proxies else []
    return f"| {' | '.join(told)} |"


def memory_rows(pair, names):
    for server, name, empty in zip(pair.measured, names, pair.empty):
        filled = server.memory()
        grown = (filled - empty) / pair.data.keys
        yield f"| {name} | {empty / 2**20:.1f} | {filled / 2**20:.1f} | {grown:.0f} | {WANTED_BYTES_AN_ITEM} |"


def memory_rows_of_proxies(pair, names):
    """The resident memory of each when it was started, while 500 clients load it by gets, and once they are gone."""
    for proxy, name, empty in zip(pair.measured, names, pair.empty):
        with pair.load(proxy, f"connections={MANY_CLIENTS} pipeline=8") as load:
            pair.round(proxy, load, 4 * WARM_UP)
            loaded = proxy.memory()
        time.sleep(SECONDS_TO_REST)
        most = max(loaded, proxy.memory("VmHWM"))
        told = " | ".join(f"{each / 2**20:.1f}" for each in (empty, loaded, most, proxy.memory()))
        yield f"| {name} | {told} |"


def flush_once(server):
    """Milliseconds from a flush_all to the answer of a get that another connection sent after it, and of its next get."""
    get = b"get key-0000000000000000\r\n"
    with connected(server.port) as flusher, connected(server.port) as other:
        for connection in (flusher, other):
            connection.sendall(b"version\r\n")
            connection.recv(100)
        start = time.perf_counter()
        flusher.sendall(b"flush_all\r\n")
        other.sendall(get)
        first = other.recv(4096)
        answered = time.perf_counter()
        other.sendall(get)
        second = other.recv(4096)
        end = time.perf_counter()
        flushed = flusher.recv(100)
    if (second, flushed) != (b"END\r\n", b"OK\r\n") or not first.endswith(b"END\r\n"):
        raise SystemExit(f"bench/serve.py: to flush_all and two gets came {flushed!r}, {first!r}, {second!r}")
    return (answered - start) * 1e3, (end - answered) * 1e3


def flush_rows(pair, names):
    for server, name in zip(pair.measured, names):
        times = [flush_once(server)]
        while len(times) < FLUSHES:
            pair.fill(server)
            times.append(flush_once(server))
        held, then = (", ".join(f"{each:.2f}" for each in column) for column in zip(*times))
        yield f"| {name} | {held} | {then} |"


def told_machine(bench, versions):
    models = [line for line in pathlib.Path("/proc/cpuinfo").read_text().splitlines() if line.startswith("model name")]
    model = models[0].partition(": ")[2] if models else platform.machine()
    memory = os.sysconf("SC_PHYS_PAGES") * os.sysconf("SC_PAGE_SIZE") / 2**30
    where = f"nothing was kept on a processor, {bench.loops} processes loaded"
    if bench.processors:
        what = "proxies" if bench.is_of_proxies else "servers"
        where = f"{what} on processor {bench.processor(0)}, the load on {bench.processor(1)}"
        if bench.is_of_proxies:
            where += f", the servers behind on {bench.processor(2)} and {bench.processor(3)}"
    print(f"{datetime.datetime.now():%Y-%m-%d %H:%M}, {os.cpu_count()} processors ({model}), {memory:.0f} GB, {where};")
    print(f"Linux {platform.release()}; {'; '.join(versions)}; {bench.rounds} rounds of {bench.seconds} seconds.")
    print(f"Load of the machine at the start: {os.getloadavg()[0]:.2f}.\n")


def names_of(bench):
    names = [" ".join([pathlib.Path(program).name, *bench.words_of(program)]) for program in bench.programs]
    names[0] = " ".join([names[0], *bench.first])
    if bench.scrape:
        names[0] += ", scraped"
    return names if names[0] != names[1] else [f"{names[0]} 1", f"{names[1]} 2"]


def version_of(program):
    """A version, as a server reports it."""
    with Server(program) as server:
        return f"{pathlib.Path(program).name} answers {server.version()}"


def versions(bench):
    if not bench.is_of_proxies:
        return [version_of(program) for program in bench.programs]
    proxy = subprocess.run([bench.programs[1], "--version"], capture_output=True, text=True)
    return [version_of(bench.server), *(proxy.stdout + proxy.stderr).split("\n")[:1]]


def heads_told(bench, names):
    first, second = names
    heads = ["Case", f"{first}, ns (its code + kernel)", "busy", f"{second}, ns", "busy", "Ratio", "Wanted"]
    if bench.is_of_proxies:
        heads += [f"servers behind {first}, ns", f"behind {second}, ns"]
    print(f"| {' | '.join(heads)} |\n" + "|---" * len(heads) + "|")


def others_told(others, is_of_proxies):
    if "memory" in others and is_of_proxies:
        print(f"\n| {MANY_CLIENTS} clients | MB at the start | MB under load | most MB ever | MB when they are gone |")
        print("|---|---|---|---|---|", *others["memory"], sep="\n")
    elif "memory" in others:
        print("\n| 1,000,000 items of 20 and 100 bytes | MB when empty | MB | bytes an item | Wanted, at most |")
        print("|---|---|---|---|---|", *others["memory"], sep="\n")
    if "flush" in others:
        print("\n| flush_all of 1,000,000 items | ms to the answer of another's get | ms of its next get |")
        print("|---|---|---|", *others["flush"], sep="\n")


def run(bench, all_cases, wanted):
    names = names_of(bench)
    told_machine(bench, versions(bench))
    heads_told(bench, names)
    rows = {"memory": memory_rows_of_proxies if bench.is_of_proxies else memory_rows, "flush": flush_rows}
    data_of = {"memory": Data() if bench.is_of_proxies else MILLION, "flush": MILLION}
    others = {}
    for data in (Data(), LARGE, PAGES, FILES, MILLION):
        cases = [case for case in all_cases if case.data == data and case.name in wanted]
        asked = [name for name in wanted if data_of.get(name) == data]
        if not cases and not asked:
            continue
        with bench.pair(data) as pair:
            if "memory" in asked:
                others["memory"] = list(rows["memory"](pair, names))
            for case in cases:
                print(row_of(case, pair.measure(case), bench.is_of_proxies), flush=True)
            if "flush" in asked:
                others["flush"] = list(rows["flush"](pair, names))
    others_told(others, bench.is_of_proxies)
    print(f"\nLoad of the machine at the end: {os.getloadavg()[0]:.2f}.")


def main():
    words = argparse.ArgumentParser(description=__doc__, formatter_class=argparse.RawDescriptionHelpFormatter)
    words.add_argument("server", metavar="SERVER")
    words.add_argument("--through", metavar="PROXY")
    words.add_argument("--stores", default=",".join(STORES), help="the kinds of SERVER's store (table,lru)")
    words.add_argument("--beside", metavar="PROGRAM", help="memcached, or for a proxy nutcracker")
    words.add_argument("--cases", help="the names of some, with commas; all, where none are given")
    words.add_argument("--seconds", type=float, help="of a round, for each server (0.25, and 1 with --scrape)")
    words.add_argument("--rounds", type=int, default=30, help="of a case (30)")
    words.add_argument("--free", action="store_true", help="keep nothing on a processor, and load by two processes")
    words.add_argument("--scrape", action="store_true", help="ask SERVER, or PROXY, for /metrics once a second")
    words.add_argument("--missed", action="store_true", help="PROXY has --lost missed")
    asked = words.parse_args()
    asked.seconds = asked.seconds or (1 if asked.scrape else 0.25)
    cases, others = (CASES_OF_PROXIES, OTHERS_OF_PROXIES) if asked.through else (CASES, OTHERS)
    names = [case.name for case in cases] + others
    wanted = asked.cases.split(",") if asked.cases else names
    if not set(wanted) <= set(names):
        words.error(f"the cases are {', '.join(names)}")
    stores = asked.stores.split(",") if asked.through is None else STORES[:1]
    if not set(stores) <= set(STORES):
        words.error(f"the stores are {', '.join(STORES)}")
    if asked.rounds < 2:
        words.error("a case has two rounds or more")
    if asked.scrape and (asked.seconds < 1 or is_memcached(asked.server)):
        words.error("--scrape is of mc_serverd or mc_proxyd, in rounds of a second or more")
    if asked.missed and asked.through is None:
        words.error("--missed is of a proxy: --through PROXY")
    beside = "nutcracker" if asked.through else "memcached"
    asked.beside = asked.beside or shutil.which(beside, path=os.environ["PATH"] + ":/usr/sbin")
    if asked.beside is None:
        words.error(f"{beside} is not installed (Debian: {beside})")
    with tempfile.TemporaryDirectory() as folder:
        for store in stores:
            run(Bench(asked, pathlib.Path(folder), store), cases, wanted)


if __name__ == "__main__":
    main()
