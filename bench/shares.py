#!/usr/bin/env python3
"""Plays clients that take more than their share, and shows what another client notices: beside memcached and nutcracker.

Usage: shares.py CHECKOUT [CHECKOUT ..] [--only NAME,NAME ..] [--clients N] [--part P] [--seconds S] [--peers WHICH] [--most GB] [--markdown]

CHECKOUT has the built crates/mc_serverd/out/mc_serverd and crates/mc_proxyd/out/mc_proxyd (without the latter, servers alone are played);
with several, their rows stand side by side.
Debian's memcached with one thread and nutcracker over memcached are played beside them: --peers none leaves them out, --peers only plays
nothing else. The streams are those of share_streams.py; --only takes names, or patterns (`append*`). Each is played to a program that
was started for it, for S seconds (3), by its own number of clients, or by N. A proxy has two servers.

Meanwhile another client, on a connection of its own, sends a small get each 5 ms, whether or not those before are answered. Through a
proxy it asks a server whose items the attackers leave alone. After S seconds it sends no more, and waits for its answers, for two seconds
at most. The table has

    median, longest   how long its gets waited, in milliseconds; "over" if some were not answered at all
    sent              the megabytes that the attackers sent
    a byte            nanoseconds of the program's processor time, its own and the kernel's for it, for each byte that it has read of the
                      attackers. The other client's gets are in it: of weight if the attackers send little
    MB before, most   resident memory of the program as the stream began, and the most that it ever had

and notes: if the attackers could not send what they should, how many connections the program closed, how many gets were answered by
an error. A proxy's servers count for nothing but the waits.

Further tables have the answers in each second while one of three servers stands still, and what two questions were answered: whether
commands in the body of a browser's message are executed, and how many answers follow if a byte out of band is among three `mn`.

--part P plays this part of the clients and keys of streams that take much memory. A program that takes more than --most (4) GB is ended, and the
row says so. On four processors or more the program that is measured has one of its own, or two if it is a server, the attackers one, the other
client one, and the servers behind a proxy one. All traffic stays on 127.0.0.1. --markdown prints rows for docs/PERF.md.
"""

import argparse
import contextlib
import datetime
import fnmatch
import os
import pathlib
import select
import shutil
import signal
import socket
import subprocess
import sys
import time
from typing import NamedTuple

HERE = pathlib.Path(__file__).resolve().parent
sys.path.insert(0, str(HERE.parent / "tests" / "lib"))
sys.path.insert(0, str(HERE))

from checks import allow_many_files
from pause_loads import keep, lines
from rings import Ring
from servers import Proxy, Server, connected, is_nutcracker
from share_clients import Askers, Attack, Deaf, Dripping, Play, Silent, Watch
from share_streams import KEYS_OF_A_LONG_LINE, LETTERS, MEGABYTE, PROXY, SERVER, STREAMS, put

MOST_ITEMS = 400_000
STORES_AT_ONCE = 100
SERVERS_OF_A_PROXY = 2
KEYS_BEHIND, MEGABYTES_BEHIND = 32_700, 54
MOST_PATIENCE = 2  # seconds after a stream in which the other client's gets may still be answered
SECONDS_TO_MARK = 0.5  # a proxy that takes nothing for that long has a link at its mark
BEFORE, STOPPED, AFTER = 2, 6, 3  # seconds
GETS_OF_A_SERVER = 10
EJECTING = {"timeout": 1000, "auto_eject_hosts": "true", "server_retry_timeout": 2000, "server_failure_limit": 1}
SECONDS_TO_ANSWER = 0.15
FIRST_LINES = ["POST", "touch", "gets", "gat", "mg", "md", "version", "mn"]


class Ended(Exception):
    """A program has ended, or was ended."""


FAILURES = (Ended, OSError, RuntimeError)


class Family(NamedTuple):
    """Programs that are measured alike: a server, a proxy over servers of this kind, and what tells them from others."""

    server: str
    proxy: str
    label: str = ""

    def has_proxy_for(self, stream):
        return pathlib.Path(self.proxy).is_file() and not (stream.is_meta and is_nutcracker(self.proxy))

    def name(self, place):
        return " ".join([pathlib.Path(self.server if place == SERVER else self.proxy).name, self.label]).strip()


class Figures(NamedTuple):
    waits: object
    sent: object
    wanted: int
    seconds: float
    before: int
    most: int
    paid: int  # bytes whose processor time is counted


class Table:
    """Prints rows as they are measured, in Markdown or in columns."""

    def __init__(self, heads, widths, in_markdown):
        self.widths, self.in_markdown = widths, in_markdown
        print()
        self.row(*heads)
        if in_markdown:
            print("|" + "---|" * len(heads), flush=True)

    def row(self, *cells):
        if self.in_markdown:
            print("| " + " | ".join(map(str, cells)) + " |", flush=True)
            return
        padded = (f"{cell:{'<' if width < 0 else '>'}{abs(width)}}" for cell, width in zip(map(str, cells), self.widths))
        print("  ".join(padded).rstrip(), flush=True)


def store_all(port, pairs):
    with connected(port, timeout=60) as connection:
        for first in range(0, len(pairs), STORES_AT_ONCE):
            batch = pairs[first : first + STORES_AT_ONCE]
            connection.sendall(b"".join(put(*pair) for pair in batch))
            answers = lines(connection, len(batch))
            if answers != b"STORED\r\n" * len(batch):
                raise Ended(f"to stores came {answers[:60]!r}")


def memory_of(program, what="VmRSS"):
    try:
        return program.memory(what)
    except (RuntimeError, OSError):
        raise Ended(f"it ended with status {program.process.wait(5)}")


class Bench:
    """What is asked for, and how programs are started and measured."""

    def __init__(self, asked):
        self.seconds, self.part, self.most = asked.seconds, asked.part, asked.most * 2**30
        self.patience = min(asked.seconds, MOST_PATIENCE)

    @contextlib.contextmanager
    def server(self, family, stream, part="server"):
        megabytes = max(64, stream.budget >> 20)
        with Server(family.server, stream.budget, MOST_ITEMS, megabytes=megabytes, stderr=subprocess.DEVNULL) as server:
            keep(server.process.pid, part)
            yield server

    @contextlib.contextmanager
    def proxy(self, family, addresses, words=(), settings=None):
        with Proxy(family.proxy, addresses, words, stderr=subprocess.DEVNULL, settings=settings) as proxy:
            keep(proxy.process.pid, "proxy")
            yield proxy

    @contextlib.contextmanager
    def program(self, family, stream, place):
        """A program that is measured, and a key for the other client."""
        if place == SERVER:
            with self.server(family, stream) as server:
                yield server, b"w"
            return
        with contextlib.ExitStack() as stack:
            behind = [stack.enter_context(self.server(family, stream, "behind")) for _ in range(SERVERS_OF_A_PROXY)]
            ring = Ring([each.address for each in behind])
            proxy = stack.enter_context(self.proxy(family, [each.address for each in behind]))
            yield proxy, ring.keys(1 - ring.owner(b"k"), 1, "w")[0]

    def await_report(self, helper, program, seconds):
        """What a process reports, if that is in time. Meanwhile the program may not take more memory than it should."""
        end = time.monotonic() + seconds
        while time.monotonic() < end:
            if helper.mine.poll(0.05):
                return helper.report(0) or self.fail()
            if memory_of(program) > self.most:
                program.process.kill()
                raise Ended(f"it took more than {self.most / 2**30:.1f} GB, and was ended")
        return self.fail()

    def fail(self):
        raise Ended("a client of this script failed, or reports nothing")

    def exchange(self, program, key, clients, play):
        """The figures of a program while these clients play, and another one gets a key."""
        before = memory_of(program)
        watch = Watch(program.port, b"get %b\r\n" % key, self.patience)
        with Attack(program.port, clients, play, self.seconds) as attack, watch:
            clock = program.processor_time()
            watch.begin()
            attack.begin()
            sent = self.await_report(attack, program, self.seconds + 20)
            spent = program.processor_time() - clock
            watch.end()
            waits = self.await_report(watch, program, self.patience + 20)
            most = memory_of(program, "VmHWM")
        wanted = clients * (play.whole() if not play.is_repeated or play.piece > 1 else 1)
        paid = sent.read - clients * len(play.head)
        return Figures(waits, sent, wanted, spent, before, most, paid)

    def plain(self, family, stream, place, clients):
        """A stream whose attackers all play the same."""
        with self.program(family, stream, place) as (program, key):
            store_all(program.port, [*stream.stores, (key, b"v")])
            return self.exchange(program, key, clients, stream.makes(self.part))

    @contextlib.contextmanager
    def odd_pool(self, family, stream, odd, words, settings=None):
        """A proxy in front of a played server, which is place 0, and of a good one. Returns it, its ring and a key of the good one."""
        with odd() as played, self.server(family, stream, "behind") as good:
            addresses = [played.address, good.address]
            ring = Ring(addresses)
            with self.proxy(family, addresses, words, settings) as proxy:
                key = ring.keys(1, 1, "w")[0]
                store_all(proxy.port, [(key, b"v")])
                yield proxy, ring, key

    def behind_slow(self, family, stream, place, clients):
        with self.odd_pool(family, stream, Silent, ["--timeout", "0"], {"timeout": 60_000}) as (proxy, ring, key):
            letters = [letter for letter in LETTERS if ring.owner(letter) == 1]
            get = b"get %b\r\n" % b" ".join(letters[at % len(letters)] for at in range(KEYS_BEHIND))
            times = max(1, round(self.part * MEGABYTES_BEHIND * 1e6 / len(get)))
            head = b"get %b\r\n" % ring.key(0)
            return self.exchange(proxy, key, clients, Play(get * times, False, head))

    def at_mark(self, family, stream, place, clients):
        with self.odd_pool(family, stream, Deaf, ["--timeout", "0"], {"timeout": 60_000}) as (proxy, ring, key):
            letters = [letter for letter in LETTERS if ring.owner(letter) == 1]
            own = next((letter for letter in LETTERS if ring.owner(letter) == 0), ring.key(0))
            with connected(proxy.port, timeout=SECONDS_TO_MARK) as marking, contextlib.suppress(TimeoutError):
                for _ in range(100):
                    marking.sendall(put(own, MEGABYTE))
            head = b"get %b %b\r\n" % (b" ".join(letters[at % len(letters)] for at in range(KEYS_OF_A_LONG_LINE - 1)), own)
            return self.exchange(proxy, key, clients, Play(b"x", head=head, piece=1, pause=0.002))

    def drip(self, family, stream, place, clients):
        with self.odd_pool(family, stream, Dripping, ["--timeout", "1000"], {"timeout": 1_000}) as (proxy, ring, _):
            return self.exchange(proxy, ring.key(0), clients, Play(b"\n"))

    def measured(self, family, stream, place, clients):
        measures = {"behind-slow": self.behind_slow, "at-mark": self.at_mark, "drip": self.drip}
        return measures.get(stream.name, self.plain)(family, stream, place, clients)

    def stopped(self, family, stream, clients):
        """Answers of each second, good ones and errors, around six seconds in which one of three servers stands still."""
        with contextlib.ExitStack() as stack:
            behind = [stack.enter_context(self.server(family, stream, "behind")) for _ in range(3)]
            ring = Ring([each.address for each in behind])
            proxy = stack.enter_context(self.proxy(family, [each.address for each in behind], (), EJECTING))
            keys = [key for keys in zip(*(ring.keys(place, GETS_OF_A_SERVER) for place in range(3))) for key in keys]
            store_all(proxy.port, [(key, b"v") for key in keys])
            seconds = BEFORE + STOPPED + AFTER
            with Askers(proxy.port, clients, [b"get %b\r\n" % key for key in keys], seconds) as askers:
                askers.begin()
                time.sleep(BEFORE)
                behind[0].process.send_signal(signal.SIGSTOP)
                time.sleep(STOPPED)
                behind[0].process.send_signal(signal.SIGCONT)
                return askers.report(AFTER + 10)

    def strangers(self, family, stream, place):
        """The first lines of a browser's message whose body was executed."""
        with self.program(family, stream, place) as (program, _):
            executed = []
            for number, word in enumerate(FIRST_LINES):
                body = put(b"stranger-%d" % number, b"x")
                head = f"{word} / HTTP/1.1\r\nHost: {program.address}\r\nContent-Length: {len(body)}\r\n\r\n".encode()
                answers_to(program.port, head + body)
                if b"VALUE" in answers_to(program.port, b"get stranger-%d\r\n" % number):
                    executed.append(word)
            return "body executed after: " + (", ".join(executed) or "none"), ""

    def urgent(self, family, stream, place):
        """How many answers three `mn` have, if a byte out of band is in the middle."""
        with self.program(family, stream, place) as (program, _), connected(program.port, timeout=SECONDS_TO_ANSWER) as client:
            client.sendall(b"mn\r\nmn")
            time.sleep(SECONDS_TO_ANSWER / 3)
            client.send(b"!", socket.MSG_OOB)
            client.sendall(b"\r\nmn\r\n")
            before = program.processor_time()
            answers, is_ended = taken(client)
            spent = (program.processor_time() - before) / SECONDS_TO_ANSWER
            happened = f"{answers.count(b'MN')} answers to 3 `mn`" + (", closed" if is_ended else "")
            return happened, f"its processor was busy for {spent:.0%} of the time" if spent > 0.1 else ""


def taken(client):
    """The bytes that arrive until a client has waited for long enough, and whether its connection has ended."""
    came = b""
    try:
        while select.select([client], [], [], SECONDS_TO_ANSWER)[0]:
            piece = client.recv(65_536)
            if not piece:
                return came, True
            came += piece
    except OSError:
        return came, True
    return came, False


def answers_to(port, text):
    with connected(port, timeout=SECONDS_TO_ANSWER) as client:
        client.sendall(text)
        return taken(client)[0]


def megabytes(size):
    return f"{size / 1e6:,.1f}" if size >= 1e5 or not size else f"{size / 1e6:.4f}"


def milliseconds(number, is_least):
    shown = f"{number:,.1f}" if number < 100 else f"{number:,.0f}"
    return f"over {shown}" if is_least else shown


def notes(figures, clients):
    sent, waits = figures.sent, figures.waits
    noted = []
    if sent.sent < figures.wanted:
        noted.append(f"sent {megabytes(sent.sent)} of {megabytes(figures.wanted)} MB")
    if sent.opened > clients:
        noted.append(f"{sent.opened:,} connections")
    if sent.opened < clients:
        noted.append(f"{clients - sent.opened:,} could not connect")
    if sent.closed:
        noted.append(f"{sent.closed:,} were closed")
    if waits.faults:
        noted.append(f"{waits.faults:,} gets had an error")
    if waits.is_closed:
        noted.append("the other client was closed")
    return "; ".join(noted)


def row_of(figures, clients):
    waits, sent = figures.waits, figures.sent
    is_over = waits.unanswered > 0
    median = milliseconds(waits.median, waits.unanswered > waits.answered)
    cost = f"{figures.seconds / figures.paid * 1e9:,.1f}" if figures.paid > 0 else "–"
    memory = [f"{each / 2**20:,.1f}" for each in (figures.before, figures.most)]
    return median, milliseconds(waits.longest, is_over), megabytes(sent.sent), cost, *memory, notes(figures, clients)


class Run:
    """Plays streams to all programs, and prints the tables."""

    def __init__(self, asked, families, chosen):
        self.asked, self.bench, self.families, self.chosen = asked, Bench(asked), families, chosen
        self.measured_at = [f"{datetime.date.today()}"] if asked.markdown else []

    def table(self, heads, widths):
        more = ["Measured"] if self.asked.markdown else []
        return Table([*heads, *more], widths, self.asked.markdown)

    def all_of(self, stream):
        """The programs to which a stream is played, by place: our own and the other's side by side."""
        for place in stream.places:
            for family in self.families:
                if place == SERVER or family.has_proxy_for(stream):
                    yield place, family

    def clients_of(self, stream):
        for count in [self.asked.clients] if self.asked.clients and any(stream.clients) else stream.clients:
            yield max(1, round(count * self.asked.part)) if stream.is_large and count else count

    def shares(self, streams):
        heads = ["Stream", "Clients", "Program", "Median, ms", "Longest, ms", "Sent, MB", "ns a byte", "MB before", "MB most", "Notes"]
        table = self.table(heads, [-58, 7, -22, 11, 11, 10, 11, 9, 9, -1])
        for stream in streams:
            for clients in self.clients_of(stream):
                for place, family in self.all_of(stream):
                    cells = self.try_it(stream, place, family, clients)
                    table.row(stream.shown(), f"{clients:,}", family.name(place), *cells, *self.measured_at)

    def try_it(self, stream, place, family, clients):
        try:
            return row_of(self.bench.measured(family, stream, place, clients), clients)
        except FAILURES as fault:
            return (*["–"] * 6, f"{fault}")

    def stopped(self, stream):
        heads = ["Program", "Clients", "A second before", *(f"stopped, {at + 1}" for at in range(STOPPED)), *(f"after, {at + 1}" for at in range(AFTER))]
        table = self.table(heads, [-22, 7, 15, *[14] * (STOPPED + AFTER)])
        for clients in self.clients_of(stream):
            for _, family in self.all_of(stream):
                counts = self.bench.stopped(family, stream, clients) or [(0, 0)] * (BEFORE + STOPPED + AFTER)
                cells = (f"{good:,}" + (f" + {bad:,}" if bad else "") for good, bad in counts[BEFORE - 1 :])
                table.row(family.name(PROXY), clients, *cells, *self.measured_at)
        print("\nGood answers, + errors." if not self.asked.markdown else "")

    def questions(self, streams):
        table = self.table(["Stream", "Program", "What happens", "Notes"], [-58, -22, -50, -1])
        asks = {"strangers": self.bench.strangers, "urgent": self.bench.urgent}
        for stream in streams:
            for place, family in self.all_of(stream):
                try:
                    cells = asks[stream.name](family, stream, place)
                except FAILURES as fault:
                    cells = "–", f"{fault}"
                table.row(stream.shown(), family.name(place), *cells, *self.measured_at)

    def all(self):
        others = ("stopped", "strangers", "urgent")
        shares = [each for each in self.chosen if each.name not in others]
        if shares:
            self.shares(shares)
        for each in self.chosen:
            if each.name == "stopped":
                self.stopped(each)
        questions = [each for each in self.chosen if each.name in others[1:]]
        if questions:
            self.questions(questions)


def families_of(asked, words):
    families = []
    for top in asked.checkouts if asked.peers != "only" else []:
        server, proxy = (top / "crates" / crate / "out" / crate for crate in ("mc_serverd", "mc_proxyd"))
        if not server.is_file():
            words.error(f"{server} is not built")
        if not proxy.is_file():
            print(f"{proxy} is not built: it has no rows.")
        families.append(Family(str(server), str(proxy), top.resolve().name if len(asked.checkouts) > 1 else ""))
    if asked.peers != "none":
        path = os.environ["PATH"] + ":/usr/sbin"
        peers = [shutil.which(name, path=path) for name in ("memcached", "nutcracker")]
        if None in peers:
            words.error("memcached or nutcracker is not installed (Debian: memcached, nutcracker); --peers none leaves them out")
        families.append(Family(*peers))
    return families


def main():
    words = argparse.ArgumentParser(description=__doc__, formatter_class=argparse.RawDescriptionHelpFormatter)
    words.add_argument("checkouts", metavar="CHECKOUT", nargs="*", type=pathlib.Path)
    words.add_argument("--only", metavar="NAME,NAME", default="*", help="names of streams, or patterns")
    words.add_argument("--clients", metavar="N", type=int, help="attackers of each stream, in place of its own number")
    words.add_argument("--part", metavar="P", type=float, default=1, help="of the streams that take much memory (1)")
    words.add_argument("--seconds", metavar="S", type=float, default=3, help="of each measurement (3)")
    words.add_argument("--peers", choices=["beside", "none", "only"], default="beside")
    words.add_argument("--most", metavar="GB", type=float, default=4, help="the memory at which a program is ended (4)")
    words.add_argument("--markdown", action="store_true")
    asked = words.parse_args()
    patterns = asked.only.split(",")
    chosen = [each for each in STREAMS if any(fnmatch.fnmatchcase(each.name, pattern) for pattern in patterns)]
    if not chosen:
        words.error(f"the streams are {', '.join(each.name for each in STREAMS)}")
    if not asked.checkouts and asked.peers != "only":
        words.error("a checkout is missing")
    families = families_of(asked, words)
    allow_many_files()
    begun = time.monotonic()
    print(f"{datetime.datetime.now():%Y-%m-%d %H:%M}, {os.cpu_count()} processors, load {os.getloadavg()[0]:.2f}; {asked.seconds:g} seconds of each stream.")
    Run(asked, families, chosen).all()
    print(f"\nLoad of the machine at the end: {os.getloadavg()[0]:.2f}; {time.monotonic() - begun:.0f} seconds in all.")


if __name__ == "__main__":
    main()
