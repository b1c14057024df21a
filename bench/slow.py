#!/usr/bin/env python3
"""Measures the time of a proxy while many clients wait with long gets, and a server reads the bytes that are sent to it one by one.

Usage: slow.py PROXY [--clients N] [--keys N] [--cases NAME,NAME ..] [--bytes N] [--segment BYTES] [--sets N] [--seconds S]

PROXY is the built mc_proxyd. The servers are played here: one answers each get with a miss and each set as stored. The slow one reads 512
bytes at a time (--bytes) into as small a buffer as the system gives, and its segments have 1,448 bytes (--segment), as over Ethernet:
so its link gets room in small steps. Each case is played twice, with that server and with one that reads at once, for S seconds (20) at
most. 400 clients (--clients) send a get of 4,000 keys each:

    own     all keys are the slow server's
    last    the last key is the slow server's, the others are of a server that reads at once. Another client sends sets of 10,000 bytes (2,000)
            to the slow one, so that as much is unsent on its link as it may have
    others  all keys are of another server, which reads next to nothing, and on whose link as much is unsent as it may have. Another client
            sends as many sets to the slow one

The table has the requests that were answered (of `others` the sets alone: the gets wait to the end), the time, the processor time of the
proxy, that time for each request that was answered, and its ratio to that with the server that reads at once. It also has the longest wait of
another client, which asks for the version a hundred times a second. It is printed in Markdown.
"""

import argparse
import contextlib
import datetime
import multiprocessing
import pathlib
import selectors
import socket
import sys
import time
from typing import NamedTuple

HERE = pathlib.Path(__file__).resolve().parent
sys.path.insert(0, str(HERE.parent / "tests" / "lib"))

from checks import PATIENCE, allow_many_files, is_served
from filling import VALUES
from rings import Ring
from servers import HOST, Proxy, connected, free_port

SIZE_OF_A_SET = 10_000
MARKING_SETS = 1_600  # this many fill a link up to its mark of 8 MiB, beside what the system takes
SECONDS_TO_MARK = 1
SMALLEST = 1  # bytes of a buffer: the system gives its least
BEGINNING = "key-00000"
ANSWERS = {b"g": b"END\r\n", b"s": b"", b"v": b"STORED\r\n"}  # to a line, by its first byte


def answer_to(line):
    """The answer of a played server: also to what a proxy asks before it uses the server."""
    return b"VERSION 1\r\n" if line == b"version" else ANSWERS[line[:1]]


class Speed(NamedTuple):
    """How a played server reads."""

    piece: int = 1 << 20
    pause: float = 0
    is_slow: bool = False


AT_ONCE = Speed()
PAUSE_OF_THE_OTHER = 0.01


class Played:
    """A server that is played by a process of its own."""

    def __init__(self, speed, segment):
        self.listener = socket.socket()
        self.listener.setsockopt(socket.SOL_SOCKET, socket.SO_REUSEADDR, 1)
        if speed.is_slow:
            self.listener.setsockopt(socket.SOL_SOCKET, socket.SO_RCVBUF, SMALLEST)
            self.listener.setsockopt(socket.IPPROTO_TCP, socket.TCP_MAXSEG, segment)
        self.port = free_port()
        self.listener.bind((HOST, self.port))
        self.listener.listen()
        self.address = f"{HOST}:{self.port}"
        self.process = multiprocessing.Process(target=self.play, args=(speed,), daemon=True)
        self.process.start()

    def play(self, speed):
        link, _ = self.listener.accept()
        link.setsockopt(socket.IPPROTO_TCP, socket.TCP_NODELAY, 1)
        rest = b""
        with contextlib.suppress(ConnectionError):
            while piece := link.recv(speed.piece):
                *lines, rest = (rest + piece).split(b"\r\n")
                link.sendall(b"".join(answer_to(line) for line in lines))
                time.sleep(speed.pause)

    def __enter__(self):
        return self

    def __exit__(self, *_):
        self.process.kill()
        self.process.join()
        self.listener.close()


class Client:
    """A client that sends a text, and awaits answers that are equal."""

    def __init__(self, proxy, text, answer, count):
        self.connection = proxy.connected()
        self.connection.setblocking(False)
        self.left, self.answer, self.count, self.came = memoryview(text), answer, count, 0

    def answered(self):
        return self.came // len(self.answer)

    def wants(self):
        """The events that its connection waits for."""
        writing = selectors.EVENT_WRITE if len(self.left) else 0
        return writing | (selectors.EVENT_READ if self.answered() < self.count else 0)

    def go_on(self, events):
        with contextlib.suppress(BlockingIOError):
            if events & selectors.EVENT_WRITE:
                self.left = self.left[self.connection.send(self.left) :]
        with contextlib.suppress(BlockingIOError):
            if events & selectors.EVENT_READ:
                piece = self.connection.recv(65_536)
                if not piece or not (self.answer * 2).startswith(piece[: len(self.answer)], self.came % len(self.answer)):
                    raise SystemExit(f"bench/slow.py: to a client came {piece[:100]!r}")
                self.came += len(piece)


def exchange(clients, seconds):
    """Lets clients send and receive until all are answered, or the time is up."""
    end = time.monotonic() + seconds
    with selectors.DefaultSelector() as selector:
        for client in clients:
            if client.wants():
                selector.register(client.connection, client.wants(), client)
        while selector.get_map() and (left := end - time.monotonic()) > 0:
            for key, events in selector.select(left):
                key.data.go_on(events)
                if key.data.wants() == 0:
                    selector.unregister(key.fileobj)
                elif key.data.wants() != key.events:
                    selector.modify(key.fileobj, key.data.wants(), key.data)


def watch(port, ended, told):
    """Asks for the version until it is over, and returns the longest wait in milliseconds."""
    longest = 0
    with connected(port, timeout=60) as connection:
        while not ended.is_set():
            start = time.perf_counter()
            is_served(connection)
            longest = max(longest, (time.perf_counter() - start) * 1e3)
            time.sleep(0.01)
    told.send(longest)


class Trial:
    """A proxy in front of played servers, of which the first is slow or not, and the clients of a case."""

    def __init__(self, asked, case, speed):
        slower = Speed(asked.bytes, PAUSE_OF_THE_OTHER, True)
        speeds = {"own": [speed], "last": [speed, AT_ONCE], "others": [speed, slower]}[case]
        self.asked, self.case = asked, case
        with contextlib.ExitStack() as stack:
            self.servers = [stack.enter_context(Played(each, asked.segment)) for each in speeds]
            addresses = [server.address for server in self.servers]
            self.proxy = stack.enter_context(Proxy(asked.proxy, addresses, ["--timeout", "0"]))
            self.ring = Ring(addresses)
            get = b"get %b\r\n" % b" ".join(self.keys())
            self.waiting = [self.client(stack, get, ANSWERS[b"g"], 1) for _ in range(asked.clients)]
            self.storing = self.sets(stack, 0, asked.sets)
            self.marking = self.sets(stack, 1, MARKING_SETS) if case == "others" else None
            self.stack = stack.pop_all()

    def client(self, stack, *words):
        client = Client(self.proxy, *words)
        stack.enter_context(client.connection)
        return client

    def keys(self):
        """The keys of the clients that wait."""
        if self.case == "last":
            return self.ring.keys(1, self.asked.keys - 1, BEGINNING) + self.ring.keys(0, 1, BEGINNING)
        return self.ring.keys(1 if self.case == "others" else 0, self.asked.keys, BEGINNING)

    def sets(self, stack, place, count):
        """A client that stores values at the server of a place."""
        one = b"set %b 0 0 %d\r\n%b\r\n" % (self.ring.key(place), SIZE_OF_A_SET, VALUES[:SIZE_OF_A_SET])
        return self.client(stack, one * count, ANSWERS[b"v"], count)

    def play(self):
        """Plays the case, and returns the clients that are measured."""
        if self.case == "own":
            exchange(self.waiting, self.asked.seconds)
            return self.waiting
        if self.case == "last":
            exchange([self.storing], SECONDS_TO_MARK)
            exchange([self.storing, *self.waiting], self.asked.seconds)
            return [self.storing, *self.waiting]
        exchange([self.storing], self.asked.seconds)
        return [self.storing]

    def prepare(self):
        """Prepares the case before the time is taken: of `others` a link at its mark, and clients that wait for it."""
        if self.marking:
            exchange([self.marking], SECONDS_TO_MARK)
            exchange(self.waiting, SECONDS_TO_MARK)

    def measured(self):
        """The requests that were answered, the seconds, those of the processor, and the longest wait of another client."""
        self.prepare()
        ended, (mine, its) = multiprocessing.Event(), multiprocessing.Pipe(duplex=False)
        watcher = multiprocessing.Process(target=watch, args=(self.proxy.port, ended, its), daemon=True)
        watcher.start()
        start, before = time.monotonic(), self.proxy.processor_time()
        answered = sum(client.answered() for client in self.play())
        seconds, processor = time.monotonic() - start, self.proxy.processor_time() - before
        ended.set()
        longest = mine.recv() if mine.poll(6 * PATIENCE) else float("inf")
        return answered, seconds, processor, longest

    def __enter__(self):
        return self

    def __exit__(self, *_):
        self.stack.close()


def rows(asked, case):
    """Both rows of a case."""
    costs = []
    for name, speed in (("at once", AT_ONCE), (f"{asked.bytes} bytes at a time", Speed(asked.bytes, 0, True))):
        with Trial(asked, case, speed) as trial:
            answered, seconds, processor, longest = trial.measured()
        costs.append(processor / max(answered, 1) * 1e3)
        told = [f"{answered:,}", f"{seconds:.2f}", f"{processor:.2f}", f"{costs[-1]:.3f}", f"{costs[-1] / costs[0]:.2f}", f"{longest:,.1f}"]
        print("| " + " | ".join([case, name, *told]) + " |", flush=True)


def main():
    words = argparse.ArgumentParser(description=__doc__, formatter_class=argparse.RawDescriptionHelpFormatter)
    words.add_argument("proxy", metavar="PROXY")
    words.add_argument("--clients", metavar="N", type=int, default=400)
    words.add_argument("--keys", metavar="N", type=int, default=4_000)
    words.add_argument("--cases", metavar="NAME,NAME", default="own,last,others")
    words.add_argument("--bytes", metavar="N", type=int, default=512)
    words.add_argument("--segment", metavar="BYTES", type=int, default=1_448)
    words.add_argument("--sets", metavar="N", type=int, default=2_000)
    words.add_argument("--seconds", metavar="S", type=float, default=20)
    asked = words.parse_args()
    allow_many_files()
    print(f"{datetime.date.today()}, {asked.clients} clients with a get of {asked.keys:,} keys each:\n")
    head = ["Case", "The server reads", "Answered", "Seconds", "of the processor", "ms a request", "Ratio", "Longest wait of another, ms"]
    print("| " + " | ".join(head) + " |\n|" + "---|" * len(head))
    for case in asked.cases.split(","):
        rows(asked, case)


if __name__ == "__main__":
    main()
