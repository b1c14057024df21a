"""The clients and servers that bench/shares.py plays, each kind in a process of its own.

    with Attack(port, 10, Play(b"mg zz q\\r\\n")) as attack, Watch(port, b"get w\\r\\n") as watch:
        attack.begin(3)
        watch.begin()
        ..the program that listens at the port is measured..

Attackers stop by themselves after their seconds. They then keep their connections until `release`, for a minute at most.
"""

import collections
import contextlib
import fcntl
import multiprocessing
import resource
import select
import selectors
import socket
import statistics
import struct
import termios
import time
from typing import NamedTuple

from chosen import Reading, Stopped
from pause_loads import keep
from servers import connected
from slow import Played, Speed

ALL, NOTHING = -1, 0  # how much of its answers an attacker reads
PIECE = 262_144
UNSENT = 131_072  # bytes of an attacker that the system keeps unsent; it keeps some megabytes more that the program has not read
TICK = 0.01  # seconds between two reads of an attacker that reads slowly
SECONDS_TO_SETTLE = 0.5
MOST_SECONDS = 60  # that a process may outlive what it was started for
PAUSE = 0.005  # seconds between two gets of the other client
FAULTS = (b"ERROR", b"SERVER_ERROR", b"CLIENT_ERROR")
DRIP = 0.7  # seconds between two bytes of a server that drips
SPEED = Speed(is_slow=True)  # played servers have as small a buffer as the system gives


class Play(NamedTuple):
    """What each attacker sends: a head once, then a text, once or again and again; and how much of the answers it reads each 10 ms."""

    text: bytes
    is_repeated: bool = True
    head: bytes = b""
    reads: int = ALL
    piece: int = PIECE
    pause: float = 0
    leaves: bool = False  # closes its connection once the text is sent; if it is repeated, opens the next

    def whole(self):
        return len(self.head) + len(self.text)


class Sent(NamedTuple):
    """What attackers did: the bytes that they sent, those of them that the program has read, and the connections that it closed."""

    sent: int
    read: int
    closed: int
    opened: int


def send_queue(connection):
    """Bytes of a connection that the other side's system has not confirmed."""
    return struct.unpack("i", fcntl.ioctl(connection, termios.TIOCOUTQ, b"\0" * 4))[0]


class Attacker:
    """A connection of an attack."""

    def __init__(self, port, play, text):
        self.port, self.play, self.text = port, play, text
        self.sent = self.opened = 0
        self.is_closed, self.connection = False, None
        self.open()

    def open(self):
        try:
            self.connection = connected(self.port, timeout=2)
            self.connection.setsockopt(socket.SOL_SOCKET, socket.SO_SNDBUF, UNSENT)
            self.connection.setblocking(False)
            self.opened += 1
        except OSError:
            self.is_closed = True
        self.of_this = 0

    def next_piece(self):
        head = self.play.head
        if self.of_this < len(head):
            return memoryview(head)[self.of_this :]
        at = self.of_this - len(head)
        if self.play.is_repeated and not self.play.leaves:
            at %= len(self.text)
        return self.text[at : at + self.play.piece]

    def wants(self):
        """The events that it waits for."""
        if self.is_closed:
            return 0
        writing = selectors.EVENT_WRITE if len(self.next_piece()) and not self.play.pause else 0
        return writing | (selectors.EVENT_READ if self.play.reads == ALL else 0)

    def send(self):
        try:
            size = self.connection.send(self.next_piece())
        except BlockingIOError:
            return
        except OSError:
            self.is_closed = True
            return
        self.sent, self.of_this = self.sent + size, self.of_this + size

    def read(self, size=PIECE):
        try:
            self.is_closed = self.connection.recv(size) == b""
        except BlockingIOError:
            return
        except OSError:
            self.is_closed = True

    def go_on(self, events):
        if events & selectors.EVENT_WRITE:
            self.send()
        if events & selectors.EVENT_READ and not self.is_closed:
            self.read()

    def is_done(self):
        return self.play.leaves and not self.is_closed and not len(self.next_piece())

    def leave(self):
        """Closes its connection; if its text is repeated, by a reset, so that the system keeps no port."""
        if self.play.is_repeated:
            self.connection.setsockopt(socket.SOL_SOCKET, socket.SO_LINGER, struct.pack("ii", 1, 0))
        self.connection.close()
        if self.play.is_repeated:
            self.open()
        else:
            self.is_closed = True

    def has_ended(self):
        """Whether the program has ended its connection."""
        if self.is_closed:
            return True
        poll = select.poll()
        poll.register(self.connection, select.POLLRDHUP)
        return bool(poll.poll(0))

    def unread(self, reading):
        """Bytes that were sent and that the program has not read."""
        if self.connection.fileno() < 0:
            return 0
        try:
            return send_queue(self.connection) + reading.waiting(reading.question(self.connection))
        except (OSError, Stopped):
            return 0


class Helper:
    """A process that begins at a signal, reports once, and waits to be released."""

    def __init__(self, target, words):
        self.ready, self.start, self.over = (multiprocessing.Event() for _ in range(3))
        self.mine, self.its = multiprocessing.Pipe(duplex=False)
        self.process = multiprocessing.Process(target=self.run, args=(target, words), daemon=True)

    def run(self, target, words):
        self.mine.close()
        with contextlib.suppress(KeyboardInterrupt, BrokenPipeError):
            target(*words)
            self.over.wait(MOST_SECONDS)

    def begin(self):
        self.start.set()

    def report(self, seconds):
        """Its report, if it arrives in time."""
        with contextlib.suppress(EOFError):
            return self.mine.recv() if self.mine.poll(seconds) else None

    def release(self):
        self.over.set()

    def __enter__(self):
        self.process.start()
        self.its.close()
        if not self.ready.wait(MOST_SECONDS):
            raise ConnectionError("clients could not connect")
        return self

    def __exit__(self, *_):
        self.over.set()
        self.process.join(0.5)
        if self.process.is_alive():
            self.process.kill()
            self.process.join()
        self.mine.close()


class Attack(Helper):
    """Clients that play the same for some seconds."""

    def __init__(self, port, clients, play, seconds):
        super().__init__(self.attack, (port, clients, play, seconds))

    def attack(self, port, clients, play, seconds):
        keep(0, "load")
        times = -(-PIECE // len(play.text)) if play.is_repeated and not play.leaves else 1
        text = memoryview(play.text * times)
        attackers = [Attacker(port, play, text) for _ in range(clients)]
        if play.pause:
            self.send_heads(attackers)
        self.ready.set()
        self.start.wait(MOST_SECONDS)
        self.go_on(attackers, play, time.monotonic() + seconds)
        reading, ended = Reading(), 0
        sent = read = sum(each.sent for each in attackers)
        for each in attackers:
            read -= each.unread(reading)
            ended += each.has_ended() and not each.play.leaves
        self.its.send(Sent(sent, read, ended, sum(each.opened for each in attackers)))

    def send_heads(self, attackers):
        """Sends the heads, and gives the program time to read them, before anything is measured."""
        for each in attackers:
            while not each.is_closed and each.sent < len(each.play.head):
                select.select([], [each.connection], [], 1)
                each.send()
        time.sleep(SECONDS_TO_SETTLE)

    def go_on(self, attackers, play, end):
        with selectors.DefaultSelector() as selector:
            for each in attackers:
                if each.wants():
                    selector.register(each.connection, each.wants(), each)
            tick = play.pause or TICK
            due = time.monotonic()
            while (now := time.monotonic()) < end:
                for key, events in selector.select(max(0, min(end, due) - now)):
                    self.step(selector, key, events)
                if time.monotonic() >= due:
                    due = max(due + tick, time.monotonic())
                    self.tick(attackers, play)

    def step(self, selector, key, events):
        attacker, before = key.data, key.fileobj
        attacker.go_on(events)
        if attacker.is_done():
            selector.unregister(before)
            attacker.leave()
            if attacker.wants():
                selector.register(attacker.connection, attacker.wants(), attacker)
        elif attacker.wants() == 0:
            selector.unregister(before)
        elif attacker.wants() != key.events:
            selector.modify(before, attacker.wants(), attacker)

    def tick(self, attackers, play):
        for each in attackers:
            if play.reads > 0 and not each.is_closed:
                each.read(play.reads)
            if play.pause and not each.is_closed:
                each.send()


class Waits(NamedTuple):
    """How long the other client's gets waited, in milliseconds; of those that were not answered, how long they waited so far."""

    median: float
    longest: float
    answered: int
    unanswered: int
    faults: int
    is_closed: bool


class Watch(Helper):
    """Another client: it sends a get each 5 ms, whether or not those before are answered, and notes how long each waits. After `end` it
    sends no more, and waits for all answers, for some seconds at most."""

    def __init__(self, port, get, patience):
        super().__init__(self.watch, (port, get, patience))
        self.ended = multiprocessing.Event()

    def end(self):
        self.ended.set()

    def watch(self, port, get, patience):
        keep(0, "watcher")
        self.get, self.pending, self.waits, self.rest = get, collections.deque(), [], b""
        self.faults, self.is_closed = 0, False
        with connected(port, timeout=10) as connection:
            connection.setblocking(False)
            self.ready.set()
            self.start.wait(MOST_SECONDS)
            self.ask(connection)
            deadline = time.perf_counter() + patience
            while self.pending and not self.is_closed and time.perf_counter() < deadline:
                self.take(connection, deadline - time.perf_counter())
        now = time.perf_counter()
        waits = [each * 1e3 for each in self.waits + [now - sent for sent in self.pending]] or [0.0]
        counts = len(self.waits), len(self.pending), self.faults
        self.its.send(Waits(statistics.median(waits), max(waits), *counts, self.is_closed))

    def ask(self, connection):
        due = time.perf_counter()
        while not self.ended.is_set() and not self.is_closed:
            now = time.perf_counter()
            if now < due:
                self.take(connection, due - now)
                continue
            due = max(due + PAUSE, now)
            try:
                connection.sendall(self.get)
                self.pending.append(now)
            except BlockingIOError:
                continue
            except OSError:
                self.is_closed = True

    def take(self, connection, seconds):
        if not select.select([connection], [], [], seconds)[0]:
            return
        try:
            piece = connection.recv(65_536)
        except OSError:
            piece = b""
        self.is_closed = not piece
        now = time.perf_counter()
        *lines, self.rest = (self.rest + piece).split(b"\r\n")
        for line in lines:
            is_fault = line.startswith(FAULTS)
            if (is_fault or line == b"END") and self.pending:
                self.waits.append(now - self.pending.popleft())
                self.faults += is_fault


class Askers(Helper):
    """Clients in closed loops: each sends its next get once the last is answered. It reports for each second how many answers were good,
    and how many were errors."""

    def __init__(self, port, clients, gets, seconds):
        super().__init__(self.run_all, (port, clients, gets, seconds))

    def run_all(self, port, clients, gets, seconds):
        keep(0, "load")
        connections = [connected(port) for _ in range(clients)]
        self.ready.set()
        self.start.wait(MOST_SECONDS)
        counts, begun = [[0, 0] for _ in range(seconds + 1)], time.monotonic()
        with selectors.DefaultSelector() as selector:
            for at, connection in enumerate(connections):
                selector.register(connection, selectors.EVENT_READ, [at, b""])
                connection.sendall(gets[at % len(gets)])
            while selector.get_map() and (past := time.monotonic() - begun) < seconds:
                for key, _ in selector.select(0.1):
                    self.step(selector, key, gets, counts[min(seconds, int(past))])
        self.its.send(counts[:seconds])

    def step(self, selector, key, gets, counts):
        state = key.data
        try:
            piece = key.fileobj.recv(65_536)
            state[1] += piece
            is_fault = state[1].startswith(FAULTS)
            if state[1].endswith(b"END\r\n") or (is_fault and state[1].endswith(b"\r\n")):
                counts[is_fault] += 1
                state[:] = state[0] + 1, b""
                key.fileobj.sendall(gets[state[0] % len(gets)])
        except OSError:
            piece = b""
        if not piece:
            selector.unregister(key.fileobj)


QUESTION, VERSION = b"version\r\n", b"VERSION 1.6.0\r\n"  # what our proxy asks a server before it uses it


class Silent(Played):
    """A server that reads everything and answers nothing, except what a proxy asks before it uses a server."""

    is_reading = True

    def __init__(self):
        self.links, self.asked = [], set()
        super().__init__(SPEED, 1_448)

    def play(self, speed):
        resource.setrlimit(resource.RLIMIT_CPU, (MOST_SECONDS, MOST_SECONDS))
        with selectors.DefaultSelector() as selector:
            selector.register(self.listener, selectors.EVENT_READ)
            due, end = time.monotonic() + DRIP, time.monotonic() + MOST_SECONDS
            while (now := time.monotonic()) < end:
                for key, _ in selector.select(max(0, due - now)):
                    self.step(selector, key)
                if time.monotonic() >= due:
                    due += DRIP
                    self.drip()

    def step(self, selector, key):
        if key.fileobj is self.listener:
            link, _ = self.listener.accept()
            link.setsockopt(socket.IPPROTO_TCP, socket.TCP_NODELAY, 1)
            self.links.append(link)
            selector.register(link, selectors.EVENT_READ)
            return
        try:
            if key.fileobj not in self.asked:
                self.asked.add(key.fileobj)
                if self.answered(key.fileobj):
                    return
            if not self.is_reading:
                selector.unregister(key.fileobj)
                return
            piece = key.fileobj.recv(1 << 20)
        except OSError:
            piece = b""
        if piece:
            self.take(key.fileobj, piece)
        else:
            selector.unregister(key.fileobj)

    def answered(self, link):
        """Answers the question of a proxy, and says whether there was one."""
        if link.recv(len(QUESTION), socket.MSG_PEEK) != QUESTION:
            return False
        link.recv(len(QUESTION))
        link.sendall(VERSION)
        return True

    def take(self, link, piece):
        pass

    def drip(self):
        pass


class Deaf(Silent):
    """A server that accepts connections and reads nothing."""

    is_reading = False


class Dripping(Silent):
    """A server that sends one byte of its reply, a value of 1,000 bytes, each 0.7 seconds."""

    def __init__(self):
        self.replies = {}
        super().__init__()

    def take(self, link, piece):
        if link not in self.replies:
            key = piece.split()[1]  # of its first get, which arrives whole
            self.replies[link] = memoryview(b"VALUE %b 0 1000\r\n%b\r\nEND\r\n" % (key, b"v" * 1_000))

    def drip(self):
        for link, left in list(self.replies.items()):
            with contextlib.suppress(OSError):
                self.replies[link] = left[link.send(left[:1]) :]
