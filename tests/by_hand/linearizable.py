#!/usr/bin/env python3
"""Checks from outside that each key of a pool is a register that may forget, while servers and proxies are killed, stopped and restarted.

Usage: linearizable.py [--seconds N] [--seed N] [--servers N] [--proxies N] [--clients N] [--program-folder FOLDER] [--lost told|missed]
       linearizable.py --self-test [--seed N] [--verbose]
                                    (60 seconds, seed 1, 2 servers, 1 proxy, 12 clients, the programs that were built in crates/, told)

FOLDER has the programs mc_serverd and mc_proxyd. The servers and the proxies run on this machine. Each client sends commands through one proxy,
one at a time. All clients share the keys, so with two proxies each key is used through both. They record when a command was sent, when its
answer had arrived, and the answer. Meanwhile programs are killed and started again, and stopped for a while (SIGSTOP). A proxy gives up
on a server after 0.3 seconds of silence. The last server may store one item less than it has keys, so it evicts all the time.

**What is checked.** The calls on each key are linearizable (Herlihy and Wing 1990). So they have one order in which a register that may forget
its item before any command answers as the clients were answered. A call that was answered before another was sent comes first. The definition is
in tests/lib/registers.py. A command that was answered `SERVER_ERROR link lost`, or whose connection ended, is in the order at most once, at any
place after it was sent. A restart of a server is a call on each of its keys, from just before the kill until the process is gone: it forgets the
item, and numbers of `cas` begin again. In addition, in each life of a server: an item whose store was sent after another item's number was shown
has a greater number, and no two items have the same.

**With --lost missed** a get that is lost is answered as a miss. Forgetting explains a miss, but it does not explain that the item is shown
again later, with no store between. Such a pool does just that, as docs/LAWS.md says (`a_miss_says_nothing_of_its_server`). So a miss counts as a
command without an answer there, and is left out of the history. With --lost told every miss counts: after it nothing is stored.

**What clients send.** get, gets and mg, also of several keys; set, ms, add, replace, delete and md; cas with a number that was shown. No
value is stored twice. On counters: add of a number that is far from all others, incr and decr by 1 to 1,000, get, delete. A key is used for
1,000 calls, or until some were lost. Then another takes its place, so that a search has few calls that may be anywhere.

**How it is searched.** By a plain search through time over memoized states, as registers.py says. It is bounded: a history that needs more
steps is undecided, and the script fails.

**What it cannot find:**

- what no client sees: a lost command that is done twice before any other, if it is no count;
- what forgetting explains, since a register may forget at any time: an item that goes without need, or an add that stores over an item;
- anything between two keys, such as that the keys of one get are looked up at one moment;
- what is not sent: expiry, touch, append and prepend, flags, marks, noreply, flush_all, several commands at once;
- what does not happen in the run.

**--self-test** needs no program. It tries the search on faulty histories from the literature, on random histories beside the definition tried in
each order, and on a long history (tests/lib/histories.py). Then it runs the clients on pools that a script plays (tests/lib/played_pools.py). It
must find nothing in a right one, of one proxy or of two. It must find a proxy that sends a lost command again, one that swaps two clients' replies,
two proxies that take other servers for a key's owner, and others with one mistake each. The last line is 'N passed, M failed'.

Without --self-test it prints its counts. The status is 1 if a history is wrong or undecided, if a client received what is no answer to its
command, if nothing was answered, if a client does not end, or if a server is not used again within 20 seconds.
"""

import argparse
import bisect
import collections
import contextlib
import itertools
import pathlib
import random
import signal
import subprocess
import sys
import threading
import time

sys.path.insert(0, str(pathlib.Path(__file__).resolve().parents[1] / "lib"))

import played_pools
from checked_clients import Answers, Closed
from checks import FAILURES, Wrong, shortened
from histories import checks_of_histories
from live_pool import LOST
from registers import COUNTS, DELETED, EXISTS, MISS, NEVER, NOT_FOUND, NOT_STORED, RESTARTED, STORED, Call, Search, Undecided, may_store, shown
from rings import Ring
from servers import Proxy, Server, free_port
from suite import are_built, built

KEYS_AT_A_SERVER = 4  # at a time; every other one is a counter
CALLS_OF_A_KEY, LOSSES_OF_A_KEY = 1_000, 5
MANY = 65_536  # items of a server; the last one holds fewer than it has keys
MOST_KEYS = 4  # of a get
PAUSE, PAUSE_LOST = 0.002, 0.06  # seconds between a client's commands, at most, and after one that was lost
PATIENCE = 30  # seconds that a client waits for an answer
MOST_TO_END = 10  # seconds more, in which a client ends
SECONDS_TO_RETURN = 20
TIMEOUT = "300"  # milliseconds of silence, until a proxy gives up on a server
CALM, AWAY, STOPPED = 0.6, 0.4, 1.0  # seconds between faults, until a program is started again, and of a stop, at most
LINES = {
    b"STORED\r\n": STORED,
    b"NOT_STORED\r\n": NOT_STORED,
    b"EXISTS\r\n": EXISTS,
    b"NOT_FOUND\r\n": NOT_FOUND,
    b"NF\r\n": NOT_FOUND,
    b"DELETED\r\n": DELETED,
    b"HD\r\n": DELETED,
}
ANSWERS = {
    "set": (STORED,),
    "add": (STORED, NOT_STORED),
    "replace": (STORED, NOT_STORED),
    "cas": (STORED, EXISTS, NOT_FOUND),
    "delete": (DELETED, NOT_FOUND),
    "incr": (NOT_FOUND,),
    "decr": (NOT_FOUND,),
}
VALUES = ["get"] * 4 + ["gets"] * 6 + ["set"] * 5 + ["ms"] * 2 + ["add"] * 4 + ["replace"] * 2 + ["cas"] * 6 + ["delete"] * 2
NUMBERS = ["get"] * 4 + ["add"] * 2 + ["incr"] * 8 + ["decr"] * 3 + ["delete"]


# What is on the wire.


def text_of(value):
    """The bytes of a value. A few values are large."""
    return b"%d " % value * (1 + value * 7919 % (3_000 if value % 50 == 0 else 8))


def value_of(text, key):
    """The value of these bytes."""
    number = text.split(b" ", 1)[0]
    if not number.isdigit() or text != (number if key.counts else text_of(int(number))):
        raise Wrong(f"no value that anybody stored: {shortened(text)}")
    return int(number)


def line_of(key, command, is_meta):
    """A request."""
    name, *words = command
    at = key.name
    if name in COUNTS:
        return b"%s %s %d\r\n" % (name.encode(), at, words[0])
    if name == "delete":
        return b"%s %s\r\n" % (b"md" if is_meta else b"delete", at)
    block = b"%d" % words[0] if key.counts else text_of(words[0])
    if name == "ms":
        return b"ms %s %d c\r\n%s\r\n" % (at, len(block), block)
    number = b" %d" % words[1] if name == "cas" else b""
    return b"%s %s 0 0 %d%s\r\n%s\r\n" % (name.encode(), at, len(block), number, block)


class Key:
    """A key, and what was called on it. `at` is the place of its owner."""

    def __init__(self, name, at, counts):
        self.name, self.at, self.counts = name, at, counts
        self.calls, self.losses = [], 0

    def is_worn(self):
        return len(self.calls) >= CALLS_OF_A_KEY or self.losses >= LOSSES_OF_A_KEY


class Board:
    """The keys that are used now, and those that were. `names` gives a key's name by its owner's place and a number."""

    def __init__(self, names, places):
        self.names, self.lock, self.number = names, threading.Lock(), itertools.count()
        self.keys = [self.new_key(place) for place in range(places) for _ in range(KEYS_AT_A_SERVER)]
        self.left, self.used = [], collections.defaultdict(tuple)

    def new_key(self, place):
        number = next(self.number)
        return Key(self.names(place, number), place, number % 2 == 1)

    def takes(self, client, count):
        """Takes keys for a client's next command. A worn one is replaced."""
        with self.lock:
            chosen = client.dice.sample(range(len(self.keys)), count)
            for at in chosen:
                if self.keys[at].is_worn():
                    self.left.append(self.keys[at])
                    self.keys[at] = self.new_key(self.keys[at].at)
            self.used[client] = [self.keys[at] for at in chosen]
            return self.used[client]

    def gives(self, is_over=False):
        """Returns the replaced keys that no client uses any more; once all is over, all keys."""
        with self.lock:
            if is_over:
                self.left += self.keys
                self.keys = []
            used = {key for keys in self.used.values() for key in keys} if not is_over else set()
            given = [key for key in self.left if key not in used]
            self.left = [key for key in self.left if key in used]
            return given


class Client(threading.Thread):
    """A client that sends one command at a time, and records it."""

    def __init__(self, run, number):
        super().__init__(daemon=True)
        self.run_of, self.number, self.dice = run, number, random.Random(f"{run.seed} {number}")
        self.error, self.numbers, self.told = None, {}, collections.Counter()
        self.connect()

    def connect(self):
        self.connection = self.run_of.pool.connected(self.number)
        self.connection.settimeout(PATIENCE)
        self.answers = Answers(self.connection)

    def connect_again(self):
        self.leaves()
        while not self.run_of.ended:
            try:
                return self.connect()
            except OSError:
                time.sleep(0.01)

    def leaves(self):
        self.answers.file.close()
        self.connection.close()

    def run(self):
        try:
            while not self.run_of.ended:
                is_lost = self.call()
                if self.run_of.pause:
                    time.sleep(self.dice.random() * (PAUSE_LOST if is_lost else PAUSE))
        except (Wrong, *FAILURES) as error:
            self.error = error
        finally:
            self.leaves()

    def call(self):
        """Sends a command, and records it. Returns whether it was lost."""
        many = self.dice.randrange(2, MOST_KEYS + 1) if self.dice.random() < 0.1 else 1
        keys = self.run_of.board.takes(self, many)
        command = ("get",) if many > 1 else self.command(keys[0])
        sent = next(self.run_of.clock)
        try:
            answers = self.asked(keys, command)
        except (Closed, ConnectionError):
            answers = None
            self.told["unanswered"] += 1
            self.connect_again()
        else:
            self.told["answered" if answers else "link lost"] += 1
        came = next(self.run_of.clock) if answers else NEVER
        for key, answer in zip(keys, answers or [None] * many):
            self.records(key, Call(sent, came, command, answer))
        return answers is None

    def command(self, key):
        """A command on a key."""
        name, value = self.dice.choice(NUMBERS if key.counts else VALUES), next(self.run_of.values)
        if name == "cas":
            number = self.numbers.get(key)
            return ("gets",) if number is None else (name, value, number)
        if name in COUNTS:
            return name, self.dice.randrange(1, 1_001)
        if key.counts and name == "add":
            return name, value << 21 | 1 << 20
        return (name,) if name in ("get", "gets", "delete") else (name, value)

    def records(self, key, call):
        if call.answer is None:
            if not may_store(call.command):
                return
            key.losses += 1
        elif call.answer == MISS and self.run_of.misses_say_nothing:
            self.told["misses"] += 1
            return
        elif call.answer[0] in ("hit", "stored") and call.answer[-1] is not None:
            if len(self.numbers) > 100:
                self.numbers.clear()
            self.numbers[key] = call.answer[-1]
        key.calls.append(call)

    def asked(self, keys, command):
        """The answers to a command, one for each key; None if it is lost."""
        name, is_meta = command[0], self.dice.random() < 0.5
        if name in ("get", "gets"):
            is_meta = is_meta and name == "gets"
            names = b" ".join(key.name for key in keys)
            self.connection.sendall(b"mg %s v c\r\n" % names if is_meta else b"%s %s\r\n" % (name.encode(), names))
            return self.one_shown(keys[0]) if is_meta else self.all_shown(keys, name == "gets")
        self.connection.sendall(line_of(keys[0], command, is_meta))
        line = self.answers.line()
        return None if line == LOST else [self.answer(name, line)]

    def answer(self, name, line):
        if name == "ms" and line.startswith(b"HD c") and line[4:-2].isdigit():
            return "stored", int(line[4:])
        if name in COUNTS and line[:-2].isdigit():
            return "number", int(line)
        answer = LINES.get(line)
        if answer not in ANSWERS.get(name, ()):
            raise Wrong(f"{line!r} came for {name}")
        return answer

    def one_shown(self, key):
        """The answer to an `mg` with `v` and `c`."""
        line = self.answers.line()
        if line in (LOST, b"EN\r\n"):
            return None if line == LOST else [MISS]
        words = line.split()
        if len(words) != 3 or words[0] != b"VA" or not words[2].startswith(b"c"):
            raise Wrong(f"{line!r} came for mg")
        return [("hit", value_of(self.answers.block(int(words[1])), key), int(words[2][1:]))]

    def all_shown(self, keys, with_number):
        """The answers to a get."""
        line, seen = self.answers.line(), {}
        if line == LOST:
            return None
        named = {key.name: key for key in keys}
        while line != b"END\r\n":
            words = line.split()
            if len(words) != 4 + with_number or words[0] != b"VALUE" or words[1] in seen or words[1] not in named:
                raise Wrong(f"{line!r} came for {b' '.join(named)!r}")
            value = value_of(self.answers.block(int(words[3])), named[words[1]])
            seen[words[1]] = "hit", value, int(words[4]) if with_number else None
            line = self.answers.line()
        return [seen.get(key.name, MISS) for key in keys]


# The whole run.


class Run:
    """A pool, its clients, and the results of checking their histories. It makes the pool's `faults`."""

    def __init__(self, pool, seed, clients, misses_say_nothing=False, pause=True):
        self.pool, self.seed, self.dice = pool, seed, random.Random(seed)
        self.misses_say_nothing, self.pause, self.ended = misses_say_nothing, pause, False
        self.clock, self.values = itertools.count(1), itertools.count(1)
        self.board = Board(pool.name, pool.places)
        self.restarts = [[] for _ in range(pool.places)]  # of each server: from when to when
        self.items = [[] for _ in range(pool.places)]  # of each server: what was seen with its number
        self.told, self.faults = collections.Counter(), collections.Counter()
        self.longest, self.seconds, self.wrong = (0, 0), 0, []
        self.clients = [Client(self, number) for number in range(clients)]

    @contextlib.contextmanager
    def restart(self, place):
        """A block in which a server's process ends."""
        begun = next(self.clock)
        yield
        self.restarts[place].append(Call(begun, next(self.clock), ("restart",), RESTARTED))

    def goes(self, seconds):
        """Makes faults and checks the recorded calls, for these seconds or until something is wrong."""
        ends = time.monotonic() + seconds
        for client in self.clients:
            client.start()
        try:
            while time.monotonic() < ends and not self.wrong:
                fault = self.dice.choice(self.pool.faults)
                fault(self)
                self.faults[fault.__name__] += 1
                self.looks()
        finally:
            left = self.left_at_end()
        if left:
            raise Wrong(f"clients that do not end: {left}")
        self.looks(is_over=True)
        self.looks_at_numbers()
        if not self.told["answered"]:
            raise Wrong("nothing was answered")

    def left_at_end(self):
        """Ends the clients. Returns the numbers of those that do not end."""
        self.ended, deadline, left = True, time.monotonic() + PATIENCE + MOST_TO_END, []
        for number, client in enumerate(self.clients):
            client.join(max(0, deadline - time.monotonic()))
            self.told.update(client.told)
            left += [number] if client.is_alive() else []
        return left

    def looks(self, is_over=False):
        for number, client in enumerate(self.clients):
            if client.error is not None:
                raise Wrong(f"client {number}: {type(client.error).__name__}: {client.error}")
        for key in self.board.gives(is_over):
            self.looks_at(key)

    def looks_at(self, key):
        """Searches the history of a key."""
        calls = sorted(key.calls)
        if not calls:
            return
        last = max((call.came for call in calls if call.answer), default=0)
        calls += [each for each in self.restarts[key.at] if calls[0].sent < each.came and each.sent < last]
        search, begun = Search(calls), time.perf_counter()
        try:
            failed = search.failure()
        except Undecided:
            return self.wrong.append(f"undecided: {key.name.decode()}, {len(calls)} calls")
        finally:
            seconds = time.perf_counter() - begun
            self.seconds += seconds
            self.longest = max(self.longest, (seconds, search.tried))
        if failed is not None:
            lines = "\n".join(shown(calls, failed))
            return self.wrong.append(f"no register answers so: key {key.name.decode()}\n{lines}")
        self.counts(key, calls, search)

    def counts(self, key, calls, search):
        self.told["keys"] += 1
        self.told["calls"] += len(calls)
        self.told["done"] += search.used()
        self.told["longest"] = max(self.told["longest"], len(calls))
        self.told["widest"] = max(self.told["widest"], search.widest)
        if not key.counts:
            self.items[key.at] += items_of(key)

    # Numbers of all items of a server.

    def looks_at_numbers(self):
        for place, items in enumerate(self.items):
            lives = collections.defaultdict(list)
            for item in items:
                lives[self.life_of(place, item)].append(item)
            lives.pop(None, None)
            for items_of_life in lives.values():
                self.told["numbers"] += len(items_of_life)
                self.told["lives"] += 1
                self.wrong += wrong_numbers(place, items_of_life)

    def life_of(self, place, item):
        """The life of a server in which an item was seen; None if the server was restarted meanwhile."""
        restarts = self.restarts[place]
        life = bisect.bisect([each.sent for each in restarts], item.seen[0])
        is_after = life == 0 or restarts[life - 1].came < item.seen[0]
        is_before = life == len(restarts) or item.seen[1] < restarts[life].sent
        return life if is_after and is_before else None


# An item that was seen: its number, when its store was sent, and when the call was sent, and answered, that showed the number first.
Seen = collections.namedtuple("Seen", "number stored seen name")


def items_of(key):
    """The items of a key that were seen with their numbers."""
    stores = {call.command[1]: call.sent for call in key.calls if len(call.command) > 1}
    found = {}
    for call in sorted((call for call in key.calls if call.answer), key=lambda call: call.came):
        if call.answer[0] in ("hit", "stored") and call.answer[-1] is not None:
            value = call.answer[1] if call.answer[0] == "hit" else call.command[1]
            found.setdefault(value, Seen(call.answer[-1], stores[value], (call.sent, call.came), f"{value} of {key.name.decode()}"))
    return found.values()


def wrong_numbers(place, items):
    """The faults in the numbers of items that were seen in one life of a server."""
    by_number = {}
    for item in items:
        other = by_number.setdefault(item.number, item)
        if other is not item:
            yield f"server {place}: {item.name} and {other.name} have one number, {item.number}"
    seen, highest, name = sorted(items, key=lambda item: item.seen[1]), 0, ""
    at = 0
    for item in sorted(items, key=lambda item: item.stored):
        while seen[at].seen[1] < item.stored:
            highest, name = max((highest, name), (seen[at].number, seen[at].name))
            at += 1
        if item.number <= highest:
            yield f"server {place}: {item.name} has number {item.number}, and was stored after {highest} was seen, of {name}"


class LivePool:
    """Servers and proxies that were built."""

    def __init__(self, programs, servers, proxies, lost, stack):
        self.server_program, self.proxy_program = programs
        self.places, self.words = servers, ["--timeout", TIMEOUT, "--lost", lost]
        self.servers, self.proxies = [None] * servers, [None] * proxies
        stack.callback(self.stop)
        self.ports, self.proxy_ports = [free_port() for _ in range(servers)], [free_port() for _ in range(proxies)]
        for place in range(servers):
            self.start_server(place)
        self.addresses = [server.address for server in self.servers]
        self.ring = Ring(self.addresses)
        for at in range(proxies):
            self.start_proxy(at)
        self.faults = [
            self.server_killed, self.server_killed, self.server_stopped, self.server_stopped_and_killed, self.proxy_killed,
            self.proxy_stopped, self.server_killed_behind_a_stopped_proxy,
        ]  # fmt: skip

    def start_server(self, place):
        items = KEYS_AT_A_SERVER - 1 if place == self.places - 1 else MANY
        self.servers[place] = Server(self.server_program, items=items, port=self.ports[place], stderr=subprocess.DEVNULL)

    def start_proxy(self, at):
        self.proxies[at] = Proxy(self.proxy_program, self.addresses, self.words, port=self.proxy_ports[at], stderr=subprocess.DEVNULL)

    def stop(self):
        for program in (*self.servers, *self.proxies):
            if program is not None:
                program.stop()

    def connected(self, number):
        """A connection of the client of a number, to its proxy."""
        return self.proxies[number % len(self.proxies)].connected()

    def name(self, place, number):
        return self.ring.keys(place, 1, f"k{number}-")[0]

    # Faults.

    def rests(self, run, most=CALM):
        time.sleep(run.dice.uniform(most / 20, most))

    def ends(self, run, place):
        with run.restart(place):
            self.servers[place].stop()

    def starts(self, run, place):
        self.rests(run, AWAY)
        self.start_server(place)

    def returns(self, run, place):
        """Waits until each proxy uses a server again, and some time more."""
        deadline, ask = time.monotonic() + SECONDS_TO_RETURN, b"delete %s\r\n" % self.ring.keys(place, 1, "none-")[0]
        for proxy in self.proxies:
            with proxy.connected() as probe:
                answers, line = Answers(probe), LOST
                while line == LOST:
                    if time.monotonic() > deadline:
                        raise Wrong(f"server {place} is not used again")
                    probe.sendall(ask)
                    line = answers.line()
                    time.sleep(0.005)
        self.rests(run)

    @contextlib.contextmanager
    def stopped(self, run, program, most=STOPPED):
        """A block before and after which a program is stopped."""
        program.process.send_signal(signal.SIGSTOP)
        self.rests(run, most)
        yield
        program.process.send_signal(signal.SIGCONT)

    def server_killed(self, run):
        place = run.dice.randrange(self.places)
        self.ends(run, place)
        self.starts(run, place)
        self.returns(run, place)

    def server_stopped(self, run):
        place = run.dice.randrange(self.places)
        with self.stopped(run, self.servers[place]):
            pass
        self.returns(run, place)

    def server_stopped_and_killed(self, run):
        place = run.dice.randrange(self.places)
        with self.stopped(run, self.servers[place]):
            self.ends(run, place)
            self.starts(run, place)
        self.returns(run, place)

    def proxy_killed(self, run):
        at = run.dice.randrange(len(self.proxies))
        self.proxies[at].stop()
        self.rests(run, AWAY / 4)
        self.start_proxy(at)
        self.rests(run)

    def proxy_stopped(self, run):
        with self.stopped(run, run.dice.choice(self.proxies)):
            pass
        self.rests(run)

    def server_killed_behind_a_stopped_proxy(self, run):
        place = run.dice.randrange(self.places)
        with self.stopped(run, run.dice.choice(self.proxies), STOPPED / 10):
            self.ends(run, place)
            self.starts(run, place)
        self.returns(run, place)


class PlayedPool:
    """A pool that a script plays, whose server is restarted now and then."""

    places = 1

    def __init__(self, relay):
        self.relay, self.faults = relay, [self.server_restarted]

    def connected(self, number):
        return self.relay.connected(number)

    @staticmethod
    def name(_, number):
        return b"k%d" % number

    def server_restarted(self, run):
        time.sleep(run.dice.uniform(0.05, 0.3))
        with run.restart(0):
            self.relay.restart()


# The output.


def tell(run, asked, seconds):
    told, faults = run.told, run.faults
    commands = told["answered"] + told["link lost"] + told["unanswered"]
    missed = f", {told['misses']:,} of their keys missed, which says nothing" if run.misses_say_nothing else ""
    print(f"lost {asked.lost}, servers {asked.servers}, proxies {asked.proxies}, clients {asked.clients}, seed {asked.seed}, {seconds:.0f} seconds")
    print(f"{commands:,} commands: {told['answered']:,} answered{missed}, {told['link lost']:,} told that the link was lost,", end=" ")
    print(f"{told['unanswered']:,} without an answer")
    kills, stops = (sum(count for name, count in faults.items() if word in name) for word in ("killed", "stopped"))
    print(f"{kills} kills and {stops} stops:", ", ".join(f"{count} {name.replace('_', ' ')}" for name, count in sorted(faults.items())))
    print(f"{told['keys']:,} keys whose histories are one of a register, with {told['calls']:,} calls; the longest has {told['longest']:,};", end=" ")
    print(f"at most {told['widest']} were open at once; of those without an answer at least {told['done']:,} were done")
    print(f"{told['numbers']:,} items were seen with their numbers, in {told['lives']} lives of servers")
    print(f"searches took {run.seconds:.1f} seconds in all; the longest took {run.longest[0]:.3f} seconds and {run.longest[1]:,} steps")


def made(asked, programs):
    """Makes a run, and prints the results. Returns the exit status."""
    why, begun, run = [], time.monotonic(), None
    with contextlib.ExitStack() as stack:
        try:
            pool = LivePool(programs, asked.servers, asked.proxies, asked.lost, stack)
            run = Run(pool, asked.seed, asked.clients, asked.lost == "missed")
            run.goes(asked.seconds)
        except (Wrong, *FAILURES) as error:
            why.append(f"{type(error).__name__}: {error}")
    if run is not None:
        tell(run, asked, time.monotonic() - begun)
        why += run.wrong
    print("FAILED " + "\n".join(why) if why else "nothing failed")
    return 1 if why else 0


def tried_on(relay, seconds, seed, **words):
    """The first fault that is found in a pool that a script plays, within this many seconds."""
    with relay:
        run = Run(PlayedPool(relay), seed, 5, pause=False, **words)
        try:
            run.goes(seconds)
        except Wrong as wrong:
            return str(wrong), run
    return (run.wrong[0] if run.wrong else None), run


def checks_of_pools(seed):
    """Each check with its name: whether a right pool is found right, and each wrong one wrong."""
    for losses in ("told", "missed"):
        wrong, run = tried_on(played_pools.Relay(seed, losses), 3, seed, misses_say_nothing=losses == "missed")
        yield f"a right pool, losses {losses}, {run.told['calls']:,} calls", wrong is None, wrong
    wrong, run = tried_on(played_pools.Relay(seed, proxies=2), 3, seed)
    yield f"a right pool of two proxies, {run.told['calls']:,} calls", wrong is None, wrong
    wrong, _ = tried_on(played_pools.AddsAlways(seed), 2, seed)
    yield f"not to be found: {played_pools.AddsAlways.__doc__}", wrong is None, wrong
    wrong, _ = tried_on(played_pools.Relay(seed, "missed"), 10, seed)
    yield "to be found: losses missed, if each miss is taken at its word", is_found(wrong), wrong
    wrong, _ = tried_on(played_pools.AnswersNothing(seed), 1, seed)
    yield f"to be found: {played_pools.AnswersNothing.__doc__}", wrong == "nothing was answered", wrong
    for mistake in played_pools.MISTAKES:
        wrong, _ = tried_on(mistake(seed), 10, seed)
        yield f"to be found: {mistake.__doc__.strip()}", is_found(wrong), wrong
    for mistake in played_pools.MISTAKES_OF_TWO:
        wrong, _ = tried_on(mistake(seed, proxies=2), 10, seed)
        yield f"to be found, of two proxies: {mistake.__doc__.strip()}", is_found(wrong), wrong


def is_found(wrong):
    return wrong is not None and wrong.startswith(("no register answers so", "server 0:"))


def self_test(seed, is_verbose):
    passed = []
    for name, is_right, why in itertools.chain(checks_of_histories(), checks_of_pools(seed)):
        passed.append(is_right)
        if is_verbose or not is_right:
            print(f"{'right' if is_right else 'WRONG'}: {name}{': ' if why else ''}{why or ''}")
    print(f"{sum(passed)} passed, {len(passed) - sum(passed)} failed")
    return 0 if all(passed) else 1


def main():
    words = argparse.ArgumentParser(description=__doc__, formatter_class=argparse.RawDescriptionHelpFormatter)
    words.add_argument("--seconds", type=float, default=60)
    words.add_argument("--seed", type=int, default=1)
    words.add_argument("--servers", type=int, default=2)
    words.add_argument("--proxies", type=int, default=1)
    words.add_argument("--clients", type=int, default=12)
    words.add_argument("--program-folder", type=pathlib.Path)
    words.add_argument("--lost", choices=("told", "missed"), default="told")
    words.add_argument("--self-test", action="store_true")
    words.add_argument("--verbose", action="store_true", help="with --self-test: print each check")
    asked = words.parse_args()
    if min(asked.servers, asked.proxies, asked.clients) < 1:
        words.error("a pool has a server, a proxy and a client, or more of each")
    if asked.self_test:
        return self_test(asked.seed, asked.verbose)
    signal.signal(signal.SIGTERM, signal.default_int_handler)
    folder, names = asked.program_folder, ("mc_serverd", "mc_proxyd")
    programs = [folder / name if folder else built(name) for name in names]
    return made(asked, programs) if are_built(*programs) else 1


if __name__ == "__main__":
    sys.exit(main())
