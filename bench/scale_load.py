#!/usr/bin/env python3
"""Starts a pool of 64 servers and 8 proxies on this machine, loads it through all proxies, loses one server and has it back.

Usage: scale_load.py SERVER PROXY [--servers N] [--proxies N] [--clients N] [--keys N] [--seconds S]
       (64 servers, 8 proxies, 50 clients of each proxy, 100,000 keys, 4 seconds of each load)

SERVER is the built mc_serverd, PROXY the built mc_proxyd. Each client is a plain socket, and has keys of its own. So it knows each
answer byte for byte, and checks each: while all servers are up, while one is lost, and once it is back and empty. At the end each
server is asked for the keys that are its own by the model of the ring (tests/lib/rings.py).

It prints two tables in Markdown: for each load the cost of a request, and memory, files, and how long a loss and a return took. A cost
is the processor time of all servers, or of all proxies, for a request. The last line is 'N passed, M failed'.
"""

import argparse
import contextlib
import random
import select
import statistics
import subprocess
import sys
import time
from pathlib import Path
from typing import NamedTuple

sys.path.insert(0, str(Path(__file__).resolve().parents[1] / "tests" / "lib"))

from checks import PATIENCE, Wrong, allow_many_files, is_served, received, shortened, tally, want
from rings import Ring
from servers import Proxy, Server

SIZE = 100
SETS = 0.1
LOST = b"SERVER_ERROR link lost\r\n"
SECONDS_IDLE = 2
KEYS_AT_ONCE = 100


class Load(NamedTuple):
    name: str
    batch: int
    keys: int = 1


LOADS = [Load("one at a time", 1), Load("32 at a time", 32), Load("gets of 24 keys", 1, 24)]


class Pool:
    """Servers, and proxies in front of them, side by side."""

    def __init__(self, asked, stack):
        self.program, self.stack = asked.server, stack
        self.servers = [stack.enter_context(Server(asked.server)) for _ in range(asked.servers)]
        self.addresses = [server.address for server in self.servers]
        self.proxies = [stack.enter_context(Proxy(asked.proxy, self.addresses, stderr=subprocess.DEVNULL)) for _ in range(asked.proxies)]
        self.ring = Ring(self.addresses)
        self.down = None  # the place of the server that is lost

    def all_answer(self, key, answer):
        """Waits until each proxy gives this answer to a get of a key, and returns how many seconds that took."""
        start = time.monotonic()
        for proxy in self.proxies:
            with proxy.connected() as client:
                while True:
                    client.sendall(b"get %s\r\n" % key)
                    came = client.recv(4096)
                    if came == answer:
                        break
                    if time.monotonic() > start + PATIENCE:
                        raise Wrong(f"{shortened(came)} came for {answer}")
                    time.sleep(0.01)
        return time.monotonic() - start

    def lose(self, place):
        self.servers[place].stop()
        self.down = place
        return self.all_answer(self.ring.key(place), LOST)

    def bring_back(self, place):
        server = Server(self.program, port=self.servers[place].port)
        self.servers[place] = self.stack.enter_context(server)
        self.down = None
        return self.all_answer(self.ring.key(place), b"END\r\n")

    def running(self):
        return [server for place, server in enumerate(self.servers) if place != self.down]


class Client:
    """A connection to a proxy, and keys that nobody else uses. `stored` has the value of each key, and None if it has none."""

    def __init__(self, pool, proxy, numbers, dice):
        self.pool, self.dice = pool, dice
        self.keys = [b"key-%016d" % number for number in numbers]
        self.owners = {key: pool.ring.owner(key) for key in self.keys}
        self.stored, self.sets, self.lost = dict.fromkeys(self.keys), 0, 0
        self.socket = proxy.connected()

    def set(self, key):
        """A set of a value that was never stored, and its answer."""
        self.sets += 1
        value = (b"%s %d " % (key, self.sets)).ljust(SIZE, b"v")
        ask = b"set %s 0 0 %d\r\n%s\r\n" % (key, SIZE, value)
        if self.owners[key] == self.pool.down:
            return ask, LOST
        self.stored[key] = value
        return ask, b"STORED\r\n"

    def get(self, keys):
        ask = b"get %s\r\n" % b" ".join(keys)
        if any(self.owners[key] == self.pool.down for key in keys):
            return ask, LOST
        blocks = [b"VALUE %s 0 %d\r\n%s\r\n" % (key, SIZE, self.stored[key]) for key in keys if self.stored[key]]
        return ask, b"".join(blocks) + b"END\r\n"

    def forget(self, place):
        """The server of this place is empty."""
        for key, owner in self.owners.items():
            if owner == place:
                self.stored[key] = None

    def some_request(self, load):
        if load.keys > 1:
            return self.get(self.dice.sample(self.keys, load.keys))
        key = self.dice.choice(self.keys)
        return self.set(key) if self.dice.random() < SETS else self.get([key])

    def send(self, requests):
        asks, answers = zip(*requests)
        self.lost += answers.count(LOST)
        self.wanted, self.came = b"".join(answers), bytearray()
        self.socket.sendall(b"".join(asks))

    def is_answered(self):
        """Reads the bytes that have arrived; whether they are all that is expected. Anything else is an error."""
        piece = self.socket.recv(1 << 16)
        self.came += piece
        if not piece or len(self.came) > len(self.wanted):
            raise Wrong(f"{shortened(bytes(self.came))} came for {shortened(self.wanted)}")
        if len(self.came) == len(self.wanted):
            want(bytes(self.came), self.wanted)
            return True
        return False


def serve(clients, next_requests):
    """Lets each client send its next requests once the last ones are answered, until it has none. Returns their number."""
    done, of = 0, {client.socket.fileno(): client for client in clients}
    with select.epoll() as poll:

        def send(client):
            requests = next_requests(client)
            if requests:
                client.send(requests)
            else:
                poll.unregister(client.socket)
                del of[client.socket.fileno()]
            return len(requests)

        for client in clients:
            poll.register(client.socket, select.EPOLLIN)
            done += send(client)
        while of:
            found = poll.poll(PATIENCE)
            if not found:
                raise Wrong(f"no answer within {PATIENCE} seconds")
            for number, _ in found:
                if of[number].is_answered():
                    done += send(of[number])
    return done


def in_parts(client):
    """The requests that set all keys of a client, some at a time."""
    for at in range(0, len(client.keys), KEYS_AT_ONCE):
        yield [client.set(key) for key in client.keys[at : at + KEYS_AT_ONCE]]


def fill(clients):
    parts = {client: in_parts(client) for client in clients}
    return serve(clients, lambda client: next(parts[client], []))


def processor_times(pool):
    return [sum(each.processor_time() for each in kind) for kind in (pool.running(), pool.proxies)]


def loaded(pool, clients, load, seconds):
    """Loads the pool for this long, and returns a row: requests, those a second, the cost of each, and how many were answered as
    lost."""
    before, start, lost = processor_times(pool), time.monotonic(), sum(client.lost for client in clients)
    end = start + seconds

    def requests(client):
        return [client.some_request(load) for _ in range(load.batch)] if time.monotonic() < end else []

    done = serve(clients, requests)
    took = time.monotonic() - start
    costs = [(now - then) / done * 1e9 for then, now in zip(before, processor_times(pool))]
    lost = sum(client.lost for client in clients) - lost
    return [f"{done:,}", f"{done / took:,.0f}", *(f"{cost:,.0f}" for cost in costs), f"{lost / done:.1%}"]


def keys_are_at_their_owners(pool, clients):
    """Asks each server, without a proxy, for the keys that are its own."""
    wanted = [{} for _ in pool.servers]
    for client in clients:
        for key, value in client.stored.items():
            wanted[client.owners[key]][key] = value
    for server, held in zip(pool.servers, wanted):
        with server.connected() as direct:
            for key, value in held.items():
                answer = b"VALUE %s 0 %d\r\n%s\r\nEND\r\n" % (key, SIZE, value) if value else b"END\r\n"
                direct.sendall(b"get %s\r\n" % key)
                want(received(direct, len(answer)), answer)


# The tables.


def megabytes(kind):
    """The middle and the greatest resident memory of some programs."""
    each = [program.memory() / 1e6 for program in kind]
    return f"{statistics.median(each):.1f} MB (at most {max(each):.1f})"


def milliseconds(seconds):
    return f"{seconds * 1e3:,.0f} ms"


def table(head, rows):
    lines = [head, ["---"] * len(head), *rows]
    return "\n".join(f"| {' | '.join(line)} |" for line in lines)


class Trial:
    """A pool under load, step by step. Each step is a check: an answer that is not the right one is an error."""

    def __init__(self, asked, stack):
        self.asked, self.stack, self.pool = asked, stack, Pool(asked, stack)
        self.loads, self.figures = [], []
        count, dice = asked.proxies * asked.clients, random.Random(1)
        proxies = [proxy for proxy in self.pool.proxies for _ in range(asked.clients)]
        self.clients = [Client(self.pool, proxy, range(at, asked.keys, count), dice) for at, proxy in enumerate(proxies)]

    def note(self, what, figure):
        self.figures.append([what, figure])

    def memory(self, when):
        self.note(f"Memory of a server, {when}", megabytes(self.pool.running()))
        self.note(f"Memory of a proxy, {when}", megabytes(self.pool.proxies))

    def link(self):
        """The memory of a link: what a new proxy over all servers has more than one over a single server."""
        addresses, memories = self.pool.addresses, []
        for some in (addresses[:1], addresses):
            with Proxy(self.asked.proxy, some) as proxy, proxy.connected() as client:
                is_served(client)
                memories.append(proxy.memory())
        self.note("Memory of a new proxy over one server", f"{memories[0] / 1e6:.2f} MB")
        self.note("Memory of a link that has carried nothing", f"{(memories[1] - memories[0]) / max(1, len(addresses) - 1):,.0f} bytes")

    def filled(self):
        self.memory("at the start")
        self.note("Keys set", f"{fill(self.clients):,}")
        self.note("Files open of a server", f"{self.pool.servers[0].descriptors()}")
        self.note("Files open of a proxy", f"{self.pool.proxies[0].descriptors()}")
        before = sum(processor_times(self.pool))
        time.sleep(SECONDS_IDLE)
        spent = (sum(processor_times(self.pool)) - before) / SECONDS_IDLE
        self.note("Processor time of all programs while nobody asks", f"{spent * 1e3:.2f} ms a second")

    def load(self, load, when=""):
        self.loads.append([load.name + when, *loaded(self.pool, self.clients, load, self.asked.seconds)])

    def lost(self):
        place = len(self.pool.servers) // 2
        self.note("From a loss until all proxies tell of it", milliseconds(self.pool.lose(place)))
        for load in LOADS[1:]:
            self.load(load, ", one server lost")
        self.note("From its new start until all proxies use it", milliseconds(self.pool.bring_back(place)))
        for client in self.clients:
            client.forget(place)
        self.load(LOADS[1], ", it is back and empty")

    def checks(self):
        yield "links", self.link, ()
        yield "filled", self.filled, ()
        for load in LOADS:
            yield load.name, self.load, (load,)
        yield "memory", self.memory, ("under load",)
        yield "a server lost and back", self.lost, ()
        yield "keys at their owners", keys_are_at_their_owners, (self.pool, self.clients)
        self.tell()

    def tell(self):
        asked = self.asked
        print(f"{asked.servers} servers, {asked.proxies} proxies, {asked.clients} clients of each, {asked.keys:,} keys")
        head = ["Load", "Requests", "A second", "Servers, ns a request", "Proxies, ns a request", "Told of a loss"]
        print(table(head, self.loads), "", table(["What", "Figure"], self.figures), "", sep="\n")


def main():
    words = argparse.ArgumentParser(description=__doc__, formatter_class=argparse.RawDescriptionHelpFormatter)
    words.add_argument("server", metavar="SERVER")
    words.add_argument("proxy", metavar="PROXY")
    words.add_argument("--servers", type=int, default=64)
    words.add_argument("--proxies", type=int, default=8)
    words.add_argument("--clients", type=int, default=50)
    words.add_argument("--keys", type=int, default=100_000)
    words.add_argument("--seconds", type=float, default=4)
    asked = words.parse_args()
    allow_many_files()
    with contextlib.ExitStack() as stack:
        return tally(Trial(asked, stack).checks())


if __name__ == "__main__":
    sys.exit(main())
