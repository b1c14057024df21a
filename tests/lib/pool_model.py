#!/usr/bin/env python3
"""A plain model of a pool: what its proxies and its servers do.

It is written from the rules of the protocol and of pool scripts, with none of the repository's definitions. `Pool` plays a script step
by step. The scripts are those of pool_script.py, the requests those of pool_requests.py, the caches those of model.py. What must hold of
the output of any pool is in pool_account.py.

Usage: pool_model.py [--account] [--trace] < SCRIPT      (prints the output that mc_sim should have for a pool script)
"""

import collections
import sys

from model import Connection, Server, escaped
from pool_requests import READER, answered, routed
from pool_script import ALL, BadLine, Script

MOST_UNANSWERED = 1024  # requests of a client
CLIENT_MARK = 4_194_304  # unsent bytes to a client
LINK_MARK = 8_388_608  # unsent bytes on a link
MOST_CONNECTIONS = 1024  # of a server

Tag = collections.namedtuple("Tag", "client request atom")
Entry = collections.namedtuple("Entry", "client request atom moment refused reply")
Told = collections.namedtuple("Told", "done texts outs histories drains")  # drains: what each did, in order


# A pool, step by step


class Client:
    def __init__(self):
        self.text = bytearray()
        self.unread = bytearray()
        self.closed = False
        self.gone = False
        self.taken = 0
        self.unanswered = []  # each a request and the outcomes of its commands so far
        self.put = bytearray()
        self.took = 0

    def unsent(self):
        return len(self.put) - self.took


class Way:
    """A generation of a link: the bytes that go to the server, and the server's connection."""

    def __init__(self):
        self.going = bytearray()
        self.connection = Connection()
        self.tags = []
        self.replies = []


class Link:
    """A proxy's link to a server."""

    def __init__(self, up=True):
        self.up = up
        self.generation = 1 if up else 0
        self.ways = {1: Way()} if up else {}  # the living one, and the lost ones whose end the server has not seen
        self.come = 0  # bytes that arrived at the proxy and are unread
        self.replied = 0  # replies that were taken, of the living generation

    def living(self):
        return self.ways[self.generation]

    def waiting(self):
        return self.living().tags[self.replied :] if self.up else []

    def lives(self, generation):
        return self.up and generation == self.generation


class Site:
    """A server."""

    def __init__(self, cache):
        self.cache = cache
        self.history = []
        self.lost = []  # the lost generations whose end it has not seen, each with its proxy, in the order in which they were lost


class Awaited:
    """The outcome of a command that was sent and not answered."""


class Pool:
    """A pool that plays a script: each of its servers' caches is made by `new_cache`, from a first number and two bounds."""

    def __init__(self, script, new_cache=Server):
        self.script = script
        self.new_cache = lambda: new_cache(0, script.budget, script.items)
        self.sites = [Site(self.new_cache()) for _ in range(script.servers)]
        self.rings = [script.ring() for _ in range(script.proxies)]  # of each proxy
        self.links = {(proxy, place): Link() for proxy in range(script.proxies) for place in range(script.servers)}
        self.clients = [Client() for _ in script.all_clients()]
        self.losses = script.losses
        self.drains = []

    def step(self, event):
        """Whether an event applied; then it has happened."""
        return bool(getattr(self, event[0])(*event[1:]))

    def told(self, done):
        return Told(
            done,
            [bytes(client.text) for client in self.clients],
            [bytes(client.put) for client in self.clients],
            [list(site.history) for site in self.sites],
            self.drains,
        )

    def links_of(self, proxy):
        """The names of a proxy's links, in the order of their servers."""
        return [(proxy, place) for place in range(self.rings[proxy].servers)]

    # Clients, and what their proxy does for them

    def bytes(self, number, data):
        client = self.clients[number]
        if client.gone or not data:
            return False
        client.text += data
        client.unread += b"" if client.closed else data
        return True

    def gone(self, number):
        client = self.clients[number]
        if client.gone:
            return False
        client.gone = True
        return True

    def next_request(self, number):
        """The request that a client's turn takes, if it takes one."""
        client = self.clients[number]
        if client.gone or client.closed or len(client.unanswered) >= MOST_UNANSWERED or client.unsent() >= CLIENT_MARK:
            return None
        request = READER.read(client.unread)
        if request is None:
            return None
        links = [self.links[name] for name, _ in self.routed(number, request)]
        return None if any(link.up and len(link.living().going) >= LINK_MARK for link in links) else request

    def routed(self, number, request):
        """The commands of a client's request, each with the name of its link."""
        proxy = self.script.proxy_of(number)
        return [((proxy, place), line) for place, line in routed(request, self.rings[proxy])]

    def turn(self, number):
        request = self.next_request(number)
        if request is None:
            return False
        client = self.clients[number]
        del client.unread[: request.size]
        client.closed = request.closes
        outcomes = []
        for at, (name, line) in enumerate(self.routed(number, request)):
            link = self.links[name]
            outcomes.append(Awaited if link.up else None)
            if link.up:
                link.living().going += line
                link.living().tags.append(Tag(number, client.taken, at))
        client.unanswered.append((request, outcomes))
        client.taken += 1
        return True

    def emit(self, number):
        client = self.clients[number]
        if client.gone or not client.unanswered or Awaited in client.unanswered[0][1]:
            return False
        client.put += self.answer(*client.unanswered.pop(0))
        return True

    def answer(self, request, outcomes):
        return answered(request, outcomes, self.losses)

    def takes(self, number, count):
        client = self.clients[number]
        moved = 0 if client.gone else min(count, client.unsent())
        client.took += moved
        return moved

    def becomes(self, tag, outcome):
        client = self.clients[tag.client]
        at = tag.request - client.taken
        client.unanswered[at][1][tag.atom] = outcome

    # Links and servers

    def toserver(self, name, generation, count):
        way = self.links[name].ways.get(generation)
        moved = min(count, len(way.going)) if way else 0
        if moved:
            way.connection.unread += bytes(way.going[:moved])
            del way.going[:moved]
        return moved

    def serve(self, name, generation, moment):
        site = self.sites[name[1]]
        way = self.links[name].ways.get(generation)
        if way is None:
            return False
        unread, sent = len(way.connection.unread), len(way.connection.output)
        site.cache.turn(way.connection, moment)
        if len(way.connection.unread) == unread:
            return False
        reply = way.connection.output[sent:]
        site.history.append(Entry(*way.tags[len(way.replies)], moment, 0, reply))
        way.replies.append(reply)
        return True

    def toproxy(self, name, count):
        link = self.links[name]
        connection = link.living().connection if link.up else Connection()
        moved = min(count, len(connection.output))
        connection.output = connection.output[moved:]
        link.come += moved
        return moved

    def reply(self, name):
        link = self.links[name]
        replies = link.living().replies[link.replied :] if link.up else []
        if not replies or link.come < len(replies[0]):
            return False
        self.becomes(link.waiting()[0], replies[0])
        link.come -= len(replies[0])
        link.replied += 1
        return True

    def lost(self, name):
        link = self.links[name]
        if not link.up:
            return False
        for tag in link.waiting():
            self.becomes(tag, None)
        link.up, link.come, link.replied = False, 0, 0
        self.sites[name[1]].lost.append((name, link.generation))
        return True

    def back(self, name):
        link = self.links[name]
        if link.up or link.generation == ALL or self.connections(name[1]) >= MOST_CONNECTIONS:
            return False
        link.up = True
        link.generation += 1
        link.ways[link.generation] = Way()
        return True

    def connections(self, place):
        """How many connections a server has, of all proxies."""
        return sum(len(link.ways) for (_, at), link in self.links.items() if at == place)

    def end(self, name, generation):
        link = self.links[name]
        if generation not in link.ways or link.lives(generation):
            return False
        del link.ways[generation]
        self.sites[name[1]].lost.remove((name, generation))
        return True

    def join(self, proxy, address):
        """A server joins at a proxy: a new one if the proxy has all servers, else the next one, whose link is down until it comes back."""
        place = self.rings[proxy].servers
        is_new = place == len(self.sites)
        if is_new:
            self.sites.append(Site(self.new_cache()))
        self.rings[proxy] = self.rings[proxy].joined(address)
        self.links[proxy, place] = Link(is_new)
        return True

    def restart(self, place):
        """A server dies and begins anew with nothing: each link to it that is up is lost first, and no way to it is left."""
        names = [name for name in sorted(self.links) if name[1] == place]
        for name in names:
            self.lost(name)
        for name in names:
            self.links[name].ways = {}
        self.sites[place].cache, self.sites[place].lost = self.new_cache(), []
        return True

    def proxyrestart(self, proxy):
        """A proxy dies: its clients that are there go, and then each of its links that is up is lost."""
        for number in self.script.clients_of(proxy):
            self.gone(number)
        for name in self.links_of(proxy):
            self.lost(name)
        return True

    # Drains

    def drain(self, moment):
        """Lost generations end, and then rounds follow until one does nothing. What was done is kept, and it always applies."""
        done = []
        for site in self.sites:
            for name, generation in list(site.lost):
                self.does(done, "end", name, generation)
        going = True
        while going:
            before = len(done)
            self.round(done, moment)
            going = len(done) > before
        self.drains.append(done)
        return True

    def round(self, done, moment):
        for client in self.script.all_clients():
            self.in_turn(done, ("turn", client))
        for proxy in range(len(self.rings)):
            for name in self.links_of(proxy):
                generation = self.links[name].generation
                self.in_turn(done, ("toserver", name, generation, ALL), ("serve", name, generation, moment))
                self.in_turn(done, ("toproxy", name, ALL), ("reply", name))
        for client in self.script.all_clients():
            self.in_turn(done, ("emit", client), ("takes", client, ALL))

    def in_turn(self, done, *events):
        """Each of these as often as it applies, in sequence, until none does."""
        going = True
        while going:
            before = len(done)
            for event in events:
                while self.does(done, *event):
                    pass
            going = len(done) > before

    def does(self, done, *event):
        if not self.step(event):
            return False
        done.append(event)
        return True


def played(script, new_cache=Server):
    """The output of a pool that has played a script."""
    pool = Pool(script, new_cache)
    return pool.told([pool.step(event) for event in script.events])


# What is printed


def printed(told):
    return "".join(f"client {number}: {escaped(out)}\n" for number, out in enumerate(told.outs))


def as_told(told):
    """The lines of an account, as the program writes them."""
    lines = [f"client {number}: {escaped(out)}" for number, out in enumerate(told.outs)]
    lines += [f"event {number}: {word_of(done)}" for number, done in enumerate(told.done)]
    lines += [f"text {number}: {escaped(text)}" for number, text in enumerate(told.texts)]
    for place, history in enumerate(told.histories):
        lines.append(f"history {place}: {len(history)}")
        for entry in history:
            whose = f"server {place}, client {entry.client}, request {entry.request}, command {entry.atom}"
            lines.append(f"{whose}{', refused' * entry.refused}, moment {entry.moment}: {escaped(entry.reply)}")
    return "".join(line + "\n" for line in lines)


def word_of(done):
    return "done" if done else "nothing"


def traced(lines, script, told):
    """A line for each event: what it did, with the words of its line, if they are text."""
    for number, done in zip(script.numbers, told.done):
        words = lines[number - 1].encode("latin-1")
        yield f"line {number}: {word_of(done)}".encode() + (b": " + words if is_text(words) else b"") + b"\n"


def is_text(words):
    try:
        return words.decode() is not None
    except UnicodeDecodeError:
        return False


def main(words):
    """Plays the script on standard input. Returns the exit status."""
    lines = sys.stdin.buffer.read().decode("latin-1").split("\n")
    try:
        script = Script(lines)
    except BadLine as bad:
        print(f"mc_sim: {bad}", file=sys.stderr)
        return 2
    told = played(script)
    if "--trace" in words:
        sys.stderr.buffer.writelines(traced(lines, script, told))
    print(as_told(told) if "--account" in words else printed(told), end="")
    return 0


if __name__ == "__main__":
    sys.exit(main(sys.argv[1:]))
