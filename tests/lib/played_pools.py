"""A pool of one server, played by a script on sockets of this machine, one for each proxy: a right one, and some that make a mistake each. They
test a checker of pools.

    with Relay(seed, proxies=2) as pool:
        ..pool.connected(0)..

Each request is done by the model of a server (model.py), one at a time. Now and then the link to the server is lost with a request, which is
answered `SERVER_ERROR link lost`: it is done now, later or never.
"""

import contextlib
import random
import socket
import threading

from live_pool import LOST
from model import Connection, Server
from pool_requests import Reader
from servers import HOST, connected

BUDGET, ITEMS = 67108864, 64
LOSES, IS_LATE, ERRS = 0.03, 0.2, 0.05  # how often a link is lost, a late request is done before another, and a mistake is made
SECONDS_TO_SWAP = 0.01


class Relay:
    """A pool that makes no mistake. `restart` has its server begin anew. `proxy_of` has the proxy of each connection."""

    def __init__(self, seed, losses="told", proxies=1):
        self.dice, self.losses, self.lock = random.Random(seed), losses, threading.RLock()
        self.cache, self.late, self.proxy_of = self.new_cache(), [], {}
        self.listeners = [socket.create_server((HOST, 0)) for _ in range(proxies)]
        self.ended = False
        for proxy in range(proxies):
            threading.Thread(target=self.accepts, args=(proxy,), daemon=True).start()

    def __enter__(self):
        return self

    def __exit__(self, *_):
        self.ended = True
        self.closes(self.listeners)
        self.closes(list(self.proxy_of))

    @staticmethod
    def closes(sockets):
        for each in sockets:
            with contextlib.suppress(OSError):
                each.shutdown(socket.SHUT_RDWR)
            each.close()

    def connected(self, number):
        """A connection of the client of a number, to its proxy."""
        return connected(self.listeners[number % len(self.listeners)].getsockname()[1])

    def accepts(self, proxy):
        with contextlib.suppress(OSError):
            while not self.ended:
                connection, _ = self.listeners[proxy].accept()
                self.proxy_of[connection] = proxy
                threading.Thread(target=self.serves, args=(connection,), daemon=True).start()

    def serves(self, connection):
        unread, reader = b"", Reader()
        with contextlib.suppress(OSError):
            while piece := connection.recv(65536):
                unread += piece
                while request := reader.read(unread):
                    text, unread = unread[: request.size], unread[request.size :]
                    connection.sendall(self.answer(connection, text))

    # How a pool handles a request. A mistake overrides one of these.

    def new_cache(self):
        return Server(0, BUDGET, ITEMS)

    def restart(self):
        with self.lock:
            self.cache = self.new_cache()

    def answer(self, connection, text):
        """The answer to a request of a client."""
        with self.lock:
            if self.late and self.errs(IS_LATE):
                self.executed(self.late.pop())
            return self.lost(text) if self.errs(LOSES) else self.executed(text)

    def lost(self, text):
        """The answer to a request with which the link is lost."""
        kind = self.dice.randrange(3)
        if kind == 0:
            self.executed(text)
        elif kind == 1:
            self.late.append(text)
        name = text.split()[0]
        return LOST if self.losses == "told" or name not in MISSES else MISSES[name]

    def executed(self, text):
        connection = Connection()
        connection.unread = text
        self.cache.turn(connection, 0)
        return connection.output

    def errs(self, how_often=ERRS):
        return self.dice.random() < how_often


class AnswersNothing(Relay):
    """Each connection ends at its first request."""

    def serves(self, connection):
        with contextlib.suppress(OSError):
            connection.recv(65536)
            connection.shutdown(socket.SHUT_RDWR)


MISSES = {b"get": b"END\r\n", b"gets": b"END\r\n", b"mg": b"EN\r\n"}


class SendsAgain(Relay):
    """A lost request is sent again, once the link is back."""

    def lost(self, text):
        self.executed(text)
        self.late.append(text)
        return LOST


class SwapsReplies(Relay):
    """Replies of two clients are swapped, if they have one form: the value, or the number, is that of the other's request."""

    def __init__(self, *words, **named):
        self.waits, self.changed = None, threading.Condition()
        super().__init__(*words, **named)

    def answer(self, connection, text):
        reply = super().answer(connection, text)
        form = form_of(reply)
        with self.changed:
            if form is None:
                return reply
            if self.waits is None and self.errs():
                return self.waits_for_another(connection, form, reply)
            if self.waits is None or self.waits[:2] != [form, False] or self.waits[2] is connection:
                return reply
            other, self.waits[1], self.waits[3] = self.waits[3], True, reply
            self.changed.notify_all()
            return with_key_of(reply, other)

    def waits_for_another(self, connection, form, reply):
        self.waits = waits = [form, False, connection, reply]
        self.changed.wait_for(lambda: waits[1], SECONDS_TO_SWAP)
        self.waits = None
        return with_key_of(reply, waits[3])


def form_of(reply):
    """What replies may be swapped without a client's notice: those of one number, and of one value without a number."""
    if reply[:-2].isdigit():
        return "number"
    line, *value = reply.split(b"\r\n")
    is_one = line.startswith(b"VALUE ") and len(line.split()) == 4 and value[1:] == [b"END", b""]
    return ("value", value[0].isdigit()) if is_one else None


def with_key_of(reply, other):
    """Another reply, with the key of this one."""
    if not reply.startswith(b"VALUE "):
        return other
    return other.replace(other.split(b" ", 2)[1], reply.split(b" ", 2)[1], 1)


class ShowsOlder(Relay):
    """A get is answered as another of the same key was, a while before."""

    def __init__(self, *words, **named):
        self.before = {}
        super().__init__(*words, **named)

    def executed(self, text):
        reply = super().executed(text)
        if not text.startswith(b"get ") or reply == b"END\r\n":
            return reply
        older = self.before.get(text, reply)
        if self.errs():
            return older
        self.before[text] = reply
        return reply


class ComesBack(Relay):
    """A get of a stored item misses. Later gets show it."""

    def executed(self, text):
        reply = super().executed(text)
        return b"END\r\n" if text.startswith(b"get ") and self.errs() else reply


class KeepsItems(Relay):
    """A server that is restarted keeps its items."""

    def restart(self):
        pass


class AnswersAhead(Relay):
    """A store is answered, and done later."""

    def executed(self, text):
        if not text.startswith(b"set ") or not self.errs():
            return super().executed(text)
        self.late.append(text)
        return b"STORED\r\n"


class AddsAlways(Relay):
    """An add stores, though an item is stored. No client can see that: the register may have forgotten it."""

    def executed(self, text):
        text = b"set" + text[3:] if text.startswith(b"add ") and self.errs() else text
        return super().executed(text)


class Uncompared(Server):
    def store(self, mode, key, flags, exptime, block, compare, moment):
        held = self.settle(key, moment)
        compare = held.number if compare is not None and held is not None else compare
        return super().store(mode, key, flags, exptime, block, compare, moment)


class ComparesNothing(Relay):
    """A cas stores, whatever number the item has."""

    def new_cache(self):
        return Uncompared(0, BUDGET, ITEMS)


class Repeating(Server):
    def next_number(self):
        return super().next_number() // 2 + 1


class GivesTwice(Relay):
    """Two items in turn get one number."""

    def new_cache(self):
        return Repeating(0, BUDGET, ITEMS)


class CountsForNothing(Relay):
    """A count is answered by its number, and is not done."""

    def executed(self, text):
        before = list(self.cache.items)
        reply = super().executed(text)
        if text.startswith(b"incr ") and self.errs():
            self.cache.items = before
        return reply


# Mistakes between proxies


class AnotherServer(Relay):
    """Each proxy takes another server for the owner of a key."""

    def __init__(self, *words, **named):
        super().__init__(*words, **named)
        self.restart()

    def restart(self):
        with self.lock:
            self.caches = [self.new_cache() for _ in self.listeners]

    def answer(self, connection, text):
        with self.lock:
            self.cache = self.caches[self.proxy_of[connection]]
            return super().answer(connection, text)


class RemembersGets(Relay):
    """A proxy answers a get as it last did, if no other command on that key has passed through it since."""

    def __init__(self, *words, **named):
        self.known = {}
        super().__init__(*words, **named)

    def answer(self, connection, text):
        key = self.proxy_of[connection], text.split()[1]
        with self.lock:
            if not text.startswith(b"get ") or text.count(b" ") > 1:
                self.known.pop(key, None)
            elif key in self.known and self.errs():
                return self.known[key]
            reply = super().answer(connection, text)
            if reply.startswith(b"VALUE ") and text.startswith(b"get ") and text.count(b" ") == 1:
                self.known[key] = reply
            return reply


MISTAKES_OF_TWO = (AnotherServer, RemembersGets)
MISTAKES = (SendsAgain, SwapsReplies, ShowsOlder, ComesBack, KeepsItems, AnswersAhead, ComparesNothing, GivesTwice, CountsForNothing)
