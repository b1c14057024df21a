#!/usr/bin/env python3
"""Tries each call that pylibmc has on a server, in the text protocol (Debian: python3-pylibmc).

pylibmc is over libmemcached. Its calls are made with its ordinary settings, and again with others that change what is
sent: no blocking, calls that are kept until a buffer is full, no replies, keys spread over two servers by ketama.
"""

import contextlib
import itertools
import sys
import time

import pylibmc
from trial import Raises, main

# Pieces of lines of docs/PROTOCOL.md.
LARGE_EXPTIME = "| An exptime has 64 bits"
LARGE_VALUE = "| A value has at most 1,048,576 bytes"
NO_BINARY = "no binary protocol"
NO_STATS = "| `stats`, `verbosity`,"
OLDER_STAYS = "| A refused store leaves the older item"

MEGABYTE = 1048576


def each(kind, rows):
    """The calls with the kind of client in front of each name."""
    for row in rows:
        yield (f"{kind}: {row[0]}", *row[1:])


def stores(client):
    yield "set", lambda: client.set("a", b"x"), True
    yield "get", lambda: client.get("a"), b"x"
    yield "get of a key that is not held", lambda: client.get("none"), None
    yield "get with a default", lambda: client.get("none", b"d"), b"d"
    yield "set of line ends", lambda: client.set("a", b"\r\nEND\r\n\0\xff"), True
    yield "get of line ends", lambda: client.get("a"), b"\r\nEND\r\n\0\xff"
    yield "set of nothing", lambda: client.set("a", b""), True
    yield "get of nothing", lambda: client.get("a"), b""
    yield "add of a held key", lambda: client.add("a", b"y"), False
    yield "add", lambda: client.add("b", b"y"), True
    yield "replace", lambda: client.replace("b", b"m"), True
    yield "replace of a key that is not held", lambda: client.replace("none", b"z"), False
    yield "append", lambda: client.append("b", b"n"), True
    yield "prepend", lambda: client.prepend("b", b"l"), True
    yield "append to a key that is not held", lambda: client.append("none", b"n"), False
    yield "prepend to a key that is not held", lambda: client.prepend("none", b"n"), False
    yield "get of what was put together", lambda: client.get("b"), b"lmn"
    yield "delete", lambda: client.delete("b"), True
    yield "delete of a key that is not held", lambda: client.delete("b"), False


def touches(client):
    yield "set for a second", lambda: client.set("e", b"x", time=1), True
    yield "set until a moment", lambda: client.set("f", b"x", time=int(time.time()) + 3600), True
    yield "touch", lambda: client.set("g", b"x", time=1) and client.touch("g", 3600), True
    yield "touch of a key that is not held", lambda: client.touch("none", 60), False
    yield "set with a negative time", lambda: client.set("h", b"x", time=-1), True
    yield "get of it", lambda: client.get("h"), b"x", LARGE_EXPTIME
    yield "get of it after delete", lambda: (client.delete("h"), client.get("h"))[1], None
    yield "get_multi 2 seconds later", lambda: time.sleep(2.1) or client.get_multi(["e", "f", "g"]), {"f": b"x", "g": b"x"}


def counts(client):
    yield "flush_all", lambda: client.flush_all(), True
    yield "incr of a key that is not held", lambda: client.incr("n"), Raises("NotFound")
    yield "decr of a key that is not held", lambda: client.decr("n"), Raises("NotFound")
    yield "set of a number", lambda: client.set("n", 10), True
    yield "incr", lambda: client.incr("n", 5), 15
    yield "decr", lambda: client.decr("n", 6), 9
    yield "get of a number", lambda: client.get("n"), 9
    yield "decr below 0", lambda: client.decr("n", 100), 0
    yield "incr_multi", lambda: client.set("o", 5) and client.incr_multi(["n", "o"], delta=2), None
    yield "get_multi of numbers", lambda: client.get_multi(["n", "o"]), {"n": 2, "o": 7}
    yield "incr_multi with a prefix", lambda: client.incr_multi(["n"], key_prefix="none-"), Raises("NotFound")
    yield "set of a text", lambda: client.set("n", "five"), True
    yield "incr of a text", lambda: client.incr("n"), Raises("ClientError")


def compares(client):
    seen = {}

    def gets(key):
        value, seen[key] = client.gets(key)
        return value

    yield "gets of a key that is not held", lambda: client.gets("none"), (None, None)
    yield "set", lambda: client.set("c", b"x"), True
    yield "gets", lambda: gets("c"), b"x"
    yield "cas", lambda: client.cas("c", b"y", seen["c"]), True
    yield "cas with an older number", lambda: client.cas("c", b"z", seen["c"]), False
    yield "cas of a key that is not held", lambda: client.cas("none", b"z", seen["c"]), Raises("NotFound")
    yield "get of what cas stored", lambda: client.get("c"), b"y"


def many(client):
    values = {f"m{number}": f"value {number}" for number in range(200)}
    yield "set_multi", lambda: client.set_multi(values), []
    yield "get_multi", lambda: client.get_multi(list(values) + ["none"]), values
    yield "set_multi with a prefix", lambda: client.set_multi({"x": 1, "y": 2}, key_prefix="p-"), []
    yield "get_multi with a prefix", lambda: client.get_multi(["x", "y", "z"], key_prefix="p-"), {"x": 1, "y": 2}
    yield "get of the key in full", lambda: client.get("p-y"), 2
    yield "add_multi", lambda: client.add_multi({"x": 3, "z": 4}, key_prefix="p-"), ["x"]
    yield "delete_multi", lambda: client.delete_multi(["x", "y", "z"], key_prefix="p-"), True
    yield "delete_multi of keys that are not held", lambda: client.delete_multi(["x", "y"], key_prefix="p-"), False


def values_of_python(client):
    for value in (True, 7, 2**80, 2.5, "\u20ac", b"\0\xff", [1, "two"], {"k": (None, 3)}, None):
        yield f"set and get of {value!r}", lambda: (client.set("v", value), client.get("v")), (True, value)
    long = b"0123456789" * 5000
    yield "set and get, compressed", lambda: (client.set("v", long, min_compress_len=100), client.get("v")), (True, long)


def as_mapping(client):
    def take_out():
        del client["i"]

    yield "[] of a key that is not held", lambda: client["i"], Raises("KeyError")
    yield "[] that stores", lambda: client.__setitem__("i", b"x"), None
    yield "[]", lambda: client["i"], b"x"
    yield "in", lambda: ("i" in client, "none" in client), (True, False)
    yield "del", take_out, None
    yield "in, of what del took out", lambda: "i" in client, False


def limits(client):
    key = "k" * 250
    yield "set of a key of 250 bytes", lambda: (client.set(key, b"x"), client.get(key)), (True, b"x")
    yield "set of 1,048,576 bytes", lambda: client.set("a", b"v" * MEGABYTE), True, LARGE_VALUE
    yield "get of 1,048,576 bytes", lambda: client.get("a") == b"v" * MEGABYTE, True, LARGE_VALUE
    yield "set of a small value", lambda: client.set("a", b"small"), True
    yield "set of 2,097,152 bytes", lambda: client.set("a", b"v" * 2 * MEGABYTE), Raises("TooBig")
    yield "get of the older value", lambda: client.get("a"), b"small", OLDER_STAYS
    yield "set and get after that", lambda: (client.set("a", b"x"), client.get("a")), (True, b"x")


def of_client_alone(client, port):
    yield "get_stats", lambda: client.get_stats(), Raises("Error"), NO_STATS
    yield "get after that", lambda: client.get("a"), b"x"
    yield "clone, and get", lambda: client.clone().get("a"), b"x"
    yield "disconnect_all", lambda: client.disconnect_all(), None
    yield "get, which connects again", lambda: client.get("a"), b"x"
    yield "flush_all", lambda: client.flush_all(), True
    yield "get of what was flushed", lambda: client.get("a"), None
    threads = pylibmc.ThreadMappedPool(client)
    pool = pylibmc.ClientPool(client, 2)

    def with_pool(each_pool):
        with each_pool.reserve() as reserved:
            return reserved.set("q", b"x"), reserved.get("q")

    yield "ThreadMappedPool", lambda: with_pool(threads), (True, b"x")
    yield "ClientPool", lambda: with_pool(pool), (True, b"x")
    binary = pylibmc.Client([f"127.0.0.1:{port}"], binary=True, behaviors={"_poll_timeout": 300, "receive_timeout": 300000})
    yield "binary protocol: set", lambda: binary.set("a", b"x"), Raises("ConnectionError"), NO_BINARY


def buffered(client):
    """Stores that are kept back until something is asked. pylibmc reports each as failed: error 32 is `BUFFERED`."""

    def set_each(numbers):
        for number in numbers:
            with contextlib.suppress(pylibmc.Error):
                client.set(f"k{number}", number)

    yield "set, kept back", lambda: client.set("k", b"x"), Raises("Error", "error 32")
    yield "get after it", lambda: client.get("k"), b"x"
    yield "hundred sets, kept back", lambda: set_each(range(100)), None
    yield "get_multi after them", lambda: sum(client.get_multi([f"k{number}" for number in range(100)]).values()), 4950


def unanswered(client):
    yield "set, noreply", lambda: client.set("u", b"x"), True
    yield "append, noreply", lambda: client.append("u", b"y"), True
    yield "prepend, noreply", lambda: client.prepend("u", b"w"), True
    yield "get after them", lambda: client.get("u"), b"wxy"
    yield "delete, noreply", lambda: client.delete("u"), True
    yield "get after it", lambda: client.get("u"), None


def calls(first, second):
    servers = [f"127.0.0.1:{server.port}" for server in (first, second)]
    ordinary = pylibmc.Client(servers[:1], behaviors={"cas": True, "tcp_nodelay": True})
    parts = (stores, touches, counts, compares, many, values_of_python, as_mapping, limits)
    yield from each("Client", itertools.chain.from_iterable(part(ordinary) for part in parts))
    yield from each("Client", of_client_alone(ordinary, first.port))
    unblocked = pylibmc.Client(servers[:1], behaviors={"no_block": True, "cas": True, "verify_keys": True})
    parts = (stores, counts, compares, many)
    yield from each("no_block", itertools.chain.from_iterable(part(unblocked) for part in parts))
    spread = pylibmc.Client(servers, behaviors={"ketama": True, "cas": True})
    yield from each("ketama over two", itertools.chain.from_iterable(part(spread) for part in parts))
    yield from each("buffer_requests", buffered(pylibmc.Client(servers[:1], behaviors={"buffer_requests": True})))
    yield from each("noreply", unanswered(pylibmc.Client(servers[:1], behaviors={"_noreply": True})))


if __name__ == "__main__":
    library = pylibmc.libmemcached_version
    print(f"pylibmc {pylibmc.__version__}, built for libmemcached {library}, Python {sys.version.split()[0]}")
    sys.exit(main(__doc__, calls))
