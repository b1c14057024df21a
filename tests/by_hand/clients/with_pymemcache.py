#!/usr/bin/env python3
"""Tries each call that pymemcache has on a server (Debian: python3-pymemcache).

The calls of Client are made on Client, and those that the others have on PooledClient and HashClient too: HashClient over
one server, and with pools over two. A call that a version of pymemcache does not have is reported and left out.
"""

import itertools
import sys
import time

import pymemcache
from pymemcache import serde
from pymemcache.client.base import Client, PooledClient
from pymemcache.client.hash import HashClient
from pymemcache.client.retrying import RetryingClient
from trial import Raises, main

FORMAT = Raises("MemcacheClientError", "bad command line format")
NO_NUMBER = Raises("MemcacheClientError", "cannot increment or decrement non-numeric value")
TOO_LARGE = Raises("MemcacheServerError", "object too large for cache")
MEGABYTE = 1048576

# Pieces of lines of docs/PROTOCOL.md.
CONTROL_BYTES = "| A key with a control byte or 127 is refused"
LARGE_FLAGS = "| Flags above 4,294,967,295 are refused"
LARGE_VALUE = "| A value has at most 1,048,576 bytes"
LONG_LINE = "| A line has at most 65,536 bytes"
NEVER_HIDDEN = "| `noreply` never hides an error line"
NO_STATS = "| `stats`, `verbosity`,"
OLDER_STAYS = "| A refused store leaves the older item"
PADDING = "| `incr` and `decr` store a number with no padding"
TOO_LONG = "| `append` and `prepend` that would make a value too large"
VERSION = "| `version` is always"


def each(kind, rows):
    """The calls with the kind of client in front of each name."""
    for row in rows:
        yield (f"{kind}: {row[0]}", *row[1:])


def stores(client):
    yield "set", lambda: client.set("a", "x"), True
    yield "get", lambda: client.get("a"), b"x"
    yield "get of a key that is not held", lambda: client.get("none"), None
    yield "get with a default", lambda: client.get("none", default=b"d"), b"d"
    yield "set of line ends", lambda: client.set("a", b"\r\nEND\r\n\0\xff"), True
    yield "get of line ends", lambda: client.get("a"), b"\r\nEND\r\n\0\xff"
    yield "set of nothing", lambda: client.set("a", b""), True
    yield "get of nothing", lambda: client.get("a"), b""
    yield "add of a held key", lambda: client.add("a", "y"), False
    yield "add", lambda: client.add("b", "y"), True
    yield "replace", lambda: client.replace("b", "m"), True
    yield "replace of a key that is not held", lambda: client.replace("none", "z"), False
    yield "append", lambda: client.append("b", "n"), True
    yield "prepend", lambda: client.prepend("b", "l"), True
    yield "append to a key that is not held", lambda: client.append("none", "n"), False
    yield "prepend to a key that is not held", lambda: client.prepend("none", "n"), False
    yield "get of what was put together", lambda: client.get("b"), b"lmn"
    yield "delete", lambda: client.delete("b"), True
    yield "delete of a key that is not held", lambda: client.delete("b"), False
    yield "touch", lambda: client.touch("a", 60), True
    yield "touch of a key that is not held", lambda: client.touch("none", 60), False
    yield "touch with -1", lambda: client.touch("a", -1), True
    yield "get of what touch ended", lambda: client.get("a"), None


def counts(client):
    yield "incr of a key that is not held", lambda: client.incr("n", 1), None
    yield "decr of a key that is not held", lambda: client.decr("n", 1), None
    yield "set of a number", lambda: client.set("n", 10), True
    yield "incr", lambda: client.incr("n", 5), 15
    yield "decr", lambda: client.decr("n", 6), 9
    yield "get of a number that got shorter", lambda: client.get("n"), b"9", PADDING
    yield "decr below 0", lambda: client.decr("n", 100), 0
    yield "set of the last number", lambda: client.set("n", 2**64 - 1), True
    yield "incr past the last number", lambda: client.incr("n", 3), 2
    yield "set of a text", lambda: client.set("n", "five"), True
    yield "incr of a text", lambda: client.incr("n", 1), NO_NUMBER
    yield "decr of a text", lambda: client.decr("n", 1), NO_NUMBER
    yield "incr by -1", lambda: client.incr("n", -1), Raises("MemcacheClientError", "invalid numeric delta argument")
    yield "incr by 2^64", lambda: client.incr("n", 2**64), Raises("MemcacheClientError", "invalid numeric delta argument")


def compares(client):
    seen = {}

    def gets(key):
        value, seen[key] = client.gets(key)
        return value

    yield "gets of a key that is not held", lambda: client.gets("none"), (None, None)
    yield "set", lambda: client.set("c", "x"), True
    yield "gets", lambda: gets("c"), b"x"
    yield "cas", lambda: client.cas("c", "y", seen["c"]), True
    yield "cas with an older number", lambda: client.cas("c", "z", seen["c"]), False
    yield "cas of a key that is not held", lambda: client.cas("none", "z", seen["c"]), None
    yield "get of what cas stored", lambda: client.get("c"), b"y"
    yield "gets, and append", lambda: (gets("c"), client.append("c", "z")), (b"y", True)
    yield "cas with the number before an append", lambda: client.cas("c", "w", seen["c"]), False
    yield "gets, and touch", lambda: (gets("c"), client.touch("c", 60)), (b"yz", True)
    yield "cas with the number before a touch", lambda: client.cas("c", "w", seen["c"]), True


def many(client):
    values = {f"m{number}": f"value {number}".encode() for number in range(100)}
    shown = {f"m{number}": f"value {number}".encode() for number in range(2, 100)}
    yield "set_many", lambda: client.set_many(values), []
    yield "delete_many", lambda: client.delete_many(["m0", "m1", "none"]), True
    yield "get_many", lambda: client.get_many(list(values) + ["none"]), shown
    yield "get_many of no keys", lambda: client.get_many([]), {}
    yield "gets_many", lambda: {key: value for key, (value, _) in client.gets_many(list(values)).items()}, shown
    yield "gets_many, the numbers", lambda: {cas.isdigit() for _, cas in client.gets_many(["m2", "m3"]).values()}, {True}
    yield "set_multi", lambda: client.set_multi({"p": "1", "q": "2"}), []
    yield "get_multi", lambda: client.get_multi(["p", "q"]), {"p": b"1", "q": b"2"}
    yield "delete_multi", lambda: client.delete_multi(["p", "q"]), True
    yield "get_multi of what was deleted", lambda: client.get_multi(["p", "q"]), {}


def unanswered(client):
    """Calls with noreply. Calls that are answered show what they did: on one connection they are executed later."""
    yield "set, noreply", lambda: client.set("u", "x", noreply=True), True
    yield "add, noreply", lambda: client.add("u", "y", noreply=True), True
    yield "append, noreply", lambda: client.append("u", "b", noreply=True), True
    yield "prepend, noreply", lambda: client.prepend("u", "a", noreply=True), True
    yield "get", lambda: client.get("u"), b"axb"
    yield "replace, noreply", lambda: client.replace("u", "7", noreply=True), True
    yield "incr, noreply", lambda: client.incr("u", 5, noreply=True), None
    yield "decr, noreply", lambda: client.decr("u", 1, noreply=True), None
    yield "touch, noreply", lambda: client.touch("u", 60, noreply=True), True
    yield "gets, and cas, noreply", lambda: client.cas("u", "z", client.gets("u")[1], noreply=True), True
    yield "get of what cas stored", lambda: client.get("u"), b"z"
    yield "set_many, noreply", lambda: client.set_many({"v": "1", "w": "2"}, noreply=True), []
    yield "delete, noreply", lambda: client.delete("u", noreply=True), True
    yield "delete_many, noreply", lambda: client.delete_many(["v"], noreply=True), True
    yield "get_many", lambda: client.get_many(["u", "v", "w"]), {"w": b"2"}


def as_mapping(client):
    def take_out():
        del client["i"]

    yield "[] of a key that is not held", lambda: client["i"], Raises("KeyError")
    yield "[] that stores", lambda: client.__setitem__("i", "x"), None
    yield "[]", lambda: client["i"], b"x"
    yield "del", take_out, None
    yield "get of what del took out", lambda: client.get("i"), None


def expires(client):
    yield "set, dead at once", lambda: client.set("d", "x", expire=-1), True
    yield "get of what was dead at once", lambda: client.get("d"), None
    yield "set for a second", lambda: client.set("e", "x", expire=1), True
    yield "set until a moment", lambda: client.set("f", "x", expire=int(time.time()) + 3600), True
    yield "set until a moment that is past", lambda: client.set("g", "x", expire=2592001), True
    yield "get 2 seconds later", lambda: time.sleep(2.1) or client.get_many(["e", "f", "g"]), {"f": b"x"}
    yield "flush_all in 3 seconds", lambda: client.flush_all(delay=3), True
    yield "get at once", lambda: client.get("f"), b"x"
    # A second more, since memcached loses items that are stored in the second of its flush, by a clock that may be late.
    yield "get 4 seconds later", lambda: time.sleep(4.1) or client.get("f"), None


def flushes(client):
    yield "flush_all", lambda: client.set("f", "x") and client.flush_all(), True
    yield "get of what was flushed", lambda: client.get("f"), None
    yield "flush_all, noreply", lambda: client.set("f", "x") and client.flush_all(noreply=True), True


def limits(client):
    key = "k" * 250
    yield "set of a key of 250 bytes", lambda: client.set(key, "x"), True
    yield "get of a key of 250 bytes", lambda: client.get(key), b"x"
    yield "set of a key of 251 bytes", lambda: client.set(key + "k", "x"), Raises("MemcacheIllegalInputError")
    yield "set of a key with a control byte", lambda: client.set("a\x01b", "x"), FORMAT, CONTROL_BYTES
    yield "get after that", lambda: client.get(key), b"x"
    yield "set with the largest flags", lambda: client.set("a", "x", flags=2**32 - 1), True
    yield "set with larger flags", lambda: client.set("a", "x", flags=2**32), FORMAT, LARGE_FLAGS
    yield "set of 1,048,576 bytes", lambda: client.set("a", b"v" * MEGABYTE), True, LARGE_VALUE
    yield "get of 1,048,576 bytes", lambda: client.get("a") == b"v" * MEGABYTE, True, LARGE_VALUE
    yield "set of 1,048,577 bytes", lambda: client.set("b", b"v" * (MEGABYTE + 1)), TOO_LARGE
    yield "set of 1,000,000 bytes", lambda: client.set("a", b"w" * 1000000), True
    yield "append to it that makes it too large", lambda: client.append("a", b"w" * 100000), TOO_LARGE, TOO_LONG
    yield "get of it", lambda: client.get("a") == b"w" * 1000000, True
    yield "set of a small value", lambda: client.set("a", "small"), True
    yield "set that is refused", lambda: client.set("a", b"v" * 2 * MEGABYTE), TOO_LARGE
    yield "get of the older value", lambda: client.get("a"), b"small", OLDER_STAYS


def long_lines(client):
    keys = [f"key{number:05}" for number in range(10000)]
    too_long = Raises("MemcacheClientError", "line too long")
    yield "set", lambda: client.set("key00000", "x"), True
    yield "get_many of 5,000 keys", lambda: client.get_many(keys[:5000]), {"key00000": b"x"}
    yield "get_many of 10,000 keys", lambda: client.get_many(keys), too_long, LONG_LINE
    yield "get after that", lambda: client.get("key00000"), b"x"
    for size, most in ((20, 3120), (250, 261)):
        named = [f"{number:0{size}}" for number in range(most + 1)]
        yield f"get_many of {most} keys of {size} bytes", lambda: client.get_many(named[:most]), {}
        yield f"get_many of {most + 1} keys of {size} bytes", lambda: client.get_many(named), too_long, LONG_LINE


def tells(client):
    unknown = Raises("MemcacheUnknownCommandError")
    yield "version", lambda: client.version(), b"1.6.0", VERSION
    yield "stats", lambda: client.stats(), unknown, NO_STATS
    yield "stats of slabs", lambda: client.stats("slabs"), unknown, NO_STATS
    yield "shutdown, which is not allowed", lambda: client.shutdown(), unknown
    yield "set and get after that", lambda: (client.set("a", "x"), client.get("a")), (True, b"x")


def of_client_alone(client):
    yield "cache_memlimit", lambda: client.cache_memlimit(64), Raises("MemcacheUnknownCommandError"), NO_STATS
    yield "close", lambda: (client.set("a", "x"), client.close()), (True, None)
    yield "get, which connects again", lambda: client.get("a"), b"x"
    yield "quit", lambda: client.quit(), None
    yield "get, which connects again after quit", lambda: client.get("a"), b"x"
    yield "disconnect_all", lambda: client.disconnect_all(), None


def of_later_versions(client):
    """Calls that not every version has."""
    if hasattr(client, "gat"):
        yield "gat", lambda: client.set("t", "x") and client.gat("t", expire=60), b"x"
        yield "gat of a key that is not held", lambda: client.gat("none", expire=60), None
        yield "gats", lambda: client.gats("t", expire=-1)[0], b"x"
        yield "get of what gats ended", lambda: client.get("t"), None
    if hasattr(client, "raw_command"):
        yield "raw_command of version", lambda: client.raw_command("version"), b"VERSION 1.6.0", VERSION
        yield "raw_command of ms", lambda: client.raw_command("ms r 1 F5\r\nx"), b"HD"
        yield "raw_command of mg", lambda: client.raw_command("mg r v f s", "\r\nx\r\n"), b"VA 1 f5 s1"
        yield "raw_command of md", lambda: client.raw_command("md r q"), Raises("TimeoutError")
        yield "raw_command of mn", lambda: client.raw_command("mn"), b"MN"
        yield "raw_command of ma", lambda: client.raw_command("ma r N0 J5 k O1"), b"HD kr O1"


def with_options(address):
    """Clients that make their bytes in other ways: prefixes, pickles, keys and values that are no ASCII, retries."""
    prefixed = Client(address, default_noreply=False, key_prefix=b"p:")
    plain = Client(address, default_noreply=False, timeout=5, no_delay=True)
    yield "key_prefix: set", lambda: prefixed.set("a", "x"), True
    yield "key_prefix: get, and get of the key in full", lambda: (prefixed.get("a"), plain.get("p:a")), (b"x", b"x")
    pickled = Client(address, serde=serde.pickle_serde)
    thing = {"list": [1, 2.5, None], "text": "\u00e9"}
    yield "pickle_serde: set", lambda: pickled.set("s", thing), True
    yield "pickle_serde: get", lambda: pickled.get("s"), thing
    yield "pickle_serde: set and get of a number", lambda: (pickled.set("s", 7), pickled.get("s")), (True, 7)
    unicode_keys = Client(address, default_noreply=False, allow_unicode_keys=True, encoding="utf8")
    yield "allow_unicode_keys: set", lambda: unicode_keys.set("cl\u00e9", "\u20ac"), True
    yield "allow_unicode_keys: get", lambda: unicode_keys.get("cl\u00e9"), "\u20ac".encode()
    silent = Client(address)
    yield "noreply by default: set", lambda: silent.set("n", "x"), True
    yield "noreply by default: get", lambda: silent.get("n"), b"x"
    yield "noreply by default: delete, and get", lambda: (silent.delete("n"), silent.get("n")), (True, None)
    yield "noreply by default: set that is too large", lambda: silent.set("n", b"v" * 2 * MEGABYTE), True
    yield "noreply by default: the next get, which shows its error", lambda: silent.get("n"), TOO_LARGE, NEVER_HIDDEN
    ignoring = Client(address, default_noreply=False, ignore_exc=True)
    yield "ignore_exc: set and get", lambda: (ignoring.set("i", "x"), ignoring.get("i")), (True, b"x")
    yield "ignore_exc: set that is too large", lambda: ignoring.set("j", b"v" * 2 * MEGABYTE), TOO_LARGE
    yield "ignore_exc: get_many after that", lambda: ignoring.get_many(["i", "j"]), {"i": b"x"}
    yield "ignore_exc: stats", lambda: ignoring.stats(), {}, NO_STATS
    again = RetryingClient(Client(address, default_noreply=False), attempts=2)
    yield "RetryingClient: set and get", lambda: (again.set("r", "x"), again.get("r")), (True, b"x")


def calls(first, second):
    addresses = [("127.0.0.1", server.port) for server in (first, second)]
    answered = {"default_noreply": False, "timeout": 5}
    client = Client(addresses[0], **answered)
    pooled = PooledClient(addresses[0], max_pool_size=4, **answered)
    hashed = HashClient(addresses[:1], **answered)
    spread = HashClient(addresses, use_pooling=True, **answered)
    common = (stores, counts, compares, many)
    for kind, each_client in (("Client", client), ("PooledClient", pooled)):
        parts = (part(each_client) for part in (*common, unanswered, as_mapping, flushes, limits, long_lines, tells))
        yield from each(kind, itertools.chain.from_iterable(parts))
    for kind, each_client in (("HashClient", hashed), ("HashClient of two", spread)):
        parts = (part(each_client) for part in common)
        yield from each(kind, itertools.chain.from_iterable(parts))
        yield f"{kind}: flush_all", lambda: each_client.flush_all(), None
        yield f"{kind}: get of what was flushed", lambda: each_client.get("c"), None
    yield from each("Client", expires(client))
    yield from each("Client", of_later_versions(Client(addresses[0], default_noreply=False, timeout=0.5)))
    yield from each("Client", of_client_alone(client))
    yield from with_options(addresses[0])


if __name__ == "__main__":
    print(f"pymemcache {pymemcache.__version__}, Python {sys.version.split()[0]}")
    missing = [name for name in ("gat", "gats", "raw_command") if not hasattr(Client, name)]
    if missing:
        print(f"it has no {', no '.join(missing)}: not tried")
    sys.exit(main(__doc__, calls))
