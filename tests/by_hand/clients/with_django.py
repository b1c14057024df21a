#!/usr/bin/env python3
"""Tries Django's cache and its sessions on a server (Debian: python3-django, python3-pymemcache, python3-pylibmc).

Each call of the cache is made with each of Django's two classes for memcached, without OPTIONS, with those that docs/RUNNING.md names, and with
those that Django's own page shows (a pool of pymemcache; pylibmc's ketama over two servers). Sessions are kept in the cache alone, or in a
database too. ended.py has the results for a server that has ended.
"""

import itertools
import sys
import time

import django
import pylibmc
import pymemcache
from django_site import cache_of, session_of
from trial import Raises, main

# Pieces of lines of docs/PROTOCOL.md.
LARGE_EXPTIME = "| An exptime has 64 bits"
NO_BINARY = "no binary protocol"
OLDER_STAYS = "| A refused store leaves the older item"

PYMEMCACHE, PYLIBMC = "PyMemcacheCache", "PyLibMCCache"
IGNORES = {"ignore_exc": True, "timeout": 0.5, "connect_timeout": 0.5}
POOLED = {"no_delay": True, "ignore_exc": True, "max_pool_size": 4, "use_pooling": True}
LARGE = b"v" * 2 * 1048576
MONTHS = 3600 * 24 * 60  # seconds, more than memcached counts from now


def each(kind, rows):
    """The calls with the kind of cache in front of each name."""
    for row in rows:
        yield (f"{kind}: {row[0]}", *row[1:])


def stores(cache):
    yield "clear", lambda: cache.clear(), None
    yield "set", lambda: cache.set("a", "x"), None
    yield "get", lambda: cache.get("a"), "x"
    yield "get of a key that is not held", lambda: cache.get("none"), None
    yield "get with a default", lambda: cache.get("none", "d"), "d"
    yield "add of a held key", lambda: cache.add("a", "y"), False
    yield "add", lambda: cache.add("b", "y"), True
    yield "get_or_set of a held key", lambda: cache.get_or_set("b", "z"), "y"
    yield "get_or_set", lambda: cache.get_or_set("c", lambda: "made"), "made"
    yield "in", lambda: ("a" in cache, "none" in cache), (True, False)
    yield "has_key", lambda: (cache.has_key("c"), cache.has_key("none")), (True, False)
    yield "touch", lambda: cache.touch("a", 60), True
    yield "touch of a key that is not held", lambda: cache.touch("none", 60), False
    yield "delete", lambda: cache.delete("b"), True
    yield "delete of a key that is not held", lambda: cache.delete("b"), False
    yield "set and get of a key and a value that are no ASCII", lambda: (cache.set("cl\u00e9", "\u20ac"), cache.get("cl\u00e9")), (None, "\u20ac")
    yield "set of a key with a space, which Django refuses", lambda: cache.set("a b", "x"), Raises("InvalidCacheKey")


def values_of_python(cache):
    for value in (True, 7, 2**80, 2.5, b"\r\nEND\r\n\0\xff", "", [1, "two"], {"k": (None, 3)}, None):
        yield f"set and get of {value!r}", lambda: (cache.set("v", value), cache.get("v", "missed")), (None, value)


def counts(cache, of_a_text):
    """`of_a_text` is the result of `incr` of a text."""
    missing = Raises("ValueError", "not found")
    yield "incr of a key that is not held", lambda: cache.incr("n"), missing
    yield "decr of a key that is not held", lambda: cache.decr("n"), missing
    yield "set of a number", lambda: cache.set("n", 10), None
    yield "incr", lambda: cache.incr("n", 5), 15
    yield "decr", lambda: cache.decr("n", 6), 9
    yield "get of a number that got shorter", lambda: cache.get("n"), 9
    yield "incr by -2", lambda: cache.incr("n", -2), 7
    yield "decr by -3", lambda: cache.decr("n", -3), 10
    yield "decr below 0", lambda: cache.decr("n", 100), 0
    yield "incr of a text", lambda: (cache.set("t", "five"), cache.incr("t"))[1], of_a_text
    yield "get after that", lambda: cache.get("n"), 0


def many(cache):
    values = {f"m{number}": f"value {number}" for number in range(100)}
    rest = {key: value for key, value in values.items() if key not in ("m0", "m1")}
    yield "set_many", lambda: cache.set_many(values), []
    yield "get_many", lambda: cache.get_many([*values, "none"]), values
    yield "get_many of no keys", lambda: cache.get_many([]), {}
    yield "delete_many", lambda: cache.delete_many(["m0", "m1", "none"]), None
    yield "get_many of what is left", lambda: cache.get_many(list(values)), rest


def versions(cache):
    yield "set of two versions", lambda: (cache.set("w", "one"), cache.set("w", "two", version=2)), (None, None)
    yield "get of each", lambda: [cache.get("w", version=version) for version in (1, 2, 3)], ["one", "two", None]
    yield "get_many of a version", lambda: cache.get_many(["w"], version=2), {"w": "two"}
    yield "delete of a version", lambda: cache.delete("w", version=2), True
    yield "incr_version", lambda: cache.incr_version("w"), 2
    yield "get of each after that", lambda: [cache.get("w", version=version) for version in (1, 2)], [None, "one"]
    yield "decr_version", lambda: cache.decr_version("w", version=2), 1
    yield "incr_version of a key that is not held", lambda: cache.incr_version("none"), Raises("ValueError", "not found")
    yield "get after that", lambda: cache.get("w"), "one"


def too_large(cache, refused, is_deleted):
    """`refused` is the result of a set that is too large, and `is_deleted` whether Django deletes the older value then."""
    yield "set of a small value", lambda: cache.set("l", "small"), None
    yield "set that is too large", lambda: cache.set("l", LARGE), refused
    yield "get of the older value", lambda: cache.get("l"), None if is_deleted else "small", "" if is_deleted else OLDER_STAYS


def ends(cache):
    yield "set, close, and get", lambda: (cache.set("a", "x"), cache.close(), cache.get("a")), (None, None, "x")
    yield "clear, and get", lambda: (cache.clear(), cache.get("a")), (None, None)


def expires(cache, stays):
    """`stays` is the result of `timeout=0` and a later `get`, with a line of docs/PROTOCOL.md."""
    keys = ["second", "none", "months", "moment", "touched", "kept"]
    yield "set for a second", lambda: cache.set("second", 1, 1), None
    yield "set for ever", lambda: cache.set("none", 2, None), None
    yield "set for two months", lambda: cache.set("months", 3, MONTHS), None
    yield "set with timeout=0", lambda: cache.set("moment", 4, 0), None
    yield "get of what was set with timeout=0", lambda: cache.get("moment"), *stays
    yield "touch that makes it shorter", lambda: (cache.set("touched", 5, 60), cache.touch("touched", 1)), (None, True)
    yield "touch that makes it longer", lambda: (cache.set("kept", 6, 2), cache.touch("kept", 60)), (None, True)
    yield "delete of what was set with timeout=0", lambda: (cache.delete("moment"), cache.get("moment"))[1], None
    yield "touch with timeout=0", lambda: (cache.set("gone", 7), cache.touch("gone", 0), cache.get("gone")), (None, True, None)
    yield "get_many 3 seconds later", lambda: time.sleep(3.1) or cache.get_many(keys), {"none": 2, "months": 3, "kept": 6}


def prefixed(backend, address, options):
    """A value that is written with other settings of the entry is read with them, and is stored under the key that Django's page describes."""
    cache = cache_of(backend, address, options, KEY_PREFIX="site", VERSION=3, TIMEOUT=2)
    plain = cache_of(backend, address, options, KEY_FUNCTION=lambda key, prefix, version: key)
    yield "KEY_PREFIX and VERSION: set and get", lambda: (cache.set("a", "x"), cache.get("a")), (None, "x")
    yield "KEY_FUNCTION: get of the key in full", lambda: plain.get("site:3:a"), "x"
    yield "TIMEOUT: get 3 seconds later", lambda: time.sleep(3.1) or cache.get("a"), None


def sessions(engine, cache):
    def session(key=None):
        return session_of(engine, cache, key)

    first, short, other = session(), session(), session()

    def saved(store, **values):
        store.update(values)
        store.save()
        return dict(session(store.session_key).items())

    def cycled(store):
        before = store.session_key
        store.cycle_key()
        store.save()
        return dict(session(before).items()), dict(session(store.session_key).items())

    yield "saved, and read again", lambda: saved(first, user=7), {"user": 7}
    yield "changed, and read again", lambda: saved(first, cart=[1, "two"]), {"user": 7, "cart": [1, "two"]}
    yield "exists", lambda: (bool(first.exists(first.session_key)), bool(first.exists("none" * 8))), (True, False)
    yield "another is empty", lambda: dict(other.items()), {}
    yield "cycle_key: the data are under the new key alone", lambda: cycled(first), ({}, {"user": 7, "cart": [1, "two"]})
    yield "flush: it is gone", lambda: ((key := first.session_key), first.flush(), dict(session(key).items()))[1:], (None, {})
    yield "set_expiry: saved for two seconds", lambda: (short.set_expiry(2), saved(short, user=8).get("user"))[1], 8
    yield "set_expiry: 3 seconds later", lambda: time.sleep(3.1) or dict(session(short.session_key).items()), {}


def calls(first, second):
    addresses = [f"127.0.0.1:{server.port}" for server in (first, second)]
    raised = Raises("MemcacheServerError", "object too large for cache")
    no_number = Raises("MemcacheClientError", "non-numeric value")
    for kind, backend, location, options, of_a_text, refused, is_deleted in (
        ("PyMemcacheCache", PYMEMCACHE, addresses[0], {}, no_number, raised, False),
        ("PyMemcacheCache of two", PYMEMCACHE, addresses, {}, no_number, raised, False),
        ("PyMemcacheCache, ignore_exc", PYMEMCACHE, addresses[0], IGNORES, False, None, True),
        ("PyMemcacheCache, a pool", PYMEMCACHE, addresses[0], POOLED, False, None, True),
        ("PyLibMCCache", PYLIBMC, addresses[0], {}, Raises("ClientError"), Raises("TooBig"), False),
        ("PyLibMCCache, binary False", PYLIBMC, addresses[0], {"binary": False}, Raises("ClientError"), Raises("TooBig"), False),
        ("PyLibMCCache, ketama", PYLIBMC, addresses, {"behaviors": {"ketama": True}}, Raises("ClientError"), Raises("TooBig"), False),
    ):
        cache = cache_of(backend, location, options)
        parts = stores(cache), values_of_python(cache), counts(cache, of_a_text), many(cache), versions(cache)
        yield from each(kind, itertools.chain(*parts, too_large(cache, refused, is_deleted), ends(cache)))
    for kind, backend, options, stays in (
        ("PyMemcacheCache", PYMEMCACHE, IGNORES, [None]),
        ("PyLibMCCache", PYLIBMC, {}, [4, LARGE_EXPTIME]),
    ):
        cache = cache_of(backend, addresses[0], options)
        yield from each(kind, itertools.chain(expires(cache, stays), prefixed(backend, addresses[0], options)))
        for engine in ("cache", "cached_db"):
            yield from each(f"sessions, {engine}, {kind}", sessions(engine, cache))
    noreply = cache_of(PYMEMCACHE, addresses[0], {})
    yield "PyMemcacheCache: default_noreply", lambda: noreply._cache.default_kwargs["default_noreply"], False
    binary = cache_of(PYLIBMC, addresses[0], {"binary": True, "behaviors": {"_poll_timeout": 300, "receive_timeout": 300000}})
    yield "PyLibMCCache, binary True: set", lambda: binary.set("a", "x"), Raises("ConnectionError"), NO_BINARY


if __name__ == "__main__":
    versions_of = f"Django {django.__version__}, pymemcache {pymemcache.__version__}, pylibmc {pylibmc.__version__}"
    print(f"{versions_of}, Python {sys.version.split()[0]}")
    sys.exit(main(__doc__, calls))
