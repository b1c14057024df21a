#!/usr/bin/env python3
"""Checks what third-party clients show for keys of a server that has ended or is stopped. It also checks that clients which choose servers
themselves agree with the proxy.

Usage: ended.py SERVER PROXY      (SERVER is the built mc_serverd, PROXY mc_proxyd)

mc_proxyd is in front of two servers, with each of its choices of --lost. Each client stores through it. Then the second server ends, and each
client asks again, for keys of the living server and for those of the other one. docs/RUNNING.md ("Clients") says what it should show. Before the
end libmemcached's clients ask both servers themselves, without the proxy. Then the second server is stopped in another pool: with a --timeout below
Django's, Django finds all keys of the living one; without it Django gives up on the proxy, and finds none.

A model of the ring shows which server owns a key (tests/lib/rings.py). The script prints a line for each call that returns something else; the last
line is 'N passed, M failed'. Debian: python3-django, python3-pymemcache, python3-pylibmc, php-cli, php-memcached.
"""

import itertools
import json
import pathlib
import signal
import subprocess
import sys
import time

sys.path.insert(0, str(pathlib.Path(__file__).resolve().parents[2] / "lib"))

import pylibmc
from django_site import cache_of, session_of
from pymemcache.client.base import Client
from pymemcache.client.hash import HashClient
from trial import Call, Raises, is_as, shortened

from checks import asked
from live_pool import LOST, Pool, stored
from servers import HOST
from suite import counted

PHP = pathlib.Path(__file__).with_suffix(".php")
IGNORES = {"ignore_exc": True, "timeout": 0.5, "connect_timeout": 0.5}
DJANGO = ":1:{}"  # how Django makes a key of a name
SESSION = DJANGO.format("django.contrib.sessions.{}{{}}")  # how it makes one of an engine and of a session's key
RAISED = Raises("MemcacheServerError", "link lost")
MANY, FEW = 1_000, 20
WHICH = ("living", "lost")  # the servers, by their places


class Either(tuple):
    """Any of these outcomes."""


def is_right(got, wanted):
    if isinstance(wanted, Either):
        return any(is_right(got, each) for each in wanted)
    if isinstance(wanted, list) and isinstance(got, list):
        return len(got) == len(wanted) and all(map(is_right, got, wanted))
    return is_as(got, wanted)


class Site:
    """A proxy in front of two servers, and its word for --lost. `told` says whether it reports losses."""

    def __init__(self, pool, lost):
        self.pool, self.lost, self.told, self.ring, self.port = pool, lost, lost == "told", pool.ring, pool.port
        self.place, self.address = (HOST, pool.port), f"{HOST}:{pool.port}"

    def names(self, place, count, beginning, form="{}"):
        """This many names, of which a client makes keys that the server of a place owns."""
        named = (f"{beginning}-{self.lost}-{number}" for number in itertools.count())
        return list(itertools.islice((name for name in named if self.owner(form.format(name)) == place), count))

    def owner(self, key):
        return self.ring.owner(key.encode())

    def both(self, beginning, form="{}"):
        """A name of each server."""
        return [self.names(place, 1, beginning, form)[0] for place in (0, 1)]

    def ends(self):
        """The second server ends, and the proxy has noticed it: a store's loss is reported either way."""
        self.pool.servers[1].stop()
        with self.pool.connected() as client:
            put = stored(self.names(1, 1, "end")[0].encode())[0]
            client.sendall(put)
            while client.recv(100) != LOST:
                client.sendall(put)


# What each client stores, and after the first `yield` shows: the name of a call, the call, and its expected result.


def of_pymemcache(site):
    living, lost = site.both("pymemcache")
    answered = {"default_noreply": False}
    plain, ignoring, silent = Client(site.place, **answered), Client(site.place, ignore_exc=True, **answered), Client(site.place)
    hashed, hashed_plain = HashClient([site.place], ignore_exc=True, **answered), HashClient([site.place], **answered)
    for key in (living, lost):
        plain.set(key, "7")
    yield
    for kind, client, misses, stores in (
        ("Client", plain, False, RAISED),
        ("Client, ignore_exc", ignoring, True, RAISED),
        ("HashClient", hashed_plain, False, RAISED),
        ("HashClient, ignore_exc", hashed, True, False),
    ):
        yield f"{kind}: get, living", lambda: client.get(living), b"7"
        yield f"{kind}: get, lost", lambda: client.get(lost), RAISED if site.told and not misses else None
        page = {living: b"7"} if not site.told else {} if misses else RAISED
        yield f"{kind}: get_many, both", lambda: client.get_many([living, lost]), page
        yield f"{kind}: set, lost", lambda: client.set(lost, "8"), stores
        yield f"{kind}: incr, lost", lambda: client.incr(lost, 1), stores
        yield f"{kind}: delete, lost", lambda: client.delete(lost), stores
        yield f"{kind}: get, living, after that", lambda: client.get(living), b"7"
    yield "Client, noreply by default: set, lost", lambda: silent.set(lost, "8"), True
    yield "Client, noreply by default: the next get, living", lambda: silent.get(living), RAISED if site.told else b"7"


def of_pylibmc(site):
    living, lost = site.both("pylibmc")
    client, error = pylibmc.Client([site.address]), Raises("ServerError")
    client.set_multi({living: 7, lost: 7})
    yield
    yield from of_libmemcached(site, client, living, lost)
    yield "set, lost", lambda: client.set(lost, 8), error
    yield "incr, lost", lambda: client.incr(lost), error
    yield "delete, lost", lambda: client.delete(lost), error
    yield "get, living, after that", lambda: client.get(living), 7


def of_libmemcached(site, client, living, lost):
    """Gets of pylibmc's client, or of Django's class over it."""
    yield "get, living", lambda: client.get(living), 7
    yield "get, lost", lambda: client.get(lost), Either([Raises("ServerError"), None]) if site.told else None
    get_many = client.get_many if hasattr(client, "get_many") else client.get_multi
    yield "get_many, both", lambda: get_many([living, lost]), {} if site.told else {living: 7}


def of_django(site):
    living, lost = site.both("django", DJANGO)
    first, second = site.names(0, 2, "more", DJANGO)
    plain, ignoring = cache_of("PyMemcacheCache", site.address, {}), cache_of("PyMemcacheCache", site.address, IGNORES)
    plain.set_many({living: 7, lost: 7})
    yield
    for kind, cache, misses in (("PyMemcacheCache", plain, False), ("PyMemcacheCache, ignore_exc", ignoring, True)):
        yield f"{kind}: get, living", lambda: cache.get(living), 7
        yield f"{kind}: get, lost", lambda: cache.get(lost), RAISED if site.told and not misses else None
        page = {living: 7} if not site.told else {} if misses else RAISED
        yield f"{kind}: get_many, both", lambda: cache.get_many([living, lost]), page
        yield f"{kind}: set, lost", lambda: cache.set(lost, 8), None if misses else RAISED
        yield f"{kind}: add, lost", lambda: cache.add(lost, 8), False if misses else RAISED
        yield f"{kind}: incr, lost", lambda: cache.incr(lost), False if misses else RAISED
        yield f"{kind}: delete, lost", lambda: cache.delete(lost), False if misses else RAISED
        yield f"{kind}: touch, lost", lambda: cache.touch(lost, 60), False if misses else RAISED
        yield f"{kind}: get_or_set, lost", lambda: cache.get_or_set(lost, 8), 8 if misses else RAISED
        yield f"{kind}: set_many, the second lost", lambda: cache.set_many({first: 1, lost: 2, second: 3}), [] if misses else RAISED
        yield f"{kind}: get_many of the others", lambda: cache.get_many([first, second]), {first: 1, second: 3}
        yield f"{kind}: delete_many, the first lost", lambda: cache.delete_many([lost, first, second]), None if misses else RAISED
        yield f"{kind}: get_many of the others", lambda: cache.get_many([first, second]), {} if misses else {first: 1, second: 3}
        yield f"{kind}: get, living, after that", lambda: cache.get(living), 7


def of_django_over_pylibmc(site):
    living, lost = site.both("over-pylibmc", DJANGO)
    first, second = site.names(0, 2, "others", DJANGO)
    cache, error = cache_of("PyLibMCCache", site.address, {}), Raises("ServerError")
    cache.set_many({living: 7, lost: 7})
    yield
    yield from of_libmemcached(site, cache, living, lost)
    yield "set, lost", lambda: cache.set(lost, 8), error
    yield "incr, lost", lambda: cache.incr(lost), error
    yield "delete, lost", lambda: cache.delete(lost), error
    yield "get_or_set, lost", lambda: cache.get_or_set(lost, 8), error
    yield "set_many, the second lost", lambda: cache.set_many({first: 1, lost: 2, second: 3}), error
    yield "get_many of the others: what is after the lost one is not stored", lambda: cache.get_many([first, second]), {first: 1}
    yield "get, living, after that", lambda: cache.get(living), 7


def new_session(engine, cache, keys):
    """A session that begins now, and is stored with its key in it. Django takes the next of these keys, until one can be stored."""
    store = session_of(engine, cache)
    store._get_new_session_key = iter(keys).__next__
    store.create()
    store["key"] = store.session_key
    store.save()
    return store.session_key


def shown(engine, cache, key):
    return dict(session_of(engine, cache, key).items())


def of_sessions(site):
    """Sessions of Django that are kept in the cache alone, or in a database too."""
    kinds = []
    for engine, options in (("cache", {}), ("cache", IGNORES), ("cached_db", IGNORES)):
        cache, form = cache_of("PyMemcacheCache", site.address, options), SESSION.format(engine)
        old, new = ([site.names(place, FEW, f"{age}{len(kinds)}", form) for place in (0, 1)] for age in ("old", "new"))
        for key in itertools.chain(*old):
            new_session(engine, cache, [key])
        further = site.names(0, FEW, f"further{len(kinds)}", form)
        kinds.append((engine, cache, f"{engine}{', ignore_exc' if options else ''}", old, new, further))
    yield
    for engine, cache, name, old, new, further in kinds:
        is_kept, raises = engine == "cached_db", "ignore_exc" not in name
        for place, keys in enumerate(old):
            wanted = [{"key": key} if place == 0 or is_kept else {} for key in keys]
            yield f"{name}: old ones, {WHICH[place]}", lambda: [shown(engine, cache, key) for key in keys], wanted
        yield f"{name}: new ones, living", lambda: [new_session(engine, cache, [key]) for key in new[0]], new[0]
        pairs = [list(pair) for pair in zip(new[1], further)]
        wanted = [RAISED] * FEW if raises else new[1] if is_kept else further
        yield f"{name}: new ones, lost", lambda: [given_by(new_session, engine, cache, pair) for pair in pairs], wanted


def given_by(call, *words):
    return Call("", lambda: call(*words), None).outcome()


def of_php(site):
    """PHP's sessions, each by the owners of its key and of its lock, and PHP's Memcached."""
    living, lost = site.both("php")
    named, found = (f"session{number}" for number in itertools.count()), {}
    while len(found) < 4 or min(map(len, found.values())) < FEW:
        id_of_one = next(named)
        owners = tuple(site.owner(f"memc.sess.key.{of}{id_of_one}") for of in ("", "lock."))
        found.setdefault(owners, []).append(id_of_one)
    locked = {owners: ids[: FEW // 2] for owners, ids in found.items()}
    unlocked = {owners: ids[FEW // 2 : FEW] for owners, ids in found.items()}
    sessions = {"1": list(itertools.chain(*locked.values())), "0": list(itertools.chain(*unlocked.values()))}
    plan = json.dumps({"port": site.port, "living": living, "lost": lost, "sessions": sessions})

    def given(what):
        return json.loads(subprocess.run(["php", str(PHP), what, plan], capture_output=True, check=True, timeout=120).stdout)

    def stored_whole(ids):
        return {each: [True, {"stored": each}, True] for each in ids}

    assert given("store")["stored"] == [True, True]
    yield
    shown = given("ask")
    for kind, groups in (("sessions", locked), ("sessions, sess_locking 0", unlocked)):
        for (data, lock), ids in sorted(groups.items()):
            name = f"PHP {kind}: data {WHICH[data]}, lock {WHICH[lock]}"
            wanted = dict.fromkeys(ids, [False, None, False]) if lock and groups is locked else dict.fromkeys(ids, [True, [], False])
            if not data and (not lock or groups is unlocked):
                wanted = stored_whole(ids)
            yield name, lambda: {each: shown["sessions"][each] for each in ids}, wanted
    for name, wanted in {
        "get, living": [7, "SUCCESS"],
        "get, lost": [False, "NOT FOUND"],
        "getMulti, lost": [[], "NOT FOUND"],
        "getMulti, both": [[], "NOT FOUND"] if site.told else [{living: 7}, "SUCCESS"],
        "set, lost": [False, "SERVER ERROR"],
        "increment, lost": [False, "SERVER ERROR"],
        "delete, lost": [False, "SERVER ERROR"],
        "get, living, after that": [7, "SUCCESS"],
    }.items():
        yield f"PHP Memcached: {name}", lambda: shown["calls"][name], wanted


CLIENTS = {
    "pymemcache": of_pymemcache,
    "pylibmc": of_pylibmc,
    "Django": of_django,
    "Django, PyLibMCCache": of_django_over_pylibmc,
    "Django's sessions": of_sessions,
    "PHP": of_php,
}


def chosen_by_clients(site):
    """A thousand keys that were stored through the proxy, and that clients which choose themselves get from the servers."""
    keys = [f"c{number}" for number in range(MANY)]
    with site.pool.connected() as client:
        for key in keys:
            asked(client, *stored(key.encode())[:2])
    addresses = [server.address for server in site.pool.servers]
    weighted = pylibmc.Client(addresses, behaviors={"ketama_weighted": True})
    yield "pylibmc with ketama_weighted", lambda: len(weighted.get_multi(keys)), MANY
    plain = pylibmc.Client(addresses, behaviors={"ketama": True})
    yield "pylibmc with ketama: it misses some", lambda: len(plain.get_multi(keys)) < MANY, True
    for option, wanted in (("OPT_LIBKETAMA_COMPATIBLE", True), ("OPT_TCP_NODELAY", False)):
        yield f"PHP with {option}: it finds all", lambda: found_by_php(option, addresses, keys) == MANY, wanted


FOUND = """
[$option, $addresses, $keys] = json_decode($argv[1], true);
$client = new Memcached();
$client->setOption(constant("Memcached::$option"), true);
foreach ($addresses as $address) {
    $client->addServer(...explode(':', $address));
}
echo count($client->getMulti($keys));
"""


def found_by_php(option, addresses, keys):
    words = ["php", "-r", FOUND, json.dumps([option, addresses, keys])]
    return int(subprocess.run(words, capture_output=True, check=True, timeout=60).stdout)


def with_timeouts(site, finds):
    """Django's timeouts, while the second server is stopped: whether it finds the keys of the living server, once it has asked for another."""
    cache, (living, lost) = cache_of("PyMemcacheCache", site.address, IGNORES), (site.names(place, FEW, "kept", DJANGO) for place in (0, 1))
    cache.set_many({key: key for key in (*living, *lost)})
    site.pool.servers[1].process.send_signal(signal.SIGSTOP)

    def asked_for_one():
        begun = time.monotonic()
        return cache.get(lost[0]), time.monotonic() - begun < 1

    yield "get, stopped, in less than a second", asked_for_one, (None, True)
    yield "gets, living", lambda: [cache.get(key) for key in living], living if finds else [None] * FEW


def passes(name, row):
    """Makes a call, and prints a line if its result is another."""
    call = Call(f"{name}: {row[0]}", *row[1:])
    got = call.outcome()
    if is_right(got, call.wanted):
        return True
    print(f"FAILED {call.name}\n       gives  {shortened(got)}\n       wanted {shortened(call.wanted)}")
    return False


def checks(lost):
    """Whether each call with one choice of --lost had its expected result."""
    with Pool(["--lost", lost]) as pool:
        site = Site(pool, lost)
        yield from (passes(lost, row) for row in chosen_by_clients(site))
        clients = {name: rows(site) for name, rows in CLIENTS.items()}
        for rows in clients.values():
            next(rows)
        site.ends()
        for name, rows in clients.items():
            yield from (passes(f"{lost}: {name}", row) for row in rows)


def checks_of_timeouts():
    """Likewise with a server that is stopped, and a --timeout of the proxy or none."""
    for timeout, finds in (("300", True), ("0", False)):
        with Pool(["--timeout", timeout]) as pool:
            yield from (passes(f"--timeout {timeout}", row) for row in with_timeouts(Site(pool, "told"), finds))


def main():
    if len(sys.argv) != 3:
        sys.exit(__doc__)
    Pool.programs = sys.argv[2], sys.argv[1]
    return counted(itertools.chain(checks("told"), checks("missed"), checks_of_timeouts()))


if __name__ == "__main__":
    sys.exit(main())
