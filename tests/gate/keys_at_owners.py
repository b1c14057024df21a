#!/usr/bin/env python3
"""Sets 10,000 keys through a proxy, and checks that each is at the server that owns it, and at no other.

Usage: keys_at_owners.py PROXY SERVER [--keys N] [--servers N]      (10,000 keys, 5 servers)

PROXY is the built mc_proxyd, or nutcracker, which is in front of an equal ring; SERVER is the built mc_serverd, or memcached.
The owners are those of a model (rings.py). Each server is asked for all keys without the proxy, and then the proxy is. With
mc_proxyd one more server joins, and then as many other keys are set: each is at its owner among all. The script prints a line
for each check that fails; the last line is 'N passed, M failed'.
"""

import argparse
import contextlib
import pathlib
import sys

sys.path.insert(0, str(pathlib.Path(__file__).resolve().parents[1] / "lib"))

from checks import Wrong, received, shortened, tally, want
from rings import Ring
from servers import Proxy, Server, is_nutcracker

KEYS_AT_ONCE = 100


def value_of(key):
    return b"the value of " + key


def set_all(connection, keys):
    """Sets each key, many at once."""
    for at in range(0, len(keys), KEYS_AT_ONCE):
        some = keys[at : at + KEYS_AT_ONCE]
        connection.sendall(b"".join(b"set %s 0 0 %d\r\n%s\r\n" % (key, len(value_of(key)), value_of(key)) for key in some))
        answers = received(connection, len(some) * len(b"STORED\r\n"))
        if answers != b"STORED\r\n" * len(some):
            raise Wrong(f"not all were stored: {shortened(answers)}")


def held(connection, keys):
    """The keys that are stored, each with its value."""
    found = {}
    with connection.makefile("rb") as lines:
        for at in range(0, len(keys), KEYS_AT_ONCE):
            connection.sendall(b"get " + b" ".join(keys[at : at + KEYS_AT_ONCE]) + b"\r\n")
            while (line := lines.readline()) != b"END\r\n":
                words = line.split()
                if len(words) != 4 or words[0] != b"VALUE":
                    raise Wrong(f"no answer to a get: {line!r}")
                found[words[1]] = lines.read(int(words[3]) + 2)[:-2]
    return found


def keys_are_at_their_owners(proxy, servers, keys):
    """Sets the keys through the proxy, checks where each is, and asks for all of them through the proxy."""
    with proxy.connected() as client:
        set_all(client, keys)
        ring, found = Ring([server.address for server in servers]), []
        for server in servers:
            with server.connected() as direct:
                found.append(held(direct, keys))
        for key in keys:
            wanted = [value_of(key) if place == ring.owner(key) else None for place in range(len(servers))]
            want((key, [each.get(key) for each in found]), (key, wanted))
        want(held(client, keys), {key: value_of(key) for key in keys})


def main():
    words = argparse.ArgumentParser(description=__doc__, formatter_class=argparse.RawDescriptionHelpFormatter)
    words.add_argument("proxy", metavar="PROXY")
    words.add_argument("server", metavar="SERVER")
    words.add_argument("--keys", type=int, default=10_000)
    words.add_argument("--servers", type=int, default=5)
    asked = words.parse_args()
    with contextlib.ExitStack() as stack:
        servers = [stack.enter_context(Server(asked.server)) for _ in range(asked.servers + 1)]
        addresses = [server.address for server in servers]
        joins = [] if is_nutcracker(asked.proxy) else ["--join", addresses[-1], "--join-after", "2"]
        proxy = stack.enter_context(Proxy(asked.proxy, addresses[:-1], joins))
        keys = [[b"%s-%d" % (kind, number) for number in range(asked.keys)] for kind in (b"key", b"later")]
        checks = [("keys at their owners", keys_are_at_their_owners, (proxy, servers[:-1], keys[0]))]
        if joins:
            checks.append(("once a server has joined", keys_are_at_their_owners, (proxy, servers, keys[1])))
        return tally(checks)


if __name__ == "__main__":
    sys.exit(main())
