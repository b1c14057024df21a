#!/usr/bin/env python3
"""Cuts the network between a proxy and its server, and between clients and a server.

Usage: cuts.py PROXY SERVER [--cuts N]      (N cuts with a store each, 5 by default)

Two hosts have a network namespace each, and the script carries their packets (tests/lib/network.py says what that needs). In a cut packets
vanish, and neither side is notified. It checks:

- a store that is answered 'link lost' at a cut never overwrites one that is answered STORED after it;
- a proxy gives up on a server that has vanished silently, with no command pending and with one, and reports it;
- a server closes a client that has vanished silently.

It prints the results, and ends with status 1 if one was another.
"""

import argparse
import pathlib
import select
import signal
import subprocess
import sys
import time

sys.path.insert(0, str(pathlib.Path(__file__).resolve().parents[1] / "lib"))

from live_pool import LOST
from network import Network, Wire
from servers import Proxy, Server

CUTS = (2.5, 5, 10, 20)  # seconds


class Site:
    """A host of the proxy and of clients, and one of the server, with a wire between them."""

    def __init__(self, network, programs):
        self.network, self.programs = network, programs
        self.near, self.far = network.host(), network.host()

    def carries(self, on):
        """Carries packets between the two, or cuts the wire."""
        for way in ((self.near, self.far), (self.far, self.near)):
            self.network.wire(*way, None if on else Wire(drops=True))

    def server(self):
        return Server(self.programs[1], on=self.far)

    def proxy(self, server, *words):
        return Proxy(self.programs[0], [server.address], words, on=self.near, stderr=subprocess.PIPE)

    def near_client(self, program):
        return self.near.connected(program.on.address, program.port, timeout=60)


def asked(connection, text):
    """The line that arrives for a request."""
    connection.sendall(text)
    came = b""
    while not came.endswith(b"\n"):
        came += connection.recv(1)
    return came


def store_in_time(client, value, seconds=60):
    """Stores until it is answered STORED."""
    begun = time.monotonic()
    while asked(client, b"set k 0 0 3\r\n%s\r\n" % value) != b"STORED\r\n":
        if time.monotonic() > begun + seconds:
            sys.exit("the link stays lost")
        time.sleep(0.05)
    return time.monotonic() - begun


def stale_stores(site, cuts):
    """Whether after none of these cuts the older store remains."""
    stale, waits = 0, []
    for number in range(cuts):
        seconds = CUTS[number % len(CUTS)]
        with site.server() as server, site.proxy(server) as proxy, site.near_client(proxy) as client, server.connected() as direct:
            store_in_time(client, b"one")
            site.carries(False)
            if asked(client, b"set k 0 0 3\r\nold\r\n") != LOST:
                sys.exit("a store was answered through a cut")
            time.sleep(seconds)
            site.carries(True)
            waits.append(store_in_time(client, b"new"))
            time.sleep(min(2 * seconds, 20))
            direct.sendall(b"get k\r\n")
            came = b""
            while not came.endswith(b"END\r\n"):
                came += direct.recv(100)
            stale += b"\r\nnew\r\n" not in came
    print(
        f"{cuts} cuts of {CUTS[0]} to {CUTS[-1]} seconds: {stale} older stores stand after newer ones; the first store after a cut"
        f" took {min(waits):.1f} to {max(waits):.1f} seconds"
    )
    return stale == 0


def line_in_time(proxy, seconds):
    """The next line on standard error, and after how many seconds it arrived."""
    begun, stderr = time.monotonic(), proxy.process.stderr
    if not select.select([stderr], [], [], seconds)[0]:
        return "", seconds
    return stderr.readline().decode().strip(), time.monotonic() - begun


def vanished_servers(site):
    """Whether a proxy notices in time a server that has vanished, with nothing pending and with a command."""
    good = True
    for pending in (False, True):
        with site.server() as server, site.proxy(server, "--timeout", "0") as proxy, site.near_client(proxy) as client:
            store_in_time(client, b"one")
            site.carries(False)
            if pending:
                client.sendall(b"get k\r\n")
            line, seconds = line_in_time(proxy, 30)
            site.carries(True)
            good &= line.endswith(" lost: timed out") and seconds < 15
            print(f"a server that is gone, {'a command' if pending else 'nothing'} pending: {line!r} after {seconds:.1f} seconds")
    return good


def vanished_client(site):
    """Whether a server closes in time a client that has vanished."""
    with site.server() as server, site.near_client(server) as client:
        asked(client, b"mn\r\n")
        before, begun = server.descriptors(), time.monotonic()
        site.carries(False)
        while server.descriptors() == before and time.monotonic() < begun + 120:
            time.sleep(0.2)
        seconds = time.monotonic() - begun
        site.carries(True)
    print(f"a client that is gone: closed after {seconds:.1f} seconds")
    return seconds < 75


def main():
    parser = argparse.ArgumentParser(usage=__doc__.split("\n\n")[1])
    parser.add_argument("proxy")
    parser.add_argument("server")
    parser.add_argument("--cuts", type=int, default=5)
    words = parser.parse_args()
    proxy, server = (str(pathlib.Path(path).resolve()) for path in (words.proxy, words.server))
    signal.signal(signal.SIGTERM, lambda *_: sys.exit(1))
    with Network() as network:
        site = Site(network, (proxy, server))
        seen = [stale_stores(site, words.cuts), vanished_servers(site), vanished_client(site)]
    sys.exit(0 if all(seen) else 1)


if __name__ == "__main__":
    main()
