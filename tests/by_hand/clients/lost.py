#!/usr/bin/env python3
"""Checks what third-party clients get from a proxy one of whose two servers is gone: killed, stopped, or cut off from the network.

Usage: lost.py SERVER PROXY [--rounds N] [--only TEXT]      (SERVER is the built mc_serverd, PROXY mc_proxyd; 100 rounds; TEXT is in the names of
                                                           the proxies, the faults or the clients to try)

Each proxy is in front of two servers, each of which has 12 keys of a page. Then the second server is lost, and a client of a library of its own
goes in rounds. In a round it stores a key of the lost server as its default is, which is with `noreply` for some, and then gets a key of the
living server and one of the lost; in each tenth round it gets all 24 at once. Proxies are mc_proxyd with either of its policies, and Debian's
nutcracker without auto_eject_hosts and with it; one that is not installed is reported and left out. It prints a table:

- *living*: of the gets of living keys how many gave the value; then how many gave none, failed, or gave another key's value;
- *lost*: likewise of the lost keys (a value is theirs only if the proxy gave the key to another server);
- *pages*: of how many of 12 living keys the poorest page showed the value; then how many pages failed or had a wrong value;
- *stored*: how many stores of lost keys the client reported as done, of those without `noreply`;
- *slowest*: the longest call in seconds.

A row of mc_proxyd with `--lost missed` passes if no living get gave anything but its value, each lost key missed, each page showed all
items of the living server, and no store was reported as done. The last line is 'N passed, M failed', in such rows.
All run in network namespaces of their own (tests/lib/network.py says what that needs). Debian: python3-pymemcache, python3-pylibmc, php-cli,
php-memcached, libcache-memcached-perl, libcache-memcached-fast-perl, nutcracker.
"""

import argparse
import contextlib
import itertools
import json
import os
import pathlib
import shutil
import signal
import subprocess
import sys
import tempfile

sys.path.insert(0, str(pathlib.Path(__file__).resolve().parents[2] / "lib"))

from checks import received, want
from network import Network, Wire
from servers import Listener, Proxy, Server, address_on, free_port

HERE = pathlib.Path(__file__).parent
NUTCRACKER = shutil.which("nutcracker", path=os.environ["PATH"] + ":/usr/sbin")
TIMEOUT = "400"  # milliseconds until a proxy gives up on a server
SECONDS = 120  # of a client's rounds
KEYS_AT_A_SERVER = 12
COUNTS = [f"{what} {said}" for what in ("living", "lost") for said in ("right", "missed", "raised", "wrong")]
COUNTS += ["pages raised", "pages wrong", "confirmed"]

POOL = """pool:
  listen: {listen}
  hash: md5
  distribution: ketama
  timeout: {timeout}
  preconnect: true
  auto_eject_hosts: {ejects}
  server_failure_limit: 3
  server_retry_timeout: {retry}
  servers:
"""

CLIENTS = {
    "pymemcache Client": ["/usr/bin/python3", "lost_python.py", "pymemcache Client"],
    "pymemcache HashClient": ["/usr/bin/python3", "lost_python.py", "pymemcache HashClient"],
    "pylibmc": ["/usr/bin/python3", "lost_python.py", "pylibmc"],
    "pylibmc, noreply": ["/usr/bin/python3", "lost_python.py", "pylibmc noreply"],
    "PHP": ["php", "lost.php", ""],
    "PHP, OPT_NOREPLY": ["php", "lost.php", "OPT_NOREPLY"],
    "Perl Cache::Memcached": ["perl", "lost.pl", "Cache::Memcached"],
    "Perl Cache::Memcached::Fast": ["perl", "lost.pl", "Cache::Memcached::Fast"],
}
UNANSWERED = ("pymemcache", "noreply", "NOREPLY")  # what is in the names of clients whose stores ask for no reply


class Nutcracker(Listener):
    """nutcracker in front of servers. If it ejects hosts, it gives the keys of a lost server to others for half a minute."""

    says_where = False

    def __init__(self, addresses, on, ejects):
        port, self.folder = free_port(), tempfile.TemporaryDirectory()
        pool = pathlib.Path(self.folder.name) / "pool.yml"
        said = POOL.format(
            listen=address_on(on, port), timeout=TIMEOUT, ejects=str(ejects).lower(), retry=30_000 if ejects else 100
        )
        pool.write_text(said + "".join(f"   - {address}:1\n" for address in addresses))
        words = ["-c", str(pool), "-a", on.address, "-s", str(free_port())]
        super().__init__(NUTCRACKER, words, port, stderr=subprocess.DEVNULL, on=on)

    def stop(self):
        super().stop()
        self.folder.cleanup()


def proxies(program):
    """Each proxy by its name: the function that starts it on a host, in front of servers of these addresses."""

    def mc_proxyd(*words):
        return lambda addresses, on: Proxy(program, addresses, ["--timeout", TIMEOUT, *words], on=on, stderr=subprocess.DEVNULL)

    found = {"mc_proxyd": mc_proxyd()}
    if takes_lost(program):
        found["mc_proxyd --lost missed"] = mc_proxyd("--lost", "missed")
    else:
        print(f"{program} has no option --lost")
    if NUTCRACKER is None:
        print("nutcracker is not installed (Debian: nutcracker)")
        return found
    return {
        **found,
        "nutcracker": lambda addresses, on: Nutcracker(addresses, on, False),
        "nutcracker, auto_eject_hosts": lambda addresses, on: Nutcracker(addresses, on, True),
    }


def takes_lost(program):
    run = subprocess.run([program, "--check", "--lost", "missed", "127.0.0.1:1"], capture_output=True)
    return run.returncode == 0


class Site:
    """A host of the proxy, its clients and the living server, and one of the server that is lost."""

    def __init__(self, network, hosts, program, proxy):
        self.network, (self.near, self.far) = network, hosts
        self.stack = contextlib.ExitStack()
        with self.stack:
            self.servers = [self.stack.enter_context(Server(program, on=host)) for host in (self.near, self.far)]
            self.proxy = self.stack.enter_context(proxy([server.address for server in self.servers], self.near))
            self.stack = self.stack.pop_all()

    def __enter__(self):
        return self

    def __exit__(self, *_):
        self.carries()
        self.stack.close()

    def keys(self):
        """Keys of a page that the living server has, and as many that the other one has: stored through the proxy."""
        found = [[], []]
        with self.near.connected(self.near.address, self.proxy.port) as client:
            for key in map("page{}".format, itertools.count()):
                if all(len(each) == KEYS_AT_A_SERVER for each in found):
                    return found
                line = f"set {key} 0 0 {len(key) + 2}\r\nv:{key}\r\n"
                client.sendall(line.encode())
                want(received(client, 8), b"STORED\r\n")
                place = [self.holds(server, key) for server in self.servers].index(True)
                found[place] += [key] * (len(found[place]) < KEYS_AT_A_SERVER)

    @staticmethod
    def holds(server, key):
        with server.connected() as direct:
            direct.sendall(f"get {key}\r\n".encode())
            return received(direct, 5) != b"END\r\n"

    def is_killed(self):
        self.servers[1].process.kill()
        self.servers[1].process.wait()

    def is_stopped(self):
        self.servers[1].process.send_signal(signal.SIGSTOP)

    def is_cut_off(self):
        self.carries(Wire(drops=True))

    def carries(self, wire=None):
        for way in ((self.near, self.far), (self.far, self.near)):
            self.network.wire(*way, wire)

    def asked_by(self, client, rounds, living, lost):
        """The results of a client."""
        plan = {"host": self.near.address, "port": self.proxy.port, "living": living, "lost": lost, "rounds": rounds, "counts": COUNTS}
        program, script, kind = CLIENTS[client]
        words = [*self.near.entering(), program, str(HERE / script), kind, json.dumps(plan)]
        try:
            run = subprocess.run(words, capture_output=True, pass_fds=[self.near.namespace], timeout=SECONDS)
        except subprocess.TimeoutExpired:
            return None
        if run.returncode:
            raise SystemExit(f"{client}: {run.stderr.decode()}")
        return json.loads(run.stdout)


FAULTS = {"killed": Site.is_killed, "stopped": Site.is_stopped, "cut off": Site.is_cut_off}


def row_of(given, rounds, unanswered):
    """The results of a client, in columns."""
    if given is None:
        return [f"no end in {SECONDS} seconds", "", "", "", ""]

    def gets(what):
        other = [f"{given[f'{what} {said}']} {said}" for said in ("missed", "raised", "wrong") if given[f"{what} {said}"]]
        return ", ".join([f"{given[f'{what} right']} of {rounds}", *other])

    pages = [f"{given['least']} of {KEYS_AT_A_SERVER}"]
    pages += [f"{given[f'pages {said}']} {said}" for said in ("raised", "wrong") if given[f"pages {said}"]]
    stored = "" if unanswered else str(given["confirmed"])
    return [gets("living"), gets("lost"), ", ".join(pages), stored, f"{given['slowest']:.1f}"]


def is_right(given, rounds, unanswered):
    return (
        given is not None
        and given["living right"] == given["lost missed"] == rounds
        and given["least"] == KEYS_AT_A_SERVER
        and given["pages raised"] == given["pages wrong"] == 0
        and (unanswered or given["confirmed"] == 0)
    )


def main():
    words = argparse.ArgumentParser(description=__doc__, formatter_class=argparse.RawDescriptionHelpFormatter)
    words.add_argument("server", metavar="SERVER")
    words.add_argument("proxy", metavar="PROXY")
    words.add_argument("--rounds", type=int, default=100)
    words.add_argument("--only", default="", metavar="TEXT")
    asked = words.parse_args()
    passed = []
    print("| Proxy | Server | Client | Living | Lost | Pages | Stored | Slowest |\n|---|---|---|---|---|---|---|---|")
    tried = itertools.product(proxies(asked.proxy).items(), FAULTS.items(), CLIENTS)
    with Network() as network:
        hosts = network.host(), network.host()
        for (name, proxy), (fault, comes), client in tried:
            if asked.only not in f"{name} | {fault} | {client} |":
                continue
            with Site(network, hosts, asked.server, proxy) as site:
                living, lost = site.keys()
                comes(site)
                given = site.asked_by(client, asked.rounds, living, lost)
            unanswered = any(word in client for word in UNANSWERED)
            print("|", " | ".join([name, fault, client, *row_of(given, asked.rounds, unanswered)]), "|", flush=True)
            if "missed" in name:
                passed.append(is_right(given, asked.rounds, unanswered))
    print(f"{sum(passed)} passed, {len(passed) - sum(passed)} failed")
    return 0 if all(passed) else 1


if __name__ == "__main__":
    sys.exit(main())
