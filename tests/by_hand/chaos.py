#!/usr/bin/env python3
"""Does to a pool what a network and its machines may do to it, and checks that every answer is right.

Usage: chaos.py PROXY SERVER [--seconds N] [--seed N] [--clients N] [--kinds WORD] [--rest N] [--verbose]
                                                        (75 seconds, seed 1, 12 clients, all kinds, 30 seconds of rest)

PROXY is the built mc_proxyd, SERVER the built mc_serverd. Three servers, two proxies and three hosts of clients each have a network
namespace (tests/lib/network.py says what that needs). The first proxy has `--timeout 0`, the second `--timeout 1000`. Faults are made in
sequence, of each kind equally often: KINDS below. --kinds takes those whose name has this word. A fault lasts up to two seconds; the next
begins once each server that it touched answers again through each proxy that it touched.

Each client knows which answers are right (tests/lib/checked_clients.py). The script ends with status 1, and prints the bytes that
arrived, if

- an answer is wrong, missing, or one too many;
- a command is reported lost, and no fault touched the server of its keys and the client's proxy;
- a client's connection is closed, and no fault reset it, or ended its host or its proxy;
- an answer does not arrive within 30 seconds, or a server is not used again within 20;
- with all clients gone, and after the seconds of --rest, a program has more sockets than at its start. Sockets whose peers vanished
  silently are not counted; they are printed.

For each kind it prints how many

    faults        were made
    answered      requests were answered, each right
    link lost     requests were answered `SERVER_ERROR link lost`
    unanswered    requests got no answer, since the client's connection ended
    late          commands were reported lost, or unanswered, and were done after a newer one was answered (that is allowed)
    wrong         clients met something wrong, or waited too long
    closed        connections of clients ended by a fault that resets them, or ends their host or proxy
    closed by it  connections of clients were closed by another fault

and the milliseconds from a fault's end to the first good answer: the middle one, and the longest.
"""

import argparse
import collections
import concurrent.futures
import contextlib
import pathlib
import random
import signal
import socket
import statistics
import subprocess
import sys
import threading
import time

sys.path.insert(0, str(pathlib.Path(__file__).resolve().parents[1] / "lib"))

import checked_clients
from checked_clients import Answers, Closed, Lives, Pause, Trouble, is_answer
from checks import FAILURES, Wrong, settles
from live_pool import LOST
from network import Network, Wire
from rings import Ring
from servers import Proxy, Server

SERVERS, CLIENT_HOSTS, KEYS_AT_A_SERVER = 3, 3, 6
PROXY_WORDS = (["--timeout", "0"], ["--timeout", "1000"])
PORT = 11211
PATIENCE = 30  # seconds that a client waits for an answer
SECONDS_TO_RETURN = 20
LONGEST = 2.0  # seconds of a fault
CALM = 0.3  # seconds between faults, at most


class Client(checked_clients.Client, threading.Thread):
    """A client on a host, which connects to any proxy if its connection has ended."""

    def __init__(self, run, number):
        checked_clients.Client.__init__(self, f"c{number}", f"{run.seed} {number}", run.ring, run.lives, KEYS_AT_A_SERVER, True)
        threading.Thread.__init__(self, daemon=True)
        self.run_of, self.place, self.error = run, number % CLIENT_HOSTS, None
        self.by_kind = collections.defaultdict(collections.Counter)
        self.good_at = 0  # the time of its last good answer
        self.connect(number % len(PROXY_WORDS))

    def connect(self, proxy):
        self.proxy, self.line = proxy, self.run_of.lines[self.place][proxy]
        self.count, self.since = self.line.count, time.monotonic()
        connection = self.run_of.connected(self.run_of.client_hosts[self.place], proxy)
        self.uses(connection, self.run_of.troubles[proxy])
        if self.run_of.gone[self.place, proxy] > self.since:
            connection.shutdown(socket.SHUT_RDWR)

    def known(self):
        """The proxy answers `mn` by itself: that is never lost."""
        return b"mn\r\n", lambda line: is_answer(line, b"MN\r\n")

    def run(self):
        try:
            while not self.run_of.ended:
                self.run_of.pause.wait()
                self.told = self.by_kind[self.run_of.kind]
                self.batch_or_closed()
        except (Wrong, *FAILURES) as error:
            self.error = error
            self.told["wrong"] += 1
        finally:
            self.leaves()

    def batch_or_closed(self):
        before = self.told["answered"]
        try:
            self.batch()
            if self.told["answered"] > before:
                self.good_at = time.monotonic()
        except (Closed, ConnectionError) as error:
            if not self.line.was_since(self.count):
                self.told["closed by it"] += 1
                raise Wrong(f"its connection to proxy {self.proxy} was closed: {error}") from None
            self.told["closed"] += 1
            self.connect_again()

    def connect_again(self):
        self.leaves()
        while not self.run_of.ended:
            try:
                return self.connect(self.dice.randrange(len(PROXY_WORDS)))
            except OSError:
                time.sleep(0.05)


class Run:
    """The hosts, their programs and the clients."""

    def __init__(self, asked, stack):
        self.seed, self.dice, self.verbose = asked.seed, random.Random(asked.seed), asked.verbose
        self.programs = asked.proxy, asked.server
        self.network = stack.enter_context(Network(asked.seed))
        self.server_hosts = [self.network.host() for _ in range(SERVERS)]
        self.proxy_hosts = [self.network.host() for _ in PROXY_WORDS]
        self.client_hosts = [self.network.host() for _ in range(CLIENT_HOSTS)]
        self.watcher = self.network.host()
        self.addresses = [f"{host.address}:{PORT}" for host in self.server_hosts]
        self.ring, self.lives = Ring(self.addresses), [Lives() for _ in self.addresses]
        self.troubles = [[Trouble() for _ in self.addresses] for _ in PROXY_WORDS]
        self.lines = [[Trouble() for _ in PROXY_WORDS] for _ in self.client_hosts]
        self.gone = collections.Counter()  # when a machine at either end of a line last vanished with its connections
        self.servers, self.proxies = [None] * SERVERS, [None] * len(PROXY_WORDS)
        stack.callback(self.stop)
        for place in range(SERVERS):
            self.start_server(place)
        for place in range(len(PROXY_WORDS)):
            self.start_proxy(place)
        self.kind, self.ended, self.pause = "no fault", False, Pause(PATIENCE)
        self.faults, self.returns = collections.Counter(), collections.defaultdict(list)
        self.waits_for_paths(self.all_paths())
        self.at_start = self.sockets()
        self.vanished = collections.Counter()  # by a program: sockets whose peers vanished
        self.clients = [Client(self, number) for number in range(asked.clients)]

    def start_server(self, place):
        self.servers[place] = Server(self.programs[1], port=PORT, on=self.server_hosts[place])

    def start_proxy(self, place):
        stderr = None if self.verbose else subprocess.DEVNULL
        words, host = PROXY_WORDS[place], self.proxy_hosts[place]
        self.proxies[place] = Proxy(self.programs[0], self.addresses, words, port=PORT, on=host, stderr=stderr)

    def stop(self):
        for program in filter(None, self.servers + self.proxies):
            program.stop()

    def connected(self, host, proxy):
        return host.connected(self.proxy_hosts[proxy].address, PORT, PATIENCE)

    def sockets(self):
        """The number of descriptors of each program."""
        named = (*((f"server {at}", it) for at, it in enumerate(self.servers)), *((f"proxy {at}", it) for at, it in enumerate(self.proxies)))
        return {name: settles(it.descriptors) for name, it in named}

    # What a fault touches.

    def all_paths(self, proxies=None, servers=None):
        """Proxies with servers: all, or those of these."""
        return [(proxy, server) for proxy in proxies or range(len(PROXY_WORDS)) for server in servers or range(SERVERS)]

    def good_answer(self, path, since):
        """Milliseconds since a moment until a server answers through a proxy."""
        proxy, server = path
        ask = b"get %s\r\n" % self.ring.key(server)
        while time.monotonic() < since + SECONDS_TO_RETURN:
            with contextlib.suppress(Closed, ConnectionError), self.connected(self.watcher, proxy) as probe:
                answers = Answers(probe)
                while time.monotonic() < since + SECONDS_TO_RETURN:
                    probe.sendall(ask)
                    line = answers.line()
                    if line != LOST:
                        is_answer(line, b"END\r\n")
                        return (time.monotonic() - since) * 1000
                    time.sleep(0.005)
            time.sleep(0.005)
        raise Wrong(f"server {server} is not used again by proxy {proxy}")

    def waits_for_paths(self, paths):
        now = time.monotonic()
        with concurrent.futures.ThreadPoolExecutor(max(len(paths), 1)) as threads:
            self.returns[self.kind] += threads.map(lambda path: self.good_answer(path, now), paths)

    def waits_for_clients(self, place):
        now = time.monotonic()
        for client in self.clients:
            while client.place == place and client.good_at < now:
                self.look_at_clients()
                if time.monotonic() > now + SECONDS_TO_RETURN:
                    raise Wrong(f"clients of host {place} are not served again")
                time.sleep(0.005)
        self.returns[self.kind].append((time.monotonic() - now) * 1000)

    @contextlib.contextmanager
    def fault_on(self, paths=(), lines=(), of_clients=None):
        """A fault that touches paths from proxies to servers, or lines from hosts of clients to proxies: it is made, and ended, within
        the block. Then those that it touched recover."""
        troubles = [self.troubles[proxy][server] for proxy, server in paths] + [self.lines[place][proxy] for place, proxy in lines]
        for each in troubles:
            each.begins()
        yield
        self.network.resets_left()
        self.waits_for_paths(paths)
        if of_clients is not None:
            self.waits_for_clients(of_clients)
        for each in troubles:
            each.ends()

    def give_up(self, lines):
        """Clients give up connections whose other end, or whose own machine, has vanished: they might wait for ever."""
        for line in lines:
            self.gone[line] = time.monotonic()
        for client in self.clients:
            line = client.place, client.proxy
            if line in lines and client.since < self.gone[line]:
                with contextlib.suppress(OSError):
                    client.connection.shutdown(socket.SHUT_RDWR)

    def lasts(self, longest=LONGEST):
        time.sleep(self.dice.uniform(0.1, longest))

    def look_at_clients(self):
        for number, client in enumerate(self.clients):
            if client.error is not None:
                raise Wrong(f"client {number}: {type(client.error).__name__}: {client.error}")
        for program in self.servers + self.proxies:
            if program.process.poll() is not None:
                raise Wrong(f"{program.program} ended, with status {program.process.poll()}")

    # The whole run.

    def all_rest(self, are_idle=True):
        """A block in which no client asks for anything, if they should be idle."""
        return self.pause.all_rest(len(self.clients), self.look_at_clients) if are_idle else contextlib.nullcontext()

    def make_faults(self, kinds, seconds):
        self.pause.leave.set()
        for client in self.clients:
            client.start()
        ends = time.monotonic() + seconds
        while time.monotonic() < ends:
            for name in self.dice.sample(list(kinds), len(kinds)):
                self.kind = "no fault"
                time.sleep(self.dice.uniform(0.05, CALM))
                if time.monotonic() >= ends:
                    break
                self.kind = name
                if self.verbose:
                    print(f"{ends - time.monotonic():6.1f} {name}", flush=True)
                kinds[name](self)
                self.faults[name] += 1
                self.look_at_clients()

    def rest(self, seconds):
        """Ends the clients, and waits until no program has more sockets than at its start, but at most this long. Returns how many
        more each has, and how long that took."""
        self.kind, self.ended = "no fault", True
        for client in self.clients:
            client.join(PATIENCE)
        self.look_at_clients()
        begun = time.monotonic()
        while True:
            left = {name: count - self.at_start[name] for name, count in self.sockets().items() if count > self.at_start[name]}
            if not left or time.monotonic() > begun + seconds:
                return left, time.monotonic() - begun
            time.sleep(0.5)


# The kinds of faults.


def wire_kind(wire, to_servers=True, from_servers=True, one_proxy=False):
    """A fault of the wire between a server and all proxies, or one."""

    def make(run):
        server, proxies = run.dice.randrange(SERVERS), list(range(len(PROXY_WORDS)))
        if one_proxy:
            proxies = [run.dice.choice(proxies)]
        ends = [(run.proxy_hosts[proxy], run.server_hosts[server]) for proxy in proxies]
        ways = ends * to_servers + [(server, proxy) for proxy, server in ends] * from_servers
        with run.fault_on([(proxy, server) for proxy in proxies]), carried(run, ways, wire):
            run.lasts()

    return make


def client_wire_kind(wire, to_clients=True, from_clients=True):
    """A fault of the wire between a host of clients and all proxies. It closes no connection."""

    def make(run):
        place = run.dice.randrange(CLIENT_HOSTS)
        ends = [(run.client_hosts[place], proxy) for proxy in run.proxy_hosts]
        ways = ends * from_clients + [(proxy, client) for client, proxy in ends] * to_clients
        with run.fault_on(of_clients=place), carried(run, ways, wire):
            run.lasts()

    return make


@contextlib.contextmanager
def carried(run, ways, wire):
    for way in ways:
        run.network.wire(*way, wire)
    yield
    for way in ways:
        run.network.wire(*way)


def server_stops(run):
    server = run.dice.randrange(SERVERS)
    with run.fault_on(run.all_paths(servers=[server])):
        run.servers[server].process.send_signal(signal.SIGSTOP)
        run.lasts()
        run.servers[server].process.send_signal(signal.SIGCONT)


def server_ends(boots=False, are_idle=False):
    """It is killed, or its machine vanishes with all connections, and is back: then nobody is notified."""

    def make(run):
        server = run.dice.randrange(SERVERS)
        with run.fault_on(run.all_paths(servers=[server])):
            with run.lives[server].end(), run.all_rest(are_idle):
                if boots:
                    run.server_hosts[server].boot()
                run.servers[server].stop()
            run.lasts(LONGEST / 2)
            run.start_server(server)
            run.vanished[f"server {server}"] = 0

    return make


def link_is_reset(at_proxy, at_server):
    def make(run):
        proxy, server = run.dice.randrange(len(PROXY_WORDS)), run.dice.randrange(SERVERS)
        ends = run.proxy_hosts[proxy], run.server_hosts[server]
        with run.fault_on([(proxy, server)]):
            if at_server:
                run.network.reset(*ends)
            if at_proxy:
                run.network.reset(*ends[::-1])
                run.vanished[f"server {server}"] += 1
            run.lasts(LONGEST / 4)

    return make


def proxy_stops(run):
    proxy = run.dice.randrange(len(PROXY_WORDS))
    with run.fault_on(run.all_paths(proxies=[proxy])):
        run.proxies[proxy].process.send_signal(signal.SIGSTOP)
        run.lasts()
        run.proxies[proxy].process.send_signal(signal.SIGCONT)


def proxy_ends(boots=False, are_idle=False):
    def make(run):
        proxy = run.dice.randrange(len(PROXY_WORDS))
        lines = [(place, proxy) for place in range(CLIENT_HOSTS)]
        with run.fault_on(run.all_paths(proxies=[proxy]), lines):
            with run.all_rest(are_idle):
                if boots:
                    run.proxy_hosts[proxy].boot()
                    run.vanished.update(f"server {server}" for server in range(SERVERS))
                run.proxies[proxy].stop()
            run.lasts(LONGEST / 2)
            run.give_up(lines)
            run.start_proxy(proxy)
            run.vanished[f"proxy {proxy}"] = 0

    return make


def client_is_reset(at_client):
    def make(run):
        client = run.dice.choice(run.clients)
        place, proxy = client.place, client.proxy
        ends = run.client_hosts[place], run.proxy_hosts[proxy]
        with run.fault_on(lines=[(place, proxy)], of_clients=place):
            if at_client:
                run.vanished[f"proxy {proxy}"] += 1
            run.network.reset(*(ends[::-1] if at_client else ends), with_bytes=not at_client)
            run.lasts(LONGEST / 4)

    return make


def clients_end(are_idle=False):
    """Their machine vanishes with all connections, and is back."""

    def make(run):
        place = run.dice.randrange(CLIENT_HOSTS)
        lines = [(place, proxy) for proxy in range(len(PROXY_WORDS))]
        with run.fault_on(lines=lines, of_clients=place), run.all_rest(are_idle):
            run.vanished.update(f"proxy {client.proxy}" for client in run.clients if client.place == place)
            run.client_hosts[place].boot()
            run.give_up(lines)

    return make


CUT, LATE, MIXED = Wire(drops=True), Wire(delay=(0.02, 0.2)), Wire(delay=(0, 0.02), mixes=True)
LOSSY, TWICE, NARROW = Wire(loses=0.2), Wire(twice=0.5, delay=(0, 0.002)), Wire(rate=200_000)

KINDS = {
    "server: cut off": wire_kind(CUT),
    "server: cut off from one proxy": wire_kind(CUT, one_proxy=True),
    "server: nothing reaches it": wire_kind(CUT, from_servers=False),
    "server: nothing comes from it": wire_kind(CUT, to_servers=False),
    "server: packets late": wire_kind(LATE),
    "server: packets late, from one proxy": wire_kind(LATE, one_proxy=True),
    "server: packets mixed up": wire_kind(MIXED),
    "server: a fifth of packets lost": wire_kind(LOSSY),
    "server: packets twice": wire_kind(TWICE),
    "server: 200 kB a second": wire_kind(NARROW),
    "server: stopped": server_stops,
    "server: killed": server_ends(),
    "server: machine gone and back": server_ends(boots=True),
    "server: idle machine gone and back": server_ends(boots=True, are_idle=True),
    "link: reset at both ends": link_is_reset(True, True),
    "link: reset at the proxy": link_is_reset(True, False),
    "link: reset at the server": link_is_reset(False, True),
    "proxy: stopped": proxy_stops,
    "proxy: killed": proxy_ends(),
    "proxy: machine gone and back": proxy_ends(boots=True),
    "proxy: idle machine gone and back": proxy_ends(boots=True, are_idle=True),
    "clients: cut off": client_wire_kind(CUT),
    "clients: nothing reaches them": client_wire_kind(CUT, from_clients=False),
    "clients: nothing comes from them": client_wire_kind(CUT, to_clients=False),
    "clients: a fifth of packets lost": client_wire_kind(LOSSY),
    "client: reset at the client": client_is_reset(True),
    "client: reset at the proxy": client_is_reset(False),
    "clients: machine gone and back": clients_end(),
    "clients: idle machine gone and back": clients_end(are_idle=True),
}


# The output.


COLUMNS = {"answered": 11, "link lost": 11, "unanswered": 12, "late": 6, "wrong": 7, "closed": 8, "closed by it": 14}


def table(run):
    """A line for each kind of fault, and their sum."""
    told = collections.defaultdict(collections.Counter)
    for client in run.clients:
        for kind, counts in client.by_kind.items():
            told[kind].update(counts)
            told["all"].update(counts)
    heads = "".join(f"{name:>{width}}" for name, width in COLUMNS.items())
    print(f"{'':34}faults{heads}   ms to a good answer")
    for kind in ("no fault", *run.faults, "all"):
        faults = run.faults.total() if kind == "all" else run.faults[kind]
        good = run.returns[kind] if kind != "no fault" else []
        ms = f"{statistics.median(good):.0f}, {max(good):.0f}" if good else ""
        numbers = "".join(f"{told[kind][name]:>{width},}" for name, width in COLUMNS.items())
        print(f"{kind:34}{faults or '':>6}{numbers}{ms:>22}")


def tell(run, left, seconds):
    table(run)
    packets = ", ".join(f"{count:,} {name}" for name, count in sorted(run.network.counts().items()))
    print(f"seed {run.seed}, {len(run.clients)} clients; packets: {packets}")
    if left:
        words = (f"{name} {count} (peers that vanished: at most {run.vanished[name]})" for name, count in left.items())
        print(f"sockets left after {seconds:.0f} seconds of rest: {', '.join(words)}")
    elif left is not None:
        print(f"no socket left after {seconds:.0f} seconds of rest")


def given_words():
    words = argparse.ArgumentParser(description=__doc__, formatter_class=argparse.RawDescriptionHelpFormatter)
    words.add_argument("proxy", metavar="PROXY")
    words.add_argument("server", metavar="SERVER")
    words.add_argument("--seconds", type=float, default=75)
    words.add_argument("--seed", type=int, default=1)
    words.add_argument("--clients", type=int, default=12)
    words.add_argument("--kinds", default="")
    words.add_argument("--rest", type=float, default=30)
    words.add_argument("--verbose", action="store_true")
    return words.parse_args()


def made(asked, stack):
    """Makes the faults, and prints the results. Returns the exit status."""
    run, left, seconds, why = Run(asked, stack), None, 0, []
    try:
        run.make_faults({name: make for name, make in KINDS.items() if asked.kinds in name}, asked.seconds)
        left, seconds = run.rest(asked.rest)
        why += [f"{name} leaked sockets" for name, count in left.items() if count > run.vanished[name]]
    except (Wrong, *FAILURES) as error:
        why.append(f"in '{run.kind}': {error}")
    finally:
        run.ended = True
    tell(run, left, seconds)
    print(f"FAILED {'; '.join(why)}" if why else f"{run.faults.total()} faults, nothing failed")
    return 1 if why else 0


def main():
    signal.signal(signal.SIGTERM, signal.default_int_handler)
    with contextlib.ExitStack() as stack:
        return made(given_words(), stack)


if __name__ == "__main__":
    sys.exit(main())
