#!/usr/bin/env python3
"""What a proxy does while a name server is silent. It runs in a network and with a resolver of its own (`in_a_network_of_its_own`), and is
the name server there: it answers some names, some of them late or by NXDOMAIN, and is silent to others.

Usage: lookups.py PROXY SERVER

It prints a line for each check that fails; the last line is 'N passed, M failed'.
"""

import collections
import contextlib
import os
import pathlib
import resource
import socket
import struct
import subprocess
import sys
import tempfile
import threading
import time

sys.path.insert(0, str(pathlib.Path(__file__).resolve().parent))

from checks import PATIENCE, Wrong, asked, is_served, settles, tally, want, want_at_most
from live_pool import LOST, answered_in_time, is_lost_and_refused, is_said, nothing_is_said, stored
from rings import Ring
from servers import HOST, Proxy, Server

TRY = 3  # seconds of a try, a look-up included
PROMPT = 1  # seconds in which a client of a living server is answered, also on a busy machine
OWN = 2  # threads of a proxy that may look names up: the loop's, and the one that begins look-ups
FILES = {  # a look-up is sent twice, and fails after ten seconds
    "resolv.conf": "nameserver 127.0.0.1\nsearch .\noptions timeout:5 attempts:2\n",
    "nsswitch.conf": "hosts: files dns\n",
    "hosts": "127.0.0.1 localhost\n",
}


def in_a_network_of_its_own(proxy, server):
    """Makes these checks without any name server of the machine: as root of a user namespace, in namespaces of its own."""
    words = ["unshare", "--map-root-user", "--mount", "--net", sys.executable, __file__, proxy, server]
    environment = {name: value for name, value in os.environ.items() if name not in ("LOCALDOMAIN", "RES_OPTIONS")}
    ended = subprocess.run(words, env=environment, stdout=subprocess.PIPE, stderr=subprocess.STDOUT)
    if ended.returncode:
        raise Wrong(ended.stdout.decode())


class NameServer:
    """Answers each look-up of a name in `known` by 127.0.0.1, as many seconds late as `known` says, and one of a name in `unknown` by
    NXDOMAIN. To all others it is silent, until the name is known. `asked` counts the queries for the IPv4 address of a name."""

    def __init__(self):
        self.known, self.unknown, self.unanswered, self.asked = {}, set(), [], collections.Counter()
        self.socket = socket.socket(socket.AF_INET, socket.SOCK_DGRAM)
        self.socket.bind((HOST, 53))
        threading.Thread(target=self.serve, daemon=True).start()

    def serve(self):
        while True:
            query, client = self.socket.recvfrom(512)
            name, end = [], 12
            while query[end]:
                name.append(query[end + 1 : end + 1 + query[end]].decode())
                end += 1 + query[end]
            if query[end + 1 : end + 3] == struct.pack("!H", 1):
                self.asked[".".join(name)] += 1
            self.answer(".".join(name), query, query[12 : end + 5], client)

    def know(self, name, seconds=0):
        """Answers a name from now on, this late, and the look-ups of it before."""
        self.known[name] = seconds
        unanswered, self.unanswered = self.unanswered, []
        for each in unanswered:
            self.answer(*each)

    def answer(self, name, query, question, client):
        if name not in self.known and name not in self.unknown:
            self.unanswered.append((name, query, question, client))
            return
        is_a = name in self.known and question[-4:] == struct.pack("!HH", 1, 1)
        address = struct.pack("!HHHIH", 0xC00C, 1, 1, 1, 4) + socket.inet_aton(HOST) if is_a else b""
        head = query[:2] + struct.pack("!HHHHH", 0x8183 if name in self.unknown else 0x8180, 1, is_a, 0, 0)
        threading.Timer(self.known.get(name, 0), self.socket.sendto, (head + question + address, client)).start()


def threads_of(proxy):
    return len(os.listdir(f"/proc/{proxy.process.pid}/task"))


def in_front(words, places, limits=()):
    return Proxy(PROXY, places, words, limits, stderr=subprocess.PIPE)


@contextlib.contextmanager
def resolved_by(text):
    """The programs that are started meanwhile resolve names in this way."""
    file = pathlib.Path("/etc/resolv.conf")
    file.write_text(text)
    try:
        yield
    finally:
        file.write_text(FILES["resolv.conf"])


def asked_promptly(client, key, seconds, answer=b"END\r\n"):
    """Each get of a key is answered promptly, for that long."""
    deadline = time.monotonic() + seconds
    while (begun := time.monotonic()) < deadline:
        asked(client, b"get %s\r\n" % key, answer)
        want_at_most(time.monotonic() - begun, PROMPT)


def a_silent_name_holds_up_nobody():
    """The first client waits as long as a try takes. From then on all are served, also while the name is looked up again; the server
    joins once its name is answered."""
    with Server(SERVER) as living, Server(SERVER) as other:
        place = f"late.example:{other.port}"
        ring = Ring([living.address, place])
        here, there = (ring.key(place) for place in (0, 1))
        begun = time.monotonic()
        with in_front([], [living.address, place]) as proxy, proxy.connected() as client:
            is_served(client)
            want_at_most(time.monotonic() - begun, TRY + 0.5)
            is_said(proxy, f"{place} refused: look-up timed out")
            asked_promptly(client, here, 4)
            asked(client, b"get %s\r\n" % there, LOST)
            want(threads_of(proxy), OWN + 1)
            nothing_is_said(proxy)
            NAMES.know("late.example")
            answered_in_time(client, b"get %s\r\n" % there, b"END\r\n", PATIENCE)
            is_said(proxy, f"{place} back")
            asked(client, *stored(there)[:2])
            want(threads_of(proxy), OWN)


def a_look_up_that_fails_late_is_nothing_new():
    """It fails after ten seconds, and another one begins: a silent name server is reported once."""
    place = "quiet.example:1"
    with in_front([], [place]) as proxy, proxy.connected() as client:
        asked(client, b"get a\r\n", LOST)
        is_said(proxy, f"{place} refused: look-up timed out")
        time.sleep(11)
        nothing_is_said(proxy)


def descriptors_of_look_ups_are_reserved():
    """Three for each server if one has a name: three name servers are silent, clients have all other descriptors, and a lost server is
    connected again."""
    most, own = 2, 6 + 2 * 3
    silent = "".join(f"nameserver 127.0.0.{number}\n" for number in (1, 2, 3)) + "search .\noptions timeout:1 attempts:5\n"
    with resolved_by(silent), contextlib.ExitStack() as stack:
        living = stack.enter_context(Server(SERVER))
        others = [stack.enter_context(socket.socket(socket.AF_INET, socket.SOCK_DGRAM)) for _ in range(2)]
        for number, other in enumerate(others):
            other.bind((f"127.0.0.{number + 2}", 53))
        place = "mute.example:1"
        files = f"{own + most} open files"
        proxy = stack.enter_context(in_front([], [living.address, place], [(resource.RLIMIT_NOFILE, own + most)]))
        is_said(proxy, f"{files}: {most} connections can be served at a time", f"{place} refused: look-up timed out")
        clients = [stack.enter_context(proxy.connected()) for _ in range(most + 1)]
        for client in clients[:most]:
            is_served(client)
        is_said(proxy, f"no more clients: {files} allow {most}")
        want(settles(lambda: sockets_of(proxy)), 2 + most + 3)  # two listen or are a link
        get = b"get %s\r\n" % Ring([living.address, place]).key(0)
        asked(clients[0], get, b"END\r\n")
        living.stop()
        is_lost_and_refused(proxy, living.address)
        with Server(SERVER, port=living.port):
            answered_in_time(clients[0], get, b"END\r\n")
            is_said(proxy, f"{living.address} back")


def sockets_of(proxy):
    folder = f"/proc/{proxy.process.pid}/fd"
    return sum(os.readlink(f"{folder}/{name}").startswith("socket:") for name in os.listdir(folder))


def a_look_up_without_a_thread_is_said():
    """It is begun again once there is one."""
    with Server(SERVER) as living, tempfile.NamedTemporaryFile("w") as file:
        file.write(f"{living.address}\n")
        file.flush()
        with in_front(["--servers", file.name], []) as proxy, proxy.connected() as client:
            is_served(client)
            soft, hard = resource.prlimit(proxy.process.pid, resource.RLIMIT_AS)
            resource.prlimit(proxy.process.pid, resource.RLIMIT_AS, (proxy.memory("VmSize") + 500_000, hard))
            file.write("joins:1=stuck.example:1\n")
            file.flush()
            is_said(proxy, "joins:1 joined", "joins:1 refused: no thread for a look-up")
            resource.prlimit(proxy.process.pid, resource.RLIMIT_AS, (soft, hard))
            is_said(proxy, "joins:1 refused: look-up timed out")


def a_name_is_not_held_up_by_another():
    NAMES.know("quick.example")
    with Server(SERVER) as server:
        places = [f"silent.example:{server.port}", f"quick.example:{server.port}"]
        ring = Ring(places)
        with in_front([], places) as proxy, proxy.connected() as client:
            is_served(client)
            is_said(proxy, f"{places[0]} refused: look-up timed out")
            asked(client, *stored(ring.key(1))[:2])
            nothing_is_said(proxy)
            asked(client, b"get %s\r\n" % ring.key(0), LOST)


def a_name_that_is_answered_holds_up_nobody_at_first():
    NAMES.know("quick.example")
    with Server(SERVER) as server:
        place = f"quick.example:{server.port}"
        begun = time.monotonic()
        with in_front([], [place]) as proxy, proxy.connected() as client:
            asked(client, *stored(Ring([place]).key(0))[:2])
            want_at_most(time.monotonic() - begun, 1)
            nothing_is_said(proxy)


def one_look_up_of_a_server_is_under_way():
    """While it is, the next try begins no other."""
    place = "long.example:1"
    with in_front([], [place]) as proxy, proxy.connected() as client:
        asked(client, b"get a\r\n", LOST)
        for _ in range(20):
            want(threads_of(proxy), OWN + 1)
            time.sleep(0.05)


def the_end_does_not_wait_for_a_look_up():
    with in_front(["--accept", "1"], ["never.example:1"]) as proxy:
        with proxy.connected() as client:
            asked(client, b"get a\r\n", LOST)
            want(threads_of(proxy), OWN + 1)
        begun = time.monotonic()
        want(proxy.process.wait(PATIENCE), 0)
        want_at_most(time.monotonic() - begun, 0.5)


def a_slow_answer_is_in_time():
    """One that arrives within the three seconds of a try: nothing is reported."""
    NAMES.know("slow.example", 2)
    with Server(SERVER) as server:
        place = f"slow.example:{server.port}"
        with in_front([], [place]) as proxy, proxy.connected() as client:
            asked(client, *stored(Ring([place]).key(0))[:2])
            nothing_is_said(proxy)


def an_answer_after_the_try_is_taken():
    """The next try uses it, and sends no more look-ups."""
    NAMES.know("slower.example", 4)
    with Server(SERVER) as server:
        place = f"slower.example:{server.port}"
        with in_front([], [place]) as proxy, proxy.connected() as client:
            asked(client, b"get a\r\n", LOST)
            is_said(proxy, f"{place} refused: look-up timed out")
            answered_in_time(client, b"get a\r\n", b"END\r\n", PATIENCE)
            is_said(proxy, f"{place} back")
            asked(client, *stored(Ring([place]).key(0))[:2])
            want(threads_of(proxy), OWN)


def connections_begun():
    """How many connections were begun in this network."""
    names, numbers = (line.split() for line in pathlib.Path("/proc/net/snmp").read_text().splitlines() if line.startswith("Tcp:"))
    return int(dict(zip(names, numbers))["ActiveOpens"])


def a_name_that_nobody_knows_is_refused_at_once():
    """It is looked up again after more than a second, and then after more. A server that refuses is tried less and less."""
    NAMES.unknown.add("nobody.example")
    place, gone = "nobody.example:1", f"{HOST}:1"
    begun, before = time.monotonic(), connections_begun()
    with in_front([], [gone, place]) as proxy, proxy.connected() as client:
        asked(client, b"get a\r\n", LOST)
        want_at_most(time.monotonic() - begun, 1)
        is_said(proxy, f"{gone} refused: connection refused", f"{place} refused: unknown host")
        queries = NAMES.asked["nobody.example"]  # of the first look-up
        time.sleep(3)
        look_ups, tries = NAMES.asked["nobody.example"] // queries, connections_begun() - before - 1
        want((look_ups, tries, look_ups in (2, 3, 4), tries in range(3, 8)), (look_ups, tries, True, True))
        want_at_most(proxy.processor_time(), 0.1)


def as_many_names_as_servers_hang():
    """63 names at once, and a server by its address: each has a thread and no more, and a client of that server is served all along."""
    with Server(SERVER) as living:
        places = [living.address, *(f"hung-{number}.example:1" for number in range(63))]
        key = Ring(places).key(0)
        with in_front([], places) as proxy, proxy.connected() as client:
            is_served(client)
            asked(client, *stored(key)[:2])
            asked_promptly(client, key, 4, stored(key)[3])
            want(threads_of(proxy), OWN + 63)
            with proxy.connected() as other:
                asked_promptly(other, key, 0.1, stored(key)[3])


def a_name_that_joins_holds_up_nobody():
    """Neither a client that is connected nor a new one, if a line of a file has a name that hangs. Its address is taken over while the
    look-up of the name is in flight."""
    with Server(SERVER) as living, Server(SERVER) as other, tempfile.NamedTemporaryFile("w") as file:
        name, ring = "joins:1", Ring([living.address, "joins:1"])
        here, there = (ring.key(place) for place in (0, 1))
        file.write(f"{living.address}\n")
        file.flush()
        with in_front(["--servers", file.name], []) as proxy, proxy.connected() as client:
            is_served(client)
            want(threads_of(proxy), OWN)
            file.write(f"{name}=hung.example:1\n")
            file.flush()
            is_said(proxy, f"{name} joined")
            with proxy.connected() as comer:
                asked_promptly(comer, here, 1)
                asked(comer, b"get %s\r\n" % there, LOST)
            asked_promptly(client, here, 3)
            is_said(proxy, f"{name} refused: look-up timed out")
            pathlib.Path(file.name).write_text(f"{living.address}\n{name}={other.address}\n")
            is_said(proxy, f"{name} now at {other.address}")
            answered_in_time(client, b"get %s\r\n" % there, b"END\r\n", 2 * PATIENCE)
            is_said(proxy, f"{name} back")
            asked(client, *stored(there)[:2])
            with other.connected() as direct:
                asked(direct, b"get %s\r\n" % there, stored(there)[3])


def the_server_of_join_may_have_a_name():
    NAMES.know("quick.example")
    with Server(SERVER) as one, Server(SERVER) as two:
        place = f"quick.example:{two.port}"
        ring = Ring([one.address, place])
        with in_front(["--join", place, "--join-after", "1"], [one.address]) as proxy, proxy.connected() as client:
            asked(client, *stored(ring.key(1))[:2])
            with two.connected() as direct:
                asked(direct, b"get %s\r\n" % ring.key(1), stored(ring.key(1))[3])


def an_address_needs_no_thread():
    with Server(SERVER) as server, in_front([], [server.address, f"{HOST}:1"]) as proxy, proxy.connected() as client:
        is_served(client)
        want(threads_of(proxy), 1)


def checks():
    for check in (
        a_silent_name_holds_up_nobody,
        a_look_up_that_fails_late_is_nothing_new,
        descriptors_of_look_ups_are_reserved,
        a_look_up_without_a_thread_is_said,
        a_name_is_not_held_up_by_another,
        a_name_that_is_answered_holds_up_nobody_at_first,
        a_slow_answer_is_in_time,
        an_answer_after_the_try_is_taken,
        a_name_that_nobody_knows_is_refused_at_once,
        as_many_names_as_servers_hang,
        a_name_that_joins_holds_up_nobody,
        the_server_of_join_may_have_a_name,
        one_look_up_of_a_server_is_under_way,
        the_end_does_not_wait_for_a_look_up,
        an_address_needs_no_thread,
    ):
        yield check.__name__, check, ()


def main():
    """Puts the resolver's files in place, as this process and those that it starts see them."""
    global PROXY, SERVER, NAMES
    PROXY, SERVER = sys.argv[1:]
    subprocess.run(["ip", "link", "set", "lo", "up"], check=True)
    with tempfile.TemporaryDirectory() as folder, contextlib.ExitStack():
        for name, text in FILES.items():
            file = pathlib.Path(folder) / name
            file.write_text(text)
            subprocess.run(["mount", "--bind", file, f"/etc/{name}"], check=True)
        NAMES = NameServer()
        return tally(checks())


if __name__ == "__main__":
    sys.exit(main())
