#!/usr/bin/env python3
"""Tries the listener of operators, --admin, of the built mc_serverd and mc_proxyd on sockets: what it shows, what it refuses, and what
malicious operators can do to others.

Usage: admin.py SERVER PROXY

serverd.metrics and proxyd.metrics have the output of /metrics of a server and of a proxy, serverd.stats the answer to the line `stats`,
serverd.settings and proxyd.settings that to `stats settings`: a value that differs at each run (a process, a time, a port) is a word in
capitals. The script prints a line for each check that fails; the last line is 'N passed, M failed'. All that is started is ended with its
check.
"""

import base64
import contextlib
import hashlib
import http.client
import pathlib
import re
import signal
import socket
import sys
import threading
import time

sys.path.insert(0, str(pathlib.Path(__file__).resolve().parents[1] / "lib"))

from checks import (
    PATIENCE, Program, Wrong, asked, is_served, plain_lines, received, received_to_the_end, tally, want, want_at_most,
)  # fmt: skip
from live_pool import LOST, Played, stored
from rings import Ring
from servers import HOST, Proxy, Server, connected, free_port, statistics
from suite import are_built

HERE = pathlib.Path(__file__).parent
REQUEST_LIMIT = 4096  # the most bytes of a line or of a head
MOST = 16  # the most connections
QUIET = 5  # seconds after which a connection makes room for another
LINGER = 2  # seconds that a connection is read to its end after its last answer
PLAIN = "text/plain; charset=utf-8"
VERSION = b"VERSION 1.6.0\r\n"
NAMES_OF_A_CLIENT = ["addr", "listen_addr", "state", "secs_since_last_cmd", "age", "bytes_read", "bytes_written"]
LOAD = (
    b"set a 0 0 3\r\nabc\r\nset b 0 0 1\r\nx\r\nset c 0 -1 1\r\ny\r\nget a b c none\r\nmg a v\r\nincr n 1\r\nwhat\r\n",
    b"STORED\r\nSTORED\r\nSTORED\r\nVALUE a 0 3\r\nabc\r\nVALUE b 0 1\r\nx\r\nEND\r\nVA 3\r\nabc\r\nNOT_FOUND\r\nERROR\r\n",
)
UNCOUNTED = 32_768  # bytes that are kept for a client and are not counted
# What a browser may do with the page, beside its script and its style.
POLICY = {
    "default-src": "'none'", "connect-src": "'self'", "img-src": "data:", "base-uri": "'none'", "form-action": "'none'", "frame-ancestors": "'none'",
}  # fmt: skip
# The metrics behind each label of the page, and the words for some of them; those of the columns of a proxy's servers, each of which has a number.
LABELS = {
    label: [("", name) if name in ("requests", "hits", "keys") else (name, "") for name in names.split()]
    for label, names in {
        "Requests/s": "requests requests",
        "Clients": "memcached_current_connections memcached_max_connections",
        "From clients/s": "memcached_read_bytes_total",
        "To clients/s": "memcached_written_bytes_total",
        "Clients refused": "memcached_connections_rejected_total",
        "Hits/s": "hits keys keys",
        "Hit rate": "hits keys hits keys",
        "Items": "memcached_current_items wiersbol_limit_items",
        "Items cost": "memcached_current_bytes memcached_limit_bytes",
        "Evictions/s": "memcached_items_evicted_total memcached_items_evicted_total",
        "Memory refused": "wiersbol_memory_refused_total",
        "Memory": "process_resident_memory_bytes",
    }.items()
}
NAMED = {
    "requests": '"wiersbol_requests_total"', "hits": """'memcached_commands_total{command="get",status="hit"}'""", "keys": '"wiersbol_retrievals_total"',
}  # fmt: skip
COLUMNS = {"State": "up", "Sent/s": "sent_total", "Share": "sent_total", "Waiting": "waiting", "Losses": "losses_total", "Lost": "lost_total"}
# The values that differ at each run, in metrics and in statistics.
VARYING = [
    (rb"(wiersbol_process_id|STAT pid) \d+", rb"\1 PID"),
    (rb"(memcached_uptime_seconds|STAT uptime) \d+", rb"\1 UPTIME"),
    (rb"(memcached_time_seconds|STAT time) 1\d{9}\b", rb"\1 TIME"),
    (rb"(wiersbol_buffered_bytes|STAT buffered_bytes) \d+", rb"\1 BUFFERED"),
    (rb"(process_resident_memory_bytes|STAT resident_bytes) [1-9]\d{6,}\b", rb"\1 MEMORY"),
]


def masked(text, ports=()):
    for pattern, word in VARYING:
        text = re.sub(pattern, word, text)
    for port, name in ports:
        text = text.replace(b":%d" % port, b":%s" % name)
    return text.replace(b"\r\n", b"\n").decode()


class Admin:
    """A program with a listener of operators, and how to ask it."""

    def __init__(self, port):
        self.port = port

    def connected(self):
        return connected(self.port)

    def got(self, path, method="GET", host=None, body=None):
        """The status, the fields and the body of a request."""
        client = http.client.HTTPConnection(HOST, self.port, timeout=PATIENCE)
        try:
            client.request(method, path, body=body, headers={"Host": host} if host else {})
            answer = client.getresponse()
            return answer.status, dict(answer.getheaders()), answer.read()
        finally:
            client.close()

    def told(self, text):
        """All bytes of the answer to a text."""
        with self.connected() as connection:
            connection.sendall(text)
            return received_to_the_end(connection)

    def status(self, text):
        return self.told(text).split(b" ", 2)[1]


@contextlib.contextmanager
def server(program, *words):
    port = free_port()
    with Server(program, words=["--admin", f"{HOST}:{port}", *words]) as started:
        yield started, Admin(port)


@contextlib.contextmanager
def loaded(started):
    """A client that has sent the load, and stays connected."""
    with started.connected() as client:
        asked(client, *LOAD)
        yield


# What is shown.


def metrics_are_shown(program):
    with server(program) as (started, admin), loaded(started):
        status, fields, body = admin.got("/metrics")
        want((status, fields["content-type"]), (200, "text/plain; version=0.0.4; charset=utf-8"))
        want((fields["content-length"], fields["connection"]), (str(len(body)), "close"))
        want(masked(body), (HERE / "serverd.metrics").read_text())


def statistics_are_shown(program):
    with server(program) as (started, admin), loaded(started):
        want(masked(admin.told(b"stats\r\nquit\r\n")), (HERE / "serverd.stats").read_text())


def is_about(shown, pid):
    """The number of the process, the wall clock and the time since the start, just now."""
    want(shown["pid"], str(pid))
    want_at_most(abs(int(shown["time"]) - time.time()), 3)
    want_at_most(int(shown["uptime"]), 2)


def the_process_is_shown(program, proxy_program):
    port = free_port()
    with server(program) as (started, admin):
        is_about(statistics(admin.port), started.process.pid)
        with Proxy(proxy_program, [started.address], ["--admin", f"{HOST}:{port}"]) as proxy:
            is_about(statistics(port), proxy.process.pid)


def figures_of_items_follow_each_change(program):
    """How many there are, what they cost, and how many were evicted, after each request."""
    port, evicted = free_port(), 0
    with Server(program, items=3, words=["--admin", f"{HOST}:{port}"]) as started, started.connected() as client:
        for text, answer, items, cost in (
            (b"set a 0 0 1\r\nx\r\n", b"STORED\r\n", 1, 66),
            (b"set a 0 0 10\r\n0123456789\r\n", b"STORED\r\n", 1, 75),
            (b"append a 0 0 1\r\nx\r\n", b"STORED\r\n", 1, 76),
            (b"set b 0 0 1\r\n9\r\nset cc 0 0 1\r\nx\r\n", b"STORED\r\n" * 2, 3, 76 + 66 + 67),
            (b"incr b 1\r\n", b"10\r\n", 3, 76 + 67 + 67),
            (b"touch b 60\r\nget b\r\n", b"TOUCHED\r\nVALUE b 0 2\r\n10\r\nEND\r\n", 3, 76 + 67 + 67),
            (b"set d 0 0 1\r\nx\r\n", b"STORED\r\n", 3, 67 + 67 + 66),
            (b"set e 0 0 2\r\nxx\r\n", b"STORED\r\n", 3, 67 + 66 + 67),
            (b"delete d\r\n", b"DELETED\r\n", 2, 67 + 67),
            (b"ms f 3\r\nabc\r\nmd e\r\n", b"HD\r\n" * 2, 2, 67 + 68),
            (b"flush_all\r\nget f\r\n", b"OK\r\nEND\r\n", 0, 0),
        ):
            evicted += text[:5] in (b"set d", b"set e")
            asked(client, text, answer)
            shown = statistics(port)
            want((text, shown["curr_items"], shown["bytes"], shown["evictions"]), (text, str(items), str(cost), str(evicted)))
        shown = [int(shown[name]) for name in ("get_hits", "get_misses", "cmd_get", "cmd_set", "total_items", "expired", "no_memory")]
        want(shown, [1, 1, 2, 9, 9, 0, 0])


def bytes_that_are_kept_are_shown(program, proxy_program):
    """Of a block that has arrived in part; and of a proxy also those for a server that reads nothing."""
    port = free_port()
    with server(program) as (started, admin), started.connected() as client:
        client.sendall(b"set a 0 0 1000000\r\n" + b"x" * 900_000)
        is_kept(admin.port, 900_000 - UNCOUNTED)
    with Played.Server() as behind, Proxy(proxy_program, [behind.address], ["--admin", f"{HOST}:{port}", "--timeout", "0"]) as proxy:
        with behind.accept() as link, proxy.connected() as client:
            link.setsockopt(socket.SOL_SOCKET, socket.SO_RCVBUF, 65_536)
            client.sendall(b"set a 0 0 1000000\r\n%s\r\n" % (b"x" * 1_000_000) * 7)
            is_kept(port, 1_000_000)


def is_kept(port, least):
    """In a moment, this many bytes or more are."""
    deadline = time.monotonic() + PATIENCE
    while int(statistics(port)["buffered_bytes"]) < least:
        want(time.monotonic() < deadline, True)
        time.sleep(0.02)


def who_finds_no_place_is_refused(program):
    """It is no client for which there was no memory."""
    with server(program) as (started, admin), contextlib.ExitStack() as stack:
        clients = [stack.enter_context(started.connected()) for _ in range(1_024)]
        is_served(clients[-1])
        for number in (1, 2):
            with started.connected() as further:
                want(further.recv(1), b"")
            shown = statistics(admin.port)
            shown = [shown[name] for name in ("curr_connections", "total_connections", "rejected_connections", "no_memory")]
            want(shown, ["1024", str(1_024 + number), str(number), "0"])


def settings_are_shown(program):
    words = "--store lru --idle 7 --report 3600 --answer 2048 --buffers 8M --cas-from now --memory-exit 9 --reserve 128K".split()
    with server(program, *words) as (_, admin):
        want(masked(admin.told(b"stats settings\r\nquit\r\n")), (HERE / "serverd.settings").read_text())
    for words, last in (([], b"0"), (["--cas-from", "18"], b"18")):
        with server(program, *words) as (_, admin):
            lines = admin.told(b"stats settings\r\nquit\r\n").splitlines()
            want([line for line in lines if b"cas_from" in line or b"memory_exit" in line], [b"STAT cas_from " + last, b"STAT memory_exit 0"])


def it_says_that_it_serves(program):
    with server(program) as (_, admin):
        status, fields, body = admin.got("/healthz")
        want((status, fields["content-type"], body), (200, PLAIN, b"ok\n"))
        want(admin.got("/healthz?verbose=1")[0], 200)


def memory_is_that_of_the_process(program):
    """Its report of its memory is the system's, before and after it stored 20 MB."""
    with server(program) as (started, admin), started.connected() as client:
        for _ in range(2):
            shown = dict(line.rsplit(b" ", 1) for line in admin.got("/metrics")[2].splitlines())
            want_at_most(abs(int(shown[b"process_resident_memory_bytes"]) - started.memory()), 1_000_000)
            for place in range(20):
                asked(client, b"set %d 0 0 1000000\r\n%s\r\n" % (place, b"x" * 1_000_000), b"STORED\r\n")


def page_names_what_it_shows(page):
    """Behind each label are the metrics that it is about, and the columns of a proxy's servers have theirs."""
    for label, metrics in LABELS.items():
        [text] = re.findall(rf'\["{label}", (.*)\]', page)
        want((label, re.findall(r'"((?:memcached|wiersbol|process)_\w+)"|\b(requests|hits|keys)\b', text)), (label, metrics))
    named = dict(re.findall(r"""\b(requests|hits|keys) = (?:rate\()?(".*?"|'.*?')""", page))
    want(named, NAMED)
    [head] = re.findall(r"<thead><tr><th>(.*)</tr></thead>", page)
    [row] = re.findall(r'fill\(at\("servers"\), (.*?)\);\n', page, re.DOTALL)
    want(dict(zip(head.split("<th>")[1:], re.findall(r'of\("(\w+)", each\)', row), strict=True)), COLUMNS)


def a_page_is_shown(program):
    """A browser may run the script of the page and use its style, and nothing else: their hashes are those of the texts that it is sent."""
    with server(program) as (_, admin):
        status, fields, body = admin.got("/")
        want((status, fields["content-type"], fields["x-content-type-options"]), (200, "text/html; charset=utf-8", "nosniff"))
        want((fields["content-length"], fields["connection"]), (str(len(body)), "close"))
        policy = dict(part.strip().split(" ", 1) for part in fields["content-security-policy"].split(";"))
        allowed = dict(POLICY)
        for tag in ("script", "style"):
            [text] = re.findall(rb"<%s>(.*?)</%s>" % (tag.encode(), tag.encode()), body, re.DOTALL)
            summed = base64.b64encode(hashlib.sha256(text).digest()).decode()
            allowed[f"{tag}-src"] = f"'sha256-{summed}'"
        want(policy, allowed)
        page_names_what_it_shows(body.decode())
        want_at_most(len(body), 6_500)
        want((b"http:" in body, b"https:" in body, b"innerHTML" in body), (False, False, False))
        want(admin.got("/?once=1")[2], body)
        for name in re.findall(rb"\b(?:memcached|wiersbol|process)_[a-z_]+[a-z]", body):
            want((name, name.startswith(b"wiersbol_server") or name in admin.got("/metrics")[2]), (name, True))


def numbers_grow(program):
    """The counts since the start, scraped after each of three loads, whose client is still connected."""
    with server(program) as (started, admin):
        for total in (1, 2, 3):
            with loaded(started):
                lines = admin.got("/metrics")[2].splitlines()
            shown = dict(line.rsplit(b" ", 1) for line in lines if not line.startswith(b"#"))
            want(int(shown[b"memcached_items_total"]), 3 * total)
            want(int(shown[b"memcached_read_bytes_total"]), total * len(LOAD[0]))
            want(int(shown[b"memcached_written_bytes_total"]), total * len(LOAD[1]))
            want(int(shown[b"memcached_connections_total"]), total)


def a_proxy_shows_its_servers(program, proxy_program):
    port = free_port()
    with contextlib.ExitStack() as stack:
        servers = [stack.enter_context(Server(program)) for _ in range(2)]
        addresses = [each.address for each in servers]
        proxy = stack.enter_context(Proxy(proxy_program, addresses, ["--admin", f"{HOST}:{port}"]))
        admin = Admin(port)
        with proxy.connected() as client:
            asked(client, b"set a 0 0 1\r\nx\r\n", b"STORED\r\n")
            ports = [(each.port, name) for each, name in zip(servers, (b"FIRST", b"SECOND"))]
            body = masked(admin.got("/metrics")[2], ports)
            owned = 1 if 'sent_total{server="127.0.0.1:SECOND"} 1' in body else 0
            names = ("FIRST", "SECOND") if owned == 0 else ("SECOND", "FIRST")
            ports = [(each.port, name.encode()) for each, name in zip(servers, names)]
            shown = masked(admin.got("/metrics")[2], ports)
            want(sorted(shown.splitlines()), sorted((HERE / "proxyd.metrics").read_text().splitlines()))
            servers[owned].stop()
            address = servers[owned].address.encode()
            deadline = time.monotonic() + PATIENCE
            while b'wiersbol_server_up{server="%s"} 0' % address not in admin.got("/metrics")[2]:
                want(time.monotonic() < deadline, True)
                time.sleep(0.05)
            lines = admin.told(b"stats\r\nquit\r\n").splitlines()
            for part, number in ((b"up", 0), (b"losses", 1), (b"sent", 1), (b"lost", 0), (b"waiting", 0)):
                want(b"STAT server:%s:%s %d" % (address, part, number) in lines, True)


def a_proxy_shows_each_figure(proxy_program):
    """Of two servers, each with other numbers: one has lost two links with four commands, and another has commands that wait."""
    port = free_port()
    with contextlib.ExitStack() as stack:
        servers = [stack.enter_context(Played.Server()) for _ in range(2)]
        words = [f"a:1={servers[0].address}", f"b:1={servers[1].address}"]
        proxy = stack.enter_context(Proxy(proxy_program, words, ["--admin", f"{HOST}:{port}", "--timeout", "0"]))
        first, second = (stack.enter_context(server.accept()) for server in servers)
        client = stack.enter_context(proxy.connected())
        gets = [stored(Ring(["a:1", "b:1"]).key(place))[2] for place in (0, 1)]
        for count in (3, 1):
            is_up(port, "a:1")
            client.sendall(gets[0] * count)
            want(received(first, count * len(gets[0])), gets[0] * count)
            first.close()
            want(received(client, count * len(LOST)), LOST * count)
            first = stack.enter_context(servers[0].accept())
        is_up(port, "a:1")
        client.sendall(gets[0] + gets[1] * 9)
        want(received(first, len(gets[0])), gets[0])
        want(received(second, 9 * len(gets[1])), gets[1] * 9)
        first.sendall(b"END\r\n")
        second.sendall(b"END\r\n" * 3)
        want(received(client, 4 * 5), b"END\r\n" * 4)
        shown = statistics(port)
        for name, numbers in (("a:1", (1, 2, 5, 4, 0)), ("b:1", (1, 0, 9, 0, 6))):
            said = tuple(int(shown[f"server:{name}:{part}"]) for part in ("up", "losses", "sent", "lost", "waiting"))
            want((name, said), (name, numbers))


def is_up(port, name):
    """In a moment, a server is."""
    deadline = time.monotonic() + PATIENCE
    while statistics(port)[f"server:{name}:up"] != "1":
        want(time.monotonic() < deadline, True)
        time.sleep(0.02)


def settings_of_a_proxy_are_shown(proxy_program):
    port = free_port()
    words = f"--idle 7 --held 3M --buffers 8M --answer 2M --timeout 900 --lost missed --report 3600 --admin {HOST}:{port}".split()
    with Proxy(proxy_program, [f"{HOST}:{free_port()}" for _ in range(2)], words):
        want(masked(Admin(port).told(b"stats settings\r\nquit\r\n")), (HERE / "proxyd.settings").read_text())


def a_proxy_shows_its_choice(proxy_program):
    """With `--lost missed` it shows the requests whose answers hide a loss, and otherwise none."""
    for words, choice, missed in (([], b"told", None), (["--lost", "missed"], b"missed", b"1")):
        port = free_port()
        with Proxy(proxy_program, [f"{HOST}:{free_port()}"], ["--admin", f"{HOST}:{port}", *words]) as proxy, proxy.connected() as client:
            asked(client, b"get a\r\n", b"END\r\n" if missed else LOST)
            admin = Admin(port)
            lines = admin.told(b"stats settings\r\nquit\r\n").splitlines()
            want(b"STAT lost " + choice in lines, True)
            shown = dict(line.rsplit(b" ", 1) for line in admin.got("/metrics")[2].splitlines())
            want(shown.get(b"wiersbol_requests_missed_total"), missed)


# Who is connected.


def listed(answer):
    """The entries of `stats conns` for each client, by its place: names with values, in the order of the lines."""
    *lines, end = answer.splitlines(keepends=True)
    want(end, b"END\r\n")
    clients = {}
    for line in lines:
        word, name, value = line.decode().removesuffix("\r\n").split(" ")
        place, _, name = name.partition(":")
        want(word, "STAT")
        clients.setdefault(int(place), []).append((name, value))
    want(list(clients), sorted(clients))
    for place, said in clients.items():
        want((place, [name for name, _ in said]), (place, NAMES_OF_A_CLIENT))
    return {place: dict(said) for place, said in clients.items()}


def address_of(connection):
    return "tcp:{}:{}".format(*connection.getsockname())


def clients_are_listed(program):
    with server(program) as (started, admin):
        want(admin.told(b"stats conns\r\nquit\r\n"), b"END\r\n")
        with started.connected() as client, started.connected() as silent:
            asked(client, *LOAD)
            is_served(client)
            first, second = listed(admin.told(b"stats conns\r\nquit\r\n")).values()
            came = f"tcp:{started.address}"
            want((first["addr"], first["listen_addr"], first["state"]), (address_of(client), came, "conn_waiting"))
            want((second["addr"], second["listen_addr"], second["state"]), (address_of(silent), came, "conn_waiting"))
            version = b"version\r\n", VERSION
            passed = [str(len(LOAD[side]) + len(version[side])) for side in (0, 1)]
            want(([first["bytes_read"], first["bytes_written"]], [second["bytes_read"], second["bytes_written"]]), (passed, ["0", "0"]))
            asked(client, b"set d 0 1 1\r\nx\r\n", b"STORED\r\n")
            expired = int(statistics(admin.port)["expired"])
            time.sleep(2.1)
            asked(client, b"get d\r\n", b"END\r\n")
            want(int(statistics(admin.port)["expired"]), expired + 1)
            is_served(client)
            first, second = listed(admin.told(b"stats conns\r\nquit\r\n")).values()
            want((int(first["secs_since_last_cmd"]) <= 1, int(second["secs_since_last_cmd"]) >= 2), (True, True))
            want(int(first["age"]) >= 2, True)


def a_client_that_does_not_read_is_seen(program):
    with server(program) as (started, admin), started.connected() as client:
        asked(client, b"set a 0 0 1000000\r\n%s\r\n" % (b"x" * 1_000_000), b"STORED\r\n")
        client.sendall(b"get a\r\n" * 100)
        time.sleep(0.5)
        [seen] = listed(admin.told(b"stats conns\r\nquit\r\n")).values()
        want((seen["state"], int(seen["bytes_written"]) > 100_000), ("conn_mwrite", True))


def many_clients_are_listed_in_parts(program):
    with server(program) as (started, admin), contextlib.ExitStack() as stack:
        clients = [stack.enter_context(started.connected()) for _ in range(100)]
        for each in clients:
            is_served(each)
        for each in clients[10:20] + clients[64:65]:
            each.close()
        time.sleep(0.2)
        left = clients[:10] + clients[20:64] + clients[65:]
        answer = admin.told(b"version\r\nstats conns\r\nversion\r\nstats conns\r\nquit\r\n")
        want(answer.startswith(VERSION) and answer.count(VERSION) == 2, True)
        for part in answer.split(VERSION)[1:]:
            want([each["addr"] for each in listed(part).values()], [address_of(each) for each in left])


def those_who_list_wait_for_each_other(program):
    """Fifteen who ask at once who is connected each get the whole answer."""
    with server(program) as (started, admin), contextlib.ExitStack() as stack:
        clients = [stack.enter_context(started.connected()) for _ in range(70)]
        for each in clients:
            is_served(each)
        operators = [stack.enter_context(admin.connected()) for _ in range(MOST - 1)]
        for each in operators:
            each.sendall(b"stats conns\r\nquit\r\n")
        for each in operators:
            want(len(listed(received_to_the_end(each))), len(clients))


def a_proxy_lists_its_clients(program, proxy_program):
    port = free_port()
    with Server(program) as behind, Proxy(proxy_program, [behind.address], ["--admin", f"{HOST}:{port}", "--timeout", "0"]) as proxy:
        with proxy.connected() as client, proxy.connected() as waiting:
            asked(client, b"set a 0 0 1\r\nx\r\n", b"STORED\r\n")
            is_served(waiting)
            behind.process.send_signal(signal.SIGSTOP)
            try:
                waiting.sendall(b"get a\r\n")
                time.sleep(0.3)
                first, second = listed(Admin(port).told(b"stats conns\r\nquit\r\n")).values()
            finally:
                behind.process.send_signal(signal.SIGCONT)
            want((first["addr"], first["state"], first["bytes_read"], first["bytes_written"]), (address_of(client), "conn_waiting", "16", "8"))
            want((second["addr"], second["state"], second["bytes_read"]), (address_of(waiting), "conn_io_queue", "16"))


# Requests, however they arrive.


def a_byte_at_a_time(program):
    with server(program) as (_, admin):
        for text in (
            b"version\r\nstats items\r\nversion\nquit\r\n",
            b"GET /healthz HTTP/1.1\r\nHost: localhost\r\nX-A: b\r\n\r\n",
            b"GET /healthz HTTP/1.0\n\n",
        ):
            whole = admin.told(text)
            with admin.connected() as connection:
                for place in range(len(text)):
                    connection.sendall(text[place : place + 1])
                    time.sleep(0.001)
                want(received_to_the_end(connection), whole)
            want(len(whole) > 0, True)


def lines_are_answered_in_order(program):
    with server(program) as (_, admin):
        lines = b"version\r\nstats slabs\r\nset a 0 0 1\r\nx\r\nget a\r\nversion\r\n" * 100 + b"quit\r\n"
        answers = VERSION + b"END\r\n" + b"ERROR\r\n" * 3 + VERSION
        want(admin.told(lines), answers * 100)


def the_cache_is_not_reached(program):
    with server(program) as (started, admin):
        want(admin.told(b"set a 0 0 1\r\nx\r\nget a\r\nflush_all\r\nquit\r\n"), b"ERROR\r\n" * 4)
        with started.connected() as client:
            asked(client, b"get a\r\nstats\r\nstats settings\r\n", b"END\r\nERROR\r\nERROR\r\n")
        with started.connected() as client, contextlib.suppress(ConnectionResetError):
            client.sendall(b"GET /metrics HTTP/1.1\r\nHost: localhost\r\n\r\n")
            want(received_to_the_end(client), b"")


# Refusals.


def other_methods_are_refused(program):
    with server(program) as (_, admin):
        for method in ("POST", "PUT", "DELETE", "OPTIONS", "PATCH"):
            status, fields, body = admin.got("/metrics", method, body=b"x" * 10_000)
            want((status, fields["allow"], body), (405, "GET", b"405: only GET is answered\n"))
        status, fields, body = admin.got("/metrics", "HEAD")
        want((status, fields["content-length"], body), (405, "0", b""))
        want(admin.told(b"HEAD /metrics HTTP/1.1\r\nHost: localhost\r\n\r\n").partition(b"\r\n\r\n")[2], b"")


def other_hosts_are_refused(program):
    with server(program, "--admin-name", "Watch.example") as (_, admin):
        for host in (HOST, f"{HOST}:{admin.port}", "localhost", "LOCALHOST:1", "watch.EXAMPLE", "watch.example:9"):
            want((host, admin.got("/metrics", host=host)[0]), (host, 200))
        for host in ("example.org", f"example.org:{admin.port}", "localhost.example", "127.0.0.2", "[::1]", ":80", "watch.example."):
            status, _, body = admin.got("/metrics", host=host)
            want((host, status, b"memcached" in body), (host, 421, False))


def heads_that_are_none_are_refused(program):
    with server(program) as (_, admin):
        for head, status in (
            (b"GET /metrics HTTP/1.1\r\n\r\n", b"400"),
            (b"GET /metrics HTTP/1.1\r\nHost: localhost\r\nHost: localhost\r\n\r\n", b"400"),
            (b"GET /metrics HTTP/1.0\r\n\r\n", b"200"),
            (b"GET /metrics HTTP/1.0\r\nHost: example.org\r\n\r\n", b"421"),
            (b"GET /metrics HTTP/1.2\r\nHost: localhost\r\n\r\n", b"400"),
            (b"GET /met\x01rics HTTP/1.1\r\nHost: localhost\r\n\r\n", b"400"),
            (b"GET /metrics HTTP/1.1\r\nHost localhost\r\n\r\n", b"400"),
            (b"GET /metrics HTTP/1.1\r\nHost: localhost\r\n" + b"A: b\r\n" * 63 + b"\r\n", b"200"),
            (b"GET /metrics HTTP/1.1\r\nHost: localhost\r\n" + b"A: b\r\n" * 64 + b"\r\n", b"400"),
            (b"GET /favicon.ico HTTP/1.1\r\nHost: localhost\r\n\r\n", b"404"),
            (b"GET /metrics/ HTTP/1.1\r\nHost: localhost\r\n\r\n", b"404"),
            (b"GET http://localhost/metrics HTTP/1.1\r\nHost: localhost\r\n\r\n", b"404"),
        ):
            want((head, admin.status(head)), (head, status))


def an_endless_head_is_refused(program):
    with server(program) as (_, admin):
        head = b"GET /metrics HTTP/1.1\r\nHost: localhost\r\nX: "
        fitting = head + b"x" * (REQUEST_LIMIT - len(head) - 4) + b"\r\n\r\n"
        want((len(fitting), admin.status(fitting)), (REQUEST_LIMIT, b"200"))
        with admin.connected() as connection:
            connection.sendall(head + b"x" * (REQUEST_LIMIT - len(head)))
            want(received(connection, 12), b"HTTP/1.1 431")
        with contextlib.suppress(OSError), admin.connected() as connection:
            for _ in range(1000):
                connection.sendall(b"GET / HTTP/1.1\r\n" + b"x" * 100_000)
            raise Wrong("it takes a head without an end")


def an_endless_line_is_refused(program):
    with server(program) as (_, admin):
        want(admin.told(b"x" * (REQUEST_LIMIT - 1) + b"\n" + b"quit\r\n"), b"ERROR\r\n")
        want(admin.told(b"x" * REQUEST_LIMIT), b"CLIENT_ERROR line too long\r\n")


# What other clients notice.


def a_17th_connection_is_closed(program):
    with server(program) as (_, admin), contextlib.ExitStack() as stack:
        held = [stack.enter_context(admin.connected()) for _ in range(MOST)]
        for each in held:
            asked(each, b"version\r\n", VERSION)
        with admin.connected() as further:
            want(further.recv(1), b"")
        held[5].sendall(b"quit\r\n")
        want(held[5].recv(1), b"")
        want(admin.got("/healthz")[0], 200)
        for each in held[:5] + held[6:]:
            asked(each, b"version\r\n", VERSION)


def a_quiet_one_makes_room(program):
    """The one that has been quiet longest makes room for a 17th connection, and no other does."""
    with server(program) as (_, admin), contextlib.ExitStack() as stack:
        held = [stack.enter_context(admin.connected()) for _ in range(MOST)]
        for each in held:
            asked(each, b"version\r\n", VERSION)
        time.sleep(QUIET + 2)
        for each in held[:3] + held[4:]:
            asked(each, b"version\r\n", VERSION)
        want(admin.got("/healthz")[0], 200)
        want(held[3].recv(1), b"")
        for each in held[:3] + held[4:]:
            asked(each, b"version\r\n", VERSION)


def one_that_goes_on_after_its_answer_is_closed(program):
    """After its last answer a connection is read to its end, but not for long."""
    with server(program) as (started, admin), admin.connected() as connection:
        connection.sendall(b"POST /metrics HTTP/1.1\r\nHost: localhost\r\ncontent-length: 9\r\n\r\n")
        want(received_to_the_end(connection).partition(b"\r\n\r\n")[2], b"405: only GET is answered\n")
        before, began = started.descriptors(), time.monotonic()
        while started.descriptors() == before:
            want_at_most(time.monotonic() - began, LINGER + 3)
            time.sleep(0.05)


def one_that_does_not_read_holds_up_nobody(program):
    with server(program) as (started, admin), contextlib.ExitStack() as stack:
        memory = started.memory()
        for _ in range(MOST - 1):
            connection = stack.enter_context(admin.connected())
            connection.setblocking(False)
            with contextlib.suppress(BlockingIOError):
                while True:
                    connection.send(b"stats\r\n" * 1000)
        with started.connected() as client:
            for _ in range(1000):
                is_served(client)
        want(admin.got("/healthz")[0], 200)
        want_at_most(started.memory() - memory, 4_000_000)


def a_flood_costs_little(program, line, clients):
    """Fifteen who ask without end use a small part of the processor."""
    with server(program) as (started, admin), contextlib.ExitStack() as stack:
        for _ in range(clients):
            is_served(stack.enter_context(started.connected()))
        over = threading.Event()

        def flood():
            with contextlib.suppress(OSError), admin.connected() as connection:
                connection.settimeout(0.01)
                while not over.is_set():
                    with contextlib.suppress(TimeoutError):
                        connection.sendall(line * 500)
                    with contextlib.suppress(TimeoutError):
                        while connection.recv(1 << 20):
                            pass

        flooding = [threading.Thread(target=flood) for _ in range(MOST - 1)]
        for each in flooding:
            each.start()
        try:
            time.sleep(0.5)
            before = started.processor_time()
            time.sleep(3)
            want_at_most(started.processor_time() - before, 0.3)
            with started.connected() as client:
                is_served(client)
        finally:
            over.set()
            for each in flooding:
                each.join()


def it_ends_with_its_clients(program):
    port = free_port()
    with Server(program, words=["--admin", f"{HOST}:{port}", "--accept", "1"]) as started:
        with Admin(port).connected() as operator:
            asked(operator, b"version\r\n", VERSION)
            with started.connected() as client:
                is_served(client)
            want(started.process.wait(PATIENCE), 0)


def an_address_that_is_none_is_told(program, *others):
    """With --log the second line has the address and the cause."""
    asked_for = Program(program)
    for admin in ("127.0.0.1", "127.0.0.1:0", "x:y", ""):
        words = ["--listen", f"{HOST}:{free_port()}", "--admin", admin, *others]
        want(asked_for.run(*words), (3, "", f"{asked_for.name}: cannot listen\n"))
        status, output, said = asked_for.run(*words, "--log")
        told = f"{asked_for.name}: cannot listen\n{asked_for.name}: {admin}: not <host>:<port>\n"
        want((status, output, plain_lines(said, "--log")), (3, "", told))


def checks_of(program, proxy_program):
    shown = [
        metrics_are_shown, statistics_are_shown, settings_are_shown, it_says_that_it_serves, memory_is_that_of_the_process, a_page_is_shown,
        numbers_grow, figures_of_items_follow_each_change, who_finds_no_place_is_refused,
    ]  # fmt: skip
    come = [a_byte_at_a_time, lines_are_answered_in_order, the_cache_is_not_reached]
    refused = [
        other_methods_are_refused, other_hosts_are_refused, heads_that_are_none_are_refused, an_endless_head_is_refused,
        an_endless_line_is_refused,
    ]  # fmt: skip
    others = [
        a_17th_connection_is_closed, a_quiet_one_makes_room, one_that_goes_on_after_its_answer_is_closed, one_that_does_not_read_holds_up_nobody,
        it_ends_with_its_clients,
    ]  # fmt: skip
    clients = [
        clients_are_listed, a_client_that_does_not_read_is_seen, many_clients_are_listed_in_parts, those_who_list_wait_for_each_other,
    ]  # fmt: skip
    for check in shown + clients + come + refused + others:
        yield check.__name__, check, (program,)
    yield "a_flood_costs_little", a_flood_costs_little, (program, b"stats\r\n", 0)
    yield "a_flood_of_lists_costs_little", a_flood_costs_little, (program, b"stats conns\r\n", 500)
    yield "an_address_that_is_none_is_told", an_address_that_is_none_is_told, (program,)
    yield "an_address_of_a_proxy_that_is_none_is_told", an_address_that_is_none_is_told, (proxy_program, "127.0.0.1:1")
    yield "the_process_is_shown", the_process_is_shown, (program, proxy_program)
    yield "bytes_that_are_kept_are_shown", bytes_that_are_kept_are_shown, (program, proxy_program)
    yield "a_proxy_shows_each_figure", a_proxy_shows_each_figure, (proxy_program,)
    yield "a_proxy_shows_its_servers", a_proxy_shows_its_servers, (program, proxy_program)
    yield "settings_of_a_proxy_are_shown", settings_of_a_proxy_are_shown, (proxy_program,)
    yield "a_proxy_shows_its_choice", a_proxy_shows_its_choice, (proxy_program,)
    yield "a_proxy_lists_its_clients", a_proxy_lists_its_clients, (program, proxy_program)


if __name__ == "__main__":
    if len(sys.argv) != 3:
        sys.exit(__doc__)
    sys.exit(tally(checks_of(*sys.argv[1:])) if are_built(*sys.argv[1:]) else 1)
