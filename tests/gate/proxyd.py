#!/usr/bin/env python3
"""Tries the built mc_proxyd on sockets, in front of servers: its words, its exit statuses and their texts, and what it does with
clients and servers.

Usage: proxyd.py PROXY SERVER

SERVER is the built mc_serverd. proxyd.help is the text of --help. The script prints a line for each check that fails; the last
line is 'N passed, M failed'. A model of the ring shows which server owns a key (rings.py). In some checks the script itself plays
the servers: so it sees what each is sent, and answers what it likes. All that is started is ended with its check.
"""

import contextlib
import math
import os
import pathlib
import resource
import select
import signal
import socket
import subprocess
import sys
import threading
import time

sys.path.insert(0, str(pathlib.Path(__file__).resolve().parents[1] / "lib"))

from checks import (
    PATIENCE, UNKNOWN_HOSTS, Program, asked, checks_of_words, is_served, received, received_to_the_end, settles, tally, want, want_at_most,
    words_are_refused, wrong_sizes_are_refused,
)  # fmt: skip
from connections import checks_of_connections, fields_of, lines_said, no_client_gets_a_standard_stream
from links import checks_of_links
from lists import checks_of_lists
from live_pool import (
    ANSWER, LOST, QUIET, Played, Pool, all_that_comes, answered_in_time, data_segments, is_asked_and_answers, is_lost_and_refused, is_said,
    nothing_comes, nothing_is_said, stored,
)  # fmt: skip
from rings import Ring, hash_of
from servers import HOST, Proxy, Server, free_port
from suite import are_built

HELP = pathlib.Path(__file__).with_name("proxyd.help").read_text()
LINK_MARK = 8_388_608  # unsent bytes on a link that stop the requests that need it
IDLE, PROCESSOR = 3, 0.1  # seconds without requests, and the most seconds of processor time that a proxy uses in them

DIALOGUES = {
    "expiry": (
        b"set a 0 -1 1\r\nx\r\nget a\r\nset a 0 100 1\r\ny\r\nget a\r\ntouch a -1\r\nget a\r\ntouch a 0\r\n",
        b"STORED\r\nEND\r\nSTORED\r\nVALUE a 0 1\r\ny\r\nEND\r\nTOUCHED\r\nEND\r\nNOT_FOUND\r\n",
    ),
    "several_keys": (
        b"set a 1 0 1\r\nx\r\nset abc 2 0 1\r\ny\r\nset f 3 0 1 noreply\r\nz\r\nget f abc none a abc\r\n",
        b"STORED\r\nSTORED\r\nVALUE f 3 1\r\nz\r\nVALUE abc 2 1\r\ny\r\nVALUE a 1 1\r\nx\r\nVALUE abc 2 1\r\ny\r\nEND\r\n",
    ),
    "what_no_server_is_asked": (
        b"version\r\nmn\r\nget\r\nincr a x\r\nset a 0 0 x\r\nmg a z\r\nstats\r\n",
        b"VERSION 1.6.0\r\nMN\r\nERROR\r\nCLIENT_ERROR invalid numeric delta argument\r\n"
        b"CLIENT_ERROR bad command line format\r\nCLIENT_ERROR invalid flag\r\nERROR\r\n",
    ),
}

# --check: the words beside it, and its output.
OTHERS = [f"10.0.0.{number}:11211" for number in range(64)]
SETTINGS = {
    "two": ("127.0.0.1:11213", "servers 2 points 320"),
    "the_most": (" ".join(OTHERS[1:]), "servers 64 points 10240"),
    "words_in_another_order": ("--accept 3 b:2 --listen=a:1 c:3", "servers 3 points 480"),
    "one_that_joins": ("--join b:1 --join-after 1", "servers 1 points 160"),
    "the_longest_host": ("a-Z.9" * 51 + ":65535", "servers 2 points 320"),
    "losses_that_are_missed": ("--lost missed b:2", "servers 2 points 320 lost missed"),
    "the_most_memory": ("--buffers 1024G --answer 1024G --held 1024G b:2", "servers 2 points 320 buffers 1099511627776 answer 1099511627776"),
    "the_least_held": ("--held 1 b:2", "servers 2 points 320"),
    "the_usual_memory": ("--buffers 256M --answer 256M --held 256M --lost told b:2", "servers 2 points 320"),
    "little_memory": ("--buffers 4M --answer 1K b:2", "servers 2 points 320 buffers 4194304 answer 1024"),
    "names": ("a:1=b:2 --join c:3=b:2 --join-after 1 b:2=127.0.0.1:1", "servers 3 points 480"),
    "an_address_with_its_own_name": ("b:2=b:2", "servers 2 points 320"),
}

USAGE = "\n\nUsage: mc_proxyd [OPTIONS] [server]..."
UNKNOWN = "unexpected argument '--bind' found\n\n  tip: to pass '--bind' as a value, use '-- --bind'\n\nUsage: mc_proxyd <server>..."

# Words that are refused, and why.
REFUSED = {
    "an_unknown_option": (["--bind", "1"], UNKNOWN),
    "an_option_twice": (["--check", "--check"], "the argument '--check' cannot be used multiple times" + USAGE),
    "no_value": (["--listen"], "a value is required for '--listen <host:port>' but none was supplied"),
    "no_milliseconds": (
        ["--timeout", "1s"],
        "invalid value '1s' for '--timeout <milliseconds>': invalid digit found in string",
    ),
    "another_answer": (["--lost", "hidden"], "invalid value 'hidden' for '--lost <answer>'\n  [possible values: told, missed]"),
    "no_number": (["--accept", "x"], "invalid value 'x' for '--accept <n>': invalid digit found in string"),
    "a_number_below_0": (["--join-after=-1"], "invalid value '-1' for '--join-after <n>': invalid digit found in string"),
    "too_large_a_number": (
        ["--accept", "18446744073709551616"],
        "invalid value '18446744073709551616' for '--accept <n>': number too large to fit in target type",
    ),
    "before_the_list_is_looked_at": (["x", "--bind"], UNKNOWN),
}

NO_SERVER, DOUBLED, ONE_TOO_MANY = (
    "is no [<name>:<port>=]<host>:<port>", "has the name of an earlier one", "is one too many: at most 64 servers",
)  # fmt: skip

# Words that are no server, after 127.0.0.1:1.
BAD_WORDS = {
    "an_empty_word": "", "no_port": "a", "no_host": ":1", "port_0": "a:0", "port_65536": "a:65536", "a_leading_zero": "a:01", "a_sign": "a:+1",
    "a_colon_alone": ":", "two_colons": "a:1:2", "a_space": "a:1 ", "another_alphabet": "\u00e4:1", "an_underscore": "a_b:1",
    "a_long_host": "a" * 256 + ":1", "an_address_of_version_6": "[::1]:1", "no_name": "=a:1", "no_address": "a:1=", "two_names": "a:1=b:1=c:1",
    "a_name_without_a_port": "a=b:1", "an_address_without_a_port": "a:1=b",
}  # fmt: skip

# Lists that are no list of servers after 127.0.0.1:1, and why.
BAD_LISTS = {
    "one_twice": (["127.0.0.1:1"], f"server 2 '127.0.0.1:1' {DOUBLED}"),
    "65": (OTHERS, f"server 65 '{OTHERS[-1]}' {ONE_TOO_MANY}"),
    "a_bad_word_before_one_twice": (["b:2", "c", "b:2"], f"server 3 'c' {NO_SERVER}"),
    "the_name_of_another": (["127.0.0.1:1=b:1"], f"server 2 '127.0.0.1:1=b:1' {DOUBLED}"),
    "one_name_twice": (["a:1=b:1", "a:1=c:1"], f"server 3 'a:1=c:1' {DOUBLED}"),
    "nobody_joins": (["--join-after", "1"], "--join-after without --join"),
    "no_address_joins": (["--join-after", "1", "--join", "a"], f"--join 'a' {NO_SERVER}"),
    "one_of_the_list_joins": (["--join-after", "1", "--join", "127.0.0.1:1"], f"--join '127.0.0.1:1' {DOUBLED}"),
    "the_name_of_one_joins": (["--join-after", "1", "--join", "127.0.0.1:1=b:1"], f"--join '127.0.0.1:1=b:1' {DOUBLED}"),
    "no_named_address_joins": (["--join-after", "1", "--join", "a:1=b"], f"--join 'a:1=b' {NO_SERVER}"),
    "another_address_for_a_name_joins": (["--join-after", "1", "--join", "b:1=127.0.0.1:1", "b:1"], f"--join 'b:1=127.0.0.1:1' {DOUBLED}"),
    "a_65th_joins": (["--join-after", "1", "--join", "a:1", *OTHERS[1:]], f"--join 'a:1' {ONE_TOO_MANY}"),
}

# Protocol violations, while `get <key>` is pending.
STRANGE = {
    "a_line_of_no_reply": b"HELLO\r\n",
    "an_error_line": b"ERROR\r\n",
    "a_reply_to_another_command": b"STORED\r\n",
    "the_value_of_another_key": b"VALUE other 0 1\r\nx\r\nEND\r\n",
    "a_value_with_its_number": b"VALUE <key> 0 1 7\r\nx\r\nEND\r\n",
    "too_large_a_value": b"VALUE <key> 0 1048577\r\n",
    "a_block_that_is_too_long": b"VALUE <key> 0 1\r\nxyz\r\nEND\r\n",
    "two_values": b"VALUE <key> 0 1\r\nx\r\nVALUE <key> 0 1\r\nx\r\nEND\r\n",
    "a_line_feed_alone": b"END\n",
    "a_zero_byte": b"\0",
}


def start(words="", limits=(), says=True):
    """A proxy with these words and limits in front of two servers, which has reported where it listens, if it can."""
    with open("/dev/full", "wb") as full:
        return Pool(words.split(), limits, stdout=subprocess.PIPE if says else full)


# Words.


def bad_lists_are_told(words, mistake):
    """With the word that has the mistake."""
    for check in ([], ["--check"]):
        want(PROXY.run(*words, *check), (2, "", f"mc_proxyd: {mistake}\nmc_proxyd: bad server list\n"))


def no_server_is_refused():
    why = "the following required arguments were not provided:\n  <server>...\n\nUsage: mc_proxyd --check <server>..."
    words_are_refused(Program(PROXY.path), ["--check"], why)


def sizes_are_within_their_limits():
    wrong_sizes_are_refused(PROXY, "held", 1)
    wrong_sizes_are_refused(PROXY, "buffers", 4_194_304)
    wrong_sizes_are_refused(PROXY, "answer", 1024)
    want(PROXY.run("--check", "--held=256m"), (0, "servers 1 points 160\n", ""))


def names_of_operators_are_hosts():
    told = "mc_proxyd: invalid value for '--admin-name <host>': not 1 to 255 letters, digits, dots and hyphens\n"
    for word in ("a b", "a:1", "http://a", "a" * 256):
        want((word, PROXY.run("--check", "--admin-name", word)), (word, (2, "", told)))


def descriptors_of_all_others_are_kept():
    """Beside the link of one server: those of operators, and that of a server that joins."""
    admin = f"{HOST}:{free_port()}"
    with Server(SERVER) as server:
        for words, own in (([], 6), (["--admin", admin], 6 + 17), (["--join", f"{HOST}:1", "--join-after", "9"], 7)):
            limits = [(resource.RLIMIT_NOFILE, own + 3)]
            with Proxy(PROXY.path, [server.address], words, limits, stderr=subprocess.PIPE) as proxy, proxy.connected() as client:
                is_served(client)
                is_said(proxy, f"{own + 3} open files: 3 connections can be served at a time")


# Keys and their servers.


def hashes_of_the_model():
    """Those of docs/PROTOCOL.md."""
    want((hash_of(b"a"), hash_of(b"abc")), (0xB975C10C, 0x98500190))


def each_key_is_at_its_owner():
    with Pool(count=3) as pool, pool.connected() as client:
        for place in range(3):
            for key in pool.ring.keys(place, 5):
                put, told, _, shown = stored(key)
                asked(client, put, told)
                others = [b"END\r\n"] * 3
                others[place] = shown
                want([pool.holds(each, key) for each in range(3)], others)


def a_get_of_many_keys_is_in_their_order():
    with Pool() as pool, pool.connected() as client:
        keys = [key for pair in zip(*(pool.ring.keys(place, 300) for place in (0, 1))) for key in pair]
        held = keys[:500]
        for key in held:
            client.sendall(stored(key, b"of " + key)[0])
        want(received(client, 8 * len(held)), b"STORED\r\n" * len(held))
        asks = keys[::-1] + keys[:10]
        shown = b"".join(stored(key, b"of " + key)[3][:-5] for key in asks if key in held)
        asked(client, b"get " + b" ".join(asks) + b"\r\n", shown + b"END\r\n")


def a_flush_reaches_each_server():
    with Pool() as pool, pool.connected() as client:
        keys = [pool.ring.key(place) for place in (0, 1)]
        for flush, answer in ((b"flush_all\r\n", b"OK\r\n"), (b"flush_all noreply\r\n", b"")):
            for key in keys:
                asked(client, *stored(key)[:2])
            client.sendall(flush)
            asked(client, b"mn\r\n", answer + b"MN\r\n")
            want([pool.holds(place, key) for place, key in enumerate(keys)], [b"END\r\n"] * 2)


# Servers that are gone and back.


def a_server_that_is_gone_is_told_and_used_again():
    """Its keys are answered that the link is lost, the others as before; clients stay connected, also one that only waits."""
    with Pool() as pool, pool.connected() as client, pool.connected() as idle:
        keys = [pool.ring.key(place) for place in (0, 1)]
        mine, other = (stored(key) for key in keys)
        asked(client, mine[0] + other[0], mine[1] + other[1])
        pool.servers[0].stop()
        asked(client, mine[0] + mine[2], LOST + LOST)
        asked(client, other[2], other[3])
        asked(client, b"get %s %s\r\n" % (keys[1], keys[0]), LOST)
        asked(client, b"mg %s q\r\nset %s 0 0 1 noreply\r\nx\r\n" % (keys[0], keys[0]), LOST + LOST)
        asked(client, b"flush_all\r\n", LOST)
        asked(client, other[2], b"END\r\n")
        is_served(idle)
        pool.restart(0)
        answered_in_time(client, mine[2], b"END\r\n")
        asked(idle, mine[0] + mine[2], mine[1] + mine[3])
        want(pool.holds(0, keys[0]), mine[3])


def commands_that_wait_are_told():
    """A server is stopped with pending commands, and killed. Answers stay in the order of the requests."""
    with Pool() as pool, pool.connected() as client, pool.connected() as other:
        mine, others = (pool.ring.key(place) for place in (0, 1))
        is_served(client)
        pool.servers[0].process.send_signal(signal.SIGSTOP)
        client.sendall(b"incr %s 1\r\nget %s\r\nget %s\r\n" % (mine, others, mine))
        asked(other, b"get %s\r\n" % others, b"END\r\n")
        nothing_comes(client)
        pool.servers[0].stop()
        want(received(client, 2 * len(LOST) + 5), LOST + b"END\r\n" + LOST)


def a_proxy_starts_before_its_servers():
    """Once they run they are used, though nobody has asked in the meantime."""
    with Pool() as pool:
        addresses = [server.address for server in pool.servers]
        pool.servers[1].stop()
        with Proxy(PROXY.path, addresses, stderr=subprocess.PIPE) as proxy, proxy.connected() as client:
            gets = [b"get %s\r\n" % pool.ring.key(place) for place in (0, 1)]
            asked(client, gets[0] + gets[1], b"END\r\n" + LOST)
            is_said(proxy, f"{addresses[1]} refused: connection refused")
            pool.restart(1)
            answered_in_time(client, gets[1], b"END\r\n")
            is_said(proxy, f"{addresses[1]} back")
            asked(client, gets[0] + gets[1], b"END\r\n" * 2)


def idle_costs_little(proxy):
    """A proxy without requests uses little of the processor."""
    before = sum(proxy.user_and_system())
    time.sleep(IDLE)
    want_at_most(sum(proxy.user_and_system()) - before, PROCESSOR)


def idle_before_a_server_that_refuses():
    gone = f"{HOST}:{free_port()}"
    with Server(SERVER) as server, Proxy(PROXY.path, [gone, server.address], stderr=subprocess.PIPE) as proxy:
        is_said(proxy, f"{gone} refused: connection refused")
        idle_costs_little(proxy)
        nothing_is_said(proxy)


def idle_before_an_unknown_server():
    unknown = UNKNOWN_HOSTS[1]
    with Server(SERVER) as server, Proxy(PROXY.path, [unknown, server.address], stderr=subprocess.PIPE) as proxy:
        is_said(proxy, f"{unknown} refused: unknown host")
        idle_costs_little(proxy)
        nothing_is_said(proxy)


def idle_before_a_server_that_was_killed():
    """Also with clients: one that has ended its input while it waits for another server, and one that does nothing."""
    with Pool(["--timeout", "0"]) as pool, pool.connected() as client, pool.connected() as half:
        keys = [pool.ring.key(place) for place in (0, 1)]
        for key in keys:
            asked(client, *stored(key)[:2])
        pool.servers[1].process.send_signal(signal.SIGSTOP)
        half.sendall(b"get %s\r\n" % keys[1])
        half.shutdown(socket.SHUT_WR)
        pool.servers[0].stop()
        asked(client, b"get %s\r\n" % keys[0], LOST)
        gone = pool.servers[0].address
        is_lost_and_refused(pool, gone)
        idle_costs_little(pool)
        nothing_is_said(pool)
        pool.restart(0)
        answered_in_time(client, b"get %s\r\n" % keys[0], b"END\r\n")
        is_said(pool, f"{gone} back")
        pool.servers[1].process.send_signal(signal.SIGCONT)
        want(received_to_the_end(half), stored(keys[1])[3])


def a_strange_reply_is_said():
    with Played() as pool, pool.connected() as client:
        address = pool.servers[0].address
        is_asked_and_answers(pool.links[0], client, b"a")
        pool.links[0].sendall(b"END\r\n")
        is_said(pool, f"{address} lost: strange reply")
        with pool.servers[0].accept(b"") as link:
            nothing_is_said(pool)  # It is connected, and has not answered yet.
            asked(client, b"get a\r\n", LOST)
            link.sendall(ANSWER)
            is_said(pool, f"{address} back")
            is_asked_and_answers(link, client, b"a")


def a_server_that_takes_no_connection_is_said():
    """Its system answers nobody, as all places before it are taken."""
    with contextlib.ExitStack() as stack:
        busy = stack.enter_context(socket.create_server((HOST, free_port()), backlog=0))
        for _ in range(4):
            other = stack.enter_context(socket.socket())
            other.setblocking(False)
            other.connect_ex(busy.getsockname())
        address = f"{HOST}:{busy.getsockname()[1]}"
        proxy = stack.enter_context(Proxy(PROXY.path, [address], stderr=subprocess.PIPE))
        is_said(proxy, f"{address} refused: timed out")
        nothing_is_said(proxy)


def allow_memory(proxy, most):
    resource.prlimit(proxy.process.pid, resource.RLIMIT_AS, (most, resource.RLIM_INFINITY))


def a_reply_without_memory_is_said():
    """The link is lost by it, and comes up again."""
    with Played() as pool, pool.connected() as client:
        address = pool.servers[0].address
        _, _, get, shown = stored(b"a", b"v" * 1_000_000)
        client.sendall(get)
        want(received(pool.links[0], len(get)), get)
        allow_memory(pool, pool.memory("VmSize"))
        was_reset = False  # A read does not report again what was reported once, as an error of a write.
        try:
            pool.links[0].sendall(shown)
        except (ConnectionResetError, BrokenPipeError):
            was_reset = True
        want(received(client, len(LOST)), LOST)
        is_said(pool, f"{address} lost: out of memory")
        allow_memory(pool, resource.RLIM_INFINITY)
        pool.lost(0, client, was_reset)
        is_asked_and_answers(pool.links[0], client, b"a")
        is_said(pool, f"{address} back")


def a_join_that_is_refused_is_said_and_tried_again():
    """With the next client: until then the ring is as it was. Once it has joined no later client changes anything."""
    with contextlib.ExitStack() as stack:
        servers = [stack.enter_context(Played.Server()) for _ in range(61)]
        addresses, joins = [server.address for server in servers[:60]], "late:1"
        words = ["--join", f"{joins}={servers[60].address}", "--join-after", "2"]
        proxy = stack.enter_context(Proxy(PROXY.path, addresses, words, stderr=subprocess.PIPE))
        first = stack.enter_context(proxy.connected())
        for server in servers[:60]:
            stack.enter_context(server.accept())
        is_served(first)
        allow_memory(proxy, proxy.memory("VmSize"))
        second = stack.enter_context(proxy.connected())
        is_said(proxy, f"{joins} not joined: out of memory")
        allow_memory(proxy, resource.RLIM_INFINITY)
        is_served(second)
        third = stack.enter_context(proxy.connected())
        link = stack.enter_context(servers[60].accept())
        is_served(third)
        is_said(proxy, f"{joins} joined")
        for _ in range(2):
            is_served(stack.enter_context(proxy.connected()))
        is_asked_and_answers(link, first, Ring([*addresses, joins]).key(60))
        time.sleep(1.1)  # At most one line in a second is written of it.
        nothing_is_said(proxy)


def at_most_one_line_is_said_in_a_second():
    """Of a server that answers each time that it is connected, and loses its link by its next bytes."""
    with Played() as pool, pool.connected() as client:
        address, begun = pool.servers[0].address, time.monotonic()
        while time.monotonic() < begun + 4:
            is_asked_and_answers(pool.links[0], client, b"a")
            pool.links[0].sendall(b"?\r\n")
            pool.lost(0, client)
        pool.proxy.process.kill()
        most = math.ceil(time.monotonic() - begun) + 1
        said = pool.proxy.process.stderr.read().decode().splitlines()
        lost, back = (f"mc_proxyd: {address} {what}" for what in ("lost: strange reply", "back"))
        want(said, ([lost, back] * most)[: len(said)])
        want((len(said), 2 <= len(said) <= most), (len(said), True))


def nothing_is_said_where_it_cannot_be():
    """Standard error is full, or closed: clients are still served."""
    read, write = os.pipe()
    os.close(read)
    with open("/dev/full", "wb") as full, open(write, "wb") as closed:
        for errors in (full, closed):
            with Proxy(PROXY.path, [f"{HOST}:{free_port()}"], stderr=errors) as proxy, proxy.connected() as client:
                asked(client, b"get a\r\n", LOST)
                time.sleep(2)
                is_served(client)


def losses_leave_nothing_behind():
    """No socket of servers that are gone and back stays open."""
    with Pool(count=6) as pool, pool.connected() as client:
        gets = [b"get %s\r\n" % pool.ring.key(place) for place in range(6)]
        is_served(client)
        before = pool.descriptors()
        for place, get in enumerate(gets):
            pool.servers[place].stop()
            asked(client, get, LOST)
        for place in range(6):
            pool.restart(place)
        for get in gets:
            answered_in_time(client, get, b"END\r\n")
        want(settles(pool.descriptors), before)


# A server that joins.


def a_server_joins():
    """With the second client: from then on its keys are its own, for all clients, and all others stay where they were."""
    with Server(SERVER) as third, Pool(["--join", third.address, "--join-after", "2"]) as pool:
        wider = Ring([server.address for server in (*pool.servers, third)])
        moved = [key for key in pool.ring.keys(0, 60) if wider.owner(key) == 2]
        stays = [key for place in (0, 1) for key in pool.ring.keys(place, 60) if wider.owner(key) == place]
        want(len(moved) > 0, True)
        with pool.connected() as first:
            for key in moved + stays:
                asked(first, *stored(key, b"old")[:2])
            with pool.connected() as second:
                for key in stays:
                    asked(second, *stored(key, b"old")[2:])
                for key in moved:
                    asked(second, b"get %s\r\n" % key, b"END\r\n")
                    asked(second, *stored(key, b"new")[:2])
            for key in moved:
                asked(first, *stored(key, b"new")[2:])
        with third.connected() as direct:
            for key in moved:
                asked(direct, *stored(key, b"new")[2:])


def a_server_joins_that_is_not_there():
    port = free_port()
    address = f"{HOST}:{port}"
    with Pool(["--join", address, "--join-after", "1"]) as pool, pool.connected() as client:
        wider = Ring([*(server.address for server in pool.servers), address])
        asked(client, *stored(wider.key(0))[:2])
        asked(client, b"get %s\r\n" % wider.key(2), LOST)
        with Server(SERVER, port=port):
            answered_in_time(client, b"get %s\r\n" % wider.key(2), b"END\r\n")


# Servers that the check plays.


def a_server_is_sent_one_spelling():
    with Played() as pool, pool.connected() as client:
        [link] = pool.links
        for sent, passed, reply, answer in (
            (b"get  a  b\r\n", b"get a\r\nget b\r\n", b"END\r\nVALUE b 0 1\r\nx\r\nEND\r\n", b"VALUE b 0 1\r\nx\r\nEND\r\n"),
            (b"set a 007 -1 1 noreply\nx\r\n", b"set a 7 -1 1\r\nx\r\n", b"STORED\r\n", b""),
            (b"mg abc v k q O1\r\n", b"mg YWJj b v\r\n", b"VA 1\r\nx\r\n", b"VA 1 kabc O1\r\nx\r\n"),
            (b"ma YWJj q N30 b t k\r\n", b"ma YWJj b t N30 J0 D1 MI\r\n", b"HD t30\r\n", b""),
            (b"flush_all\r\n", b"flush_all 0\r\n", b"OK\r\n", b"OK\r\n"),
            (b"incr a 01\r\n", b"incr a 1\r\n", b"NOT_FOUND\r\n", b"NOT_FOUND\r\n"),
        ):
            client.sendall(sent)
            want(received(link, len(passed)), passed)
            link.sendall(reply)
            asked(client, b"mn\r\n", answer + b"MN\r\n")


def answers_are_in_the_order_of_the_requests():
    with Played(2) as pool, pool.connected() as client, pool.connected() as other:
        keys = [pool.ring.key(place) for place in (0, 1)]
        asks = [b"get %s\r\n" % key for key in keys]
        client.sendall(asks[0] + b"version\r\n" + asks[1])
        other.sendall(asks[1])
        want(received(pool.links[0], len(asks[0])), asks[0])
        want(received(pool.links[1], 2 * len(asks[1])), asks[1] * 2)
        pool.links[1].sendall(b"END\r\n" * 2)
        want(received(other, 5), b"END\r\n")
        nothing_comes(client)
        for byte in stored(keys[0])[3]:
            pool.links[0].sendall(bytes([byte]))
        shown = stored(keys[0])[3] + b"VERSION 1.6.0\r\nEND\r\n"
        want(received(client, len(shown)), shown)


def what_comes_together_goes_on_together():
    """Commands that arrive in one piece are sent in one, and so are the answers to replies that arrive in one."""
    with Played() as pool, pool.connected() as client:
        [link] = pool.links
        is_served(client)
        before = data_segments(link), data_segments(client)
        text = b"get a\r\n" * 32
        client.sendall(text)
        want(received(link, len(text)), text)
        replies = stored(b"a")[3] * 32
        link.sendall(replies)
        want(received(client, len(replies)), replies)
        want((data_segments(link) - before[0], data_segments(client) - before[1]), (1, 1))


def a_reply_to_one_who_is_gone_is_nobodys():
    with Played() as pool:
        [link] = pool.links
        with pool.connected() as gone, pool.connected() as client:
            gone.sendall(b"get a\r\n")
            want(received(link, 7), b"get a\r\n")
            client.sendall(b"get b\r\nget c\r\n")
            want(received(link, 14), b"get b\r\nget c\r\n")
            gone.close()
            time.sleep(QUIET)
            with pool.connected() as later:
                later.sendall(b"get a\r\n")
                want(received(link, 7), b"get a\r\n")
                link.sendall(stored(b"a", b"1")[3] + stored(b"b", b"2")[3] + b"END\r\n" + stored(b"a", b"4")[3])
                shown = stored(b"b", b"2")[3] + b"END\r\n"
                want(received(client, len(shown)), shown)
                want(received(later, len(shown) - 5), stored(b"a", b"4")[3])
                nothing_comes(client)
                nothing_comes(later)


def quit_waits_for_answers():
    with Played() as pool, pool.connected() as client:
        [link] = pool.links
        client.sendall(b"get a\r\nquit\r\n")
        want(received(link, 7), b"get a\r\n")
        nothing_comes(client)
        link.sendall(stored(b"a")[3])
        want(received_to_the_end(client), stored(b"a")[3])


def strange_bytes_lose_the_link():
    """Both pending commands are answered so, and not a byte of theirs is sent; other links stay, and the next one is used."""
    with Played(len(STRANGE)) as pool, pool.connected() as client:
        keys = [pool.ring.key(place) for place in range(len(STRANGE))]
        for place, (name, strange) in enumerate(STRANGE.items()):
            asks = b"get %s\r\nincr %s 1\r\n" % (keys[place], keys[place])
            client.sendall(asks)
            want(received(pool.links[place], len(asks)), asks)
            pool.links[place].sendall(strange.replace(b"<key>", keys[place]))
            want((name, received(client, 2 * len(LOST))), (name, LOST * 2))
        for place, key in enumerate(keys):
            pool.lost(place, client)
            is_asked_and_answers(pool.links[place], client, key)


def bytes_that_nobody_awaits_lose_the_link():
    with Played(2) as pool, pool.connected() as client:
        is_asked_and_answers(pool.links[0], client, pool.ring.key(0))
        pool.links[0].sendall(b"END\r\n")
        is_asked_and_answers(pool.links[1], client, pool.ring.key(1))
        pool.lost(0, client)
        is_asked_and_answers(pool.links[0], client, pool.ring.key(0))


def half_a_reply_is_no_reply():
    """A server closes in mid-reply, after a whole one: this one counts."""
    with Played() as pool, pool.connected() as client:
        client.sendall(b"get a\r\nget b\r\nget c\r\n")
        want(received(pool.links[0], 21), b"get a\r\nget b\r\nget c\r\n")
        pool.links[0].sendall(stored(b"a")[3] + b"VALUE b 0 10\r\n01234")
        pool.links[0].close()
        shown = stored(b"a")[3] + LOST + LOST
        want(received(client, len(shown)), shown)


# Clients that are slow.


def a_slow_reader_is_waited_for():
    """A client that sends gets of a large value and reads nothing delays nobody, and gets its whole answers once it reads. This
    holds also if the proxy waits while it reads, so that all unsent bytes go out by one write, and more is known."""
    with Pool() as pool, pool.connected() as other, pool.connected() as slow:
        put, told, get, shown = stored(pool.ring.key(0), b"v" * 1_000_000)
        asked(other, put, told)
        slow.sendall(get * 40)
        for _ in range(5):
            asked(other, get, shown)
        settles(pool.memory)
        asked(other, get, shown)
        came = b""
        for _ in range(3):
            pool.process.send_signal(signal.SIGSTOP)
            came += all_that_comes(slow)
            pool.process.send_signal(signal.SIGCONT)
            time.sleep(QUIET / 2)
        came += received(slow, 40 * len(shown) - len(came))
        want(came == shown * 40, True)


def one_who_asks_too_much_waits():
    """At most 1,024 requests of a client wait for their answers; the others are served."""
    with Played() as pool, pool.connected() as greedy, pool.connected() as client:
        [link] = pool.links
        greedy.sendall(b"get a\r\n" * 3_000)
        want(received(link, 7 * 1_024), b"get a\r\n" * 1_024)
        client.sendall(b"get b\r\n")
        want(received(link, 7), b"get b\r\n")
        nothing_comes(link)
        link.sendall(b"END\r\n" * 1_025)
        want(received(client, 5), b"END\r\n")
        for left in (1_024, 952):
            want(received(link, 7 * left), b"get a\r\n" * left)
            nothing_comes(link)
            link.sendall(b"END\r\n" * left)
        want(received(greedy, 5 * 3_000), b"END\r\n" * 3_000)


def a_server_that_reads_nothing_is_waited_for():
    """Bytes for it are kept up to the mark of a link, and no more; others are served, and all continues once it reads."""
    with Played(2) as pool, pool.connected() as client, pool.connected() as late, pool.connected() as other:
        key, others = (pool.ring.key(place) for place in (0, 1))
        put, told, get, _ = stored(key, b"v" * 1_000_000)
        before = settles(pool.memory)
        sender = threading.Thread(target=client.sendall, args=(put * 40,))
        sender.start()
        grown = settles(pool.memory) - before
        late.sendall(get)
        is_asked_and_answers(pool.links[1], other, others)
        want_at_most(grown, 2 * LINK_MARK + 4 * len(put))
        for _ in range(41):
            begins = received(pool.links[0], len(get))
            is_whole = begins == get or begins + received(pool.links[0], len(put) - len(get)) == put
            want((begins[:4], is_whole), (begins[:4], True))
            pool.links[0].sendall(b"END\r\n" if begins == get else told)
        want((received(client, 40 * len(told)), received(late, 5)), (told * 40, b"END\r\n"))
        sender.join()


def who_waits_for_a_slow_server_costs_little():
    """A client's request has 30,000 keys, of which the last belongs to a server that reads nothing. While it waits, each further byte of the client
    is an event, for which no key is hashed. Once that link is lost, the request goes on, and so does one whose client has ended its input meanwhile."""
    with Played(2) as pool, pool.connected() as greedy, pool.connected() as client, pool.connected() as half:
        mine, others = ([bytes([byte]) for byte in range(97, 123) if pool.ring.owner(bytes([byte])) == place][0] for place in (0, 1))
        put = stored(mine, b"v" * 1_000_000)[0]
        greedy.settimeout(1)
        with contextlib.suppress(TimeoutError):
            while True:
                greedy.sendall(put)
        client.sendall(b"get " + (others + b" ") * 30_000 + mine + b"\r\n")
        half.sendall(b"get %s\r\nversion\r\n" % mine)
        nothing_comes(client)
        half.shutdown(socket.SHUT_WR)
        before = pool.processor_time()
        for _ in range(500):
            client.sendall(b"m")
            time.sleep(0.002)
        want_at_most(pool.processor_time() - before, 0.5)
        nothing_comes(pool.links[1])
        pool.links[0].close()
        get = b"get %s\r\n" % others
        want(received(pool.links[1], 100 * len(get)), get * 100)
        want(received_to_the_end(half), LOST + b"VERSION 1.6.0\r\n")


def each_who_waits_for_a_slow_server_is_served():
    """40 clients store a megabyte each, again and again, each waiting for its answer, at a server that reads one store at a time. Its link
    has room for some of them alone, but all have their turns."""
    with Played() as pool, contextlib.ExitStack() as stack:
        [link] = pool.links
        clients = [stack.enter_context(pool.connected()) for _ in range(40)]
        puts = [stored(b"k%02d" % number, b"v" * 1_000_000)[:2] for number in range(40)]
        for client, (put, _) in zip(clients, puts):
            client.sendall(put)
        served = set()
        for _ in range(120):
            came = received(link, len(puts[0][0]))
            number = int(came[5:7])
            put, told = puts[number]
            want(came == put, True)
            served.add(number)
            link.sendall(told)
            want(received(clients[number], len(told)), told)
            clients[number].sendall(put)
        want(sorted(served), list(range(40)))


def who_ends_its_input_is_answered():
    """Also commands that are pending for a server then, which it is sent."""
    with Played() as pool, pool.connected() as client:
        client.sendall(b"get a\r\nincr b 1\r\nget")
        client.shutdown(socket.SHUT_WR)
        want(received(pool.links[0], 17), b"get a\r\nincr b 1\r\n")
        nothing_comes(client)
        pool.links[0].sendall(b"END\r\n5\r\n")
        want(received_to_the_end(client), b"END\r\n5\r\n")


def who_is_kept_too_much_for_waits():
    """Until its answers are sent, no request of it is taken; it is answered in order, and whole. Others are served."""
    with Played(2, ["--held", "1000000", "--timeout", "0"]) as pool, pool.connected() as client, pool.connected() as other:
        mine, others = (pool.ring.key(place) for place in (0, 1))
        _, _, get, shown = stored(mine, b"v" * 1_000_000)
        client.sendall(b"get %s\r\n" % others + get)
        want(received(pool.links[1], len(others) + 6), b"get %s\r\n" % others)
        want(received(pool.links[0], len(get)), get)
        pool.links[0].sendall(shown)
        settles(pool.memory)
        client.sendall(get * 2)
        nothing_comes(pool.links[0])
        other.sendall(get)
        want(received(pool.links[0], len(get)), get)
        pool.links[0].sendall(b"END\r\n")
        want(received(other, 5), b"END\r\n")
        nothing_comes(pool.links[0])
        pool.links[1].sendall(b"END\r\n")
        want(received(client, 5 + len(shown)) == b"END\r\n" + shown, True)
        want(received(pool.links[0], 2 * len(get)), get * 2)
        pool.links[0].sendall(b"END\r\n" * 2)
        want(received(client, 10), b"END\r\n" * 2)


def who_asks_for_much_and_reads_nothing_is_closed():
    """Its replies are all that is kept. Another client is answered meanwhile, and afterwards, and memory is given back."""
    with Pool(["--buffers", "8M", "--timeout", "0"]) as pool, pool.connected() as other, pool.connected() as greedy:
        put, told, get, shown = stored(pool.ring.key(0), b"v" * 100_000)
        own = stored(pool.ring.key(1), b"w")
        asked(other, put, told)
        asked(other, own[0], own[1])
        greedy.sendall(get * 1_000)
        closed = False
        while not closed:
            asked(other, own[2], own[3])
            closed = pool.process.stderr in select.select([pool.process.stderr], [], [], 0)[0]
        [line] = lines_said(pool)
        want(line.split(" closed: it kept ")[1].split(" bytes ")[1], "while the memory for clients was used up")
        asked(other, get, shown)
        with contextlib.suppress(ConnectionError):
            received_to_the_end(greedy)


def who_reads_all_that_it_asks_for_is_kept():
    """Ten clients each have eight gets of 100 KB pending all the time, and read their answers: 100 MB pass through a proxy that keeps 16 MB at most."""
    with Pool(["--buffers", "16M", "--held", "2M", "--timeout", "0"]) as pool, contextlib.ExitStack() as stack:
        put, told, get, shown = stored(b"a", b"v" * 100_000)
        clients = [stack.enter_context(pool.connected()) for _ in range(10)]
        asked(clients[0], put, told)
        whole = []

        def read_all(client):
            client.sendall(get * 8)
            for left in range(100, 0, -1):
                if received(client, len(shown)) != shown:
                    return
                if left > 8:
                    client.sendall(get)
            whole.append(client)

        readers = [threading.Thread(target=read_all, args=(client,)) for client in clients]
        for reader in readers:
            reader.start()
        for reader in readers:
            reader.join()
        want(len(whole), 10)
        nothing_is_said(pool)


def an_answer_that_is_too_large_is_refused():
    """By --answer, or by half of --buffers: it closes the client, after the answers before it. A line says so."""
    for words, most in ((["--answer", "1M"], 1_048_576), (["--buffers", "4M"], 2_097_152)):
        with Pool([*words, "--timeout", "0"]) as pool, pool.connected() as client, pool.connected() as other:
            put, told, get, shown = stored(b"a", b"v" * (most // 3))
            asked(client, put, told)
            asked(client, get, shown)
            client.sendall(get + b"get" + b" a" * 4 + b"\r\n" + get)
            want(received_to_the_end(client) == shown, True)
            is_said(pool, f"request refused: its answer may have more than {most} bytes")
            asked(other, b"get a a\r\n", shown[:-5] * 2 + b"END\r\n")


def is_sent(client, link, text):
    """Sends a request until it arrives at the server: it is lost as long as the proxy has not read the server's first answer."""
    while True:
        client.sendall(text)
        if link in select.select([link, client], [], [], PATIENCE)[0]:
            break
        want(received(client, len(LOST)), LOST)
    want(received(link, len(text)), text)


def a_server_that_answers_no_command_is_tried_less():
    """It answers that it is there, and then nothing, though it has answered a command before: it is tried again later each time, so that its keys seldom
    wait for a timeout. Once it has answered a command, it is tried again at once."""
    with Played(1, ["--timeout", "200"]) as pool, pool.connected() as client:
        waited = []
        is_asked_and_answers(pool.links[0], client, b"a")
        pool.links[0].close()
        link = pool.stack.enter_context(pool.servers[0].accept())
        for _ in range(5):
            is_sent(client, link, b"get a\r\n")
            want(received(client, len(LOST)), LOST)
            begun = time.monotonic()
            link = pool.stack.enter_context(pool.servers[0].accept())
            waited.append(time.monotonic() - begun)
        want(([seconds < 1.2 for seconds in waited[:3]], 1.5 < waited[4] < 3.5), ([True] * 3, True))
        is_sent(client, link, b"get a\r\n")
        link.sendall(b"END\r\n")
        want(received(client, 5), b"END\r\n")
        time.sleep(1)
        link.close()
        begun = time.monotonic()
        pool.stack.enter_context(pool.servers[0].accept())
        want_at_most(time.monotonic() - begun, 0.2)


def a_late_reply_loses_the_link():
    """Once it is late by the oldest pending command, and no sooner: pending commands are answered, and bytes that arrive later
    reach nobody."""
    with Played(2, ["--timeout", "400"]) as pool, pool.connected() as client, pool.connected() as other:
        (mine, others), late = (pool.ring.key(place) for place in (0, 1)), pool.links[0]
        begun = time.monotonic()
        client.sendall(b"get %s\r\n" % mine)
        want(received(late, len(mine) + 6), b"get %s\r\n" % mine)
        time.sleep(0.2)
        client.sendall(b"incr %s 1\r\n" % mine)
        is_asked_and_answers(pool.links[1], other, others)
        want(received(client, 2 * len(LOST)), LOST * 2)
        want(0.39 < time.monotonic() - begun < 2, True)
        is_said(pool, f"{pool.servers[0].address} lost: no reply in time")
        pool.links[0] = pool.stack.enter_context(pool.servers[0].accept())
        with contextlib.suppress(ConnectionError):
            late.sendall(stored(mine)[3])
        late.close()
        time.sleep(QUIET)
        is_asked_and_answers(pool.links[0], client, mine)
        is_asked_and_answers(pool.links[1], other, others)
        time.sleep(0.5)
        is_asked_and_answers(pool.links[0], client, mine)


def a_slow_server_that_answers_is_kept():
    """Each of its replies arrives in time, though one is always pending."""
    with Played(1, ["--timeout", "1500"]) as pool, pool.connected() as client:
        [link] = pool.links
        client.sendall(b"get a\r\n")
        for _ in range(4):
            time.sleep(0.7)
            client.sendall(b"get a\r\n")
            want(received(link, 7), b"get a\r\n")
            link.sendall(b"END\r\n")
            want(received(client, 5), b"END\r\n")
        want(received(link, 7), b"get a\r\n")
        link.sendall(b"END\r\n")
        want(received(client, 5), b"END\r\n")


def a_report_is_said():
    """Each second: what was done for clients, and what happened to each server."""
    with Played(2, ["--report", "1", "--timeout", "0"]) as pool, pool.connected() as client:
        keys = [pool.ring.key(place) for place in (0, 1)]
        gets = [b"get %s\r\n" % key for key in keys]
        client.sendall(gets[0] * 3 + gets[1] * 2 + b"version\r\n")
        want(received(pool.links[0], 3 * len(gets[0])), gets[0] * 3)
        want(received(pool.links[1], 2 * len(gets[1])), gets[1] * 2)
        pool.links[0].sendall(b"END\r\n" * 2)
        pool.links[1].sendall(b"?\r\n")
        want(received(client, 10), b"END\r\n" * 2)
        fields = {}
        while fields.get("read") != str(3 * len(gets[0]) + 2 * len(gets[1]) + 9):
            fields = fields_of(next_report(pool), "mc_proxyd")
        servers = [fields_of(line, "mc_proxyd") for line in lines_said(pool, 2)]
        want(int(fields.pop("uptime")) >= 1, True)
        want(0 <= int(fields.pop("buffered")) <= 65_536, True)
        wanted = dict(connections=1, accepted=1, refused=0, requests=6, read=int(fields["read"]), written=10)
        want(fields, {key: str(number) for key, number in wanted.items()})
        first, second = (server.address for server in pool.servers)
        want(servers[0], dict(server=first, state="up", losses="0", sent="3", lost="0", waiting="1"))
        want({key: servers[1][key] for key in ("server", "losses", "sent", "lost")}, dict(server=second, losses="1", sent="2", lost="2"))


def next_report(pool):
    """The next line on standard error that is about clients."""
    while True:
        [line] = lines_said(pool)
        if " uptime=" in line:
            return line


def checks():
    """Each check by its name."""
    yield from checks_of_words(PROXY, SETTINGS, REFUSED, HELP)
    for name, word in BAD_WORDS.items():
        yield f"bad server list, {name}", bad_lists_are_told, ([word], f"server 2 '{word}' {NO_SERVER}")
    for name, (words, mistake) in BAD_LISTS.items():
        yield f"bad server list, {name}", bad_lists_are_told, (words, mistake)
    yield from checks_of_connections(start, "mc_proxyd", 7, DIALOGUES, "16 open files allow 9")
    yield no_client_gets_a_standard_stream.__name__, no_client_gets_a_standard_stream, (PROXY,)
    for check in (
        no_server_is_refused,
        names_of_operators_are_hosts,
        descriptors_of_all_others_are_kept,
        sizes_are_within_their_limits,
        hashes_of_the_model,
        each_key_is_at_its_owner,
        a_get_of_many_keys_is_in_their_order,
        a_flush_reaches_each_server,
        a_server_that_is_gone_is_told_and_used_again,
        commands_that_wait_are_told,
        a_proxy_starts_before_its_servers,
        idle_before_a_server_that_refuses,
        idle_before_an_unknown_server,
        idle_before_a_server_that_was_killed,
        a_strange_reply_is_said,
        a_server_that_takes_no_connection_is_said,
        a_reply_without_memory_is_said,
        a_join_that_is_refused_is_said_and_tried_again,
        at_most_one_line_is_said_in_a_second,
        nothing_is_said_where_it_cannot_be,
        losses_leave_nothing_behind,
        a_server_joins,
        a_server_joins_that_is_not_there,
        a_server_is_sent_one_spelling,
        answers_are_in_the_order_of_the_requests,
        what_comes_together_goes_on_together,
        a_reply_to_one_who_is_gone_is_nobodys,
        quit_waits_for_answers,
        strange_bytes_lose_the_link,
        bytes_that_nobody_awaits_lose_the_link,
        half_a_reply_is_no_reply,
        who_ends_its_input_is_answered,
        who_is_kept_too_much_for_waits,
        who_asks_for_much_and_reads_nothing_is_closed,
        who_reads_all_that_it_asks_for_is_kept,
        an_answer_that_is_too_large_is_refused,
        a_server_that_answers_no_command_is_tried_less,
        a_late_reply_loses_the_link,
        a_slow_server_that_answers_is_kept,
        a_report_is_said,
        a_server_that_reads_nothing_is_waited_for,
        who_waits_for_a_slow_server_costs_little,
        each_who_waits_for_a_slow_server_is_served,
        a_slow_reader_is_waited_for,
        one_who_asks_too_much_waits,
    ):
        yield check.__name__, check, ()
    yield from checks_of_links()
    yield from checks_of_lists()


if __name__ == "__main__":
    if len(sys.argv) != 3:
        sys.exit(__doc__.strip().split("\n\n")[1])
    if not are_built(*sys.argv[1:]):
        sys.exit(1)
    PROXY, SERVER = Program(sys.argv[1], ["127.0.0.1:1"]), sys.argv[2]
    Pool.programs = PROXY.path, SERVER
    sys.exit(tally(checks()))
