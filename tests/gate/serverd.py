#!/usr/bin/env python3
"""Tries the built mc_serverd on sockets: its words, its exit statuses and their texts, and what it does with connections.

Usage: serverd.py PROGRAM

serverd.help is the text of --help. The script prints a line for each check that fails; the last line is 'N passed, M failed'. Each server
listens at a port of 127.0.0.1 that was free a moment ago, and is ended with its check. connections.py has the checks that a proxy shares.
"""

import contextlib
import pathlib
import re
import resource
import select
import signal
import socket
import struct
import subprocess
import sys
import tempfile
import threading
import time

sys.path.insert(0, str(pathlib.Path(__file__).resolve().parents[1] / "lib"))

from checks import (
    FORMS, KILOBYTE, MARK, PATIENCE, Program, Wrong, asked, checks_of_words, is_served, plain_lines, received, received_to_the_end,
    settles, tally, want, want_at_most, wrong_sizes_are_refused,
)  # fmt: skip
from clocks import Clocks
from connections import checks_of_connections, fields_of, lines_said, no_client_gets_a_standard_stream, suppressed_of
from servers import HOST, Listener, connected, free_port, limit, statistics
from suite import are_built

HELP = pathlib.Path(__file__).with_name("serverd.help").read_text()
VALUE = b"v" * 1_000_000
ITEM = b"VALUE k 0 1000000\r\n" + VALUE + b"\r\n"
ANSWER = ITEM + b"END\r\n"

# --check: the words beside it, and its output.
SETTINGS = {
    "the_defaults": ("", "listen 127.0.0.1:11211 budget 67108864 items 65536 accept 0"),
    "the_least": (
        "--listen a:1 --budget 1 --items 1 --store lru --accept 0 --answer 1024 --buffers 4194304 --idle 0 --report 0",
        "listen a:1 budget 1 items 1 accept 0 store lru answer 1024 buffers 4194304",
    ),
    "the_greatest": (
        "--listen=Cache-7.example.org:65535 --budget=1099511627776 --items=16777216 --accept=18446744073709551615"
        " --answer=1099511627776 --buffers=1099511627776 --idle=18446744073709551615 --report=18446744073709551615"
        " --memory-exit=18446744073709551615 --reserve=1073741824",
        "listen Cache-7.example.org:65535 budget 1099511627776 items 16777216 accept 18446744073709551615"
        " answer 1099511627776 buffers 1099511627776 idle 18446744073709551615 report 18446744073709551615"
        " memory-exit 18446744073709551615 reserve 1073741824",
    ),
    "the_defaults_in_words": (
        "--answer 268435456 --buffers 268435456 --idle 0 --report 0 --items 65536 --store table",
        "listen 127.0.0.1:11211 budget 67108864 items 65536 accept 0",
    ),
    "a_budget_alone": ("--budget 1000000000", "listen 127.0.0.1:11211 budget 1000000000 items 65536 accept 0"),
    "items_of_the_usual_budget": ("--items auto", "listen 127.0.0.1:11211 budget 67108864 items 559240 accept 0"),
    "items_of_a_budget": ("--budget 1000000000 --items auto", "listen 127.0.0.1:11211 budget 1000000000 items 8333333 accept 0"),
    "items_of_a_small_budget": ("--items auto --budget 7864439", "listen 127.0.0.1:11211 budget 7864439 items 65536 accept 0"),
    "items_of_the_least_larger_budget": (
        "--budget 7864440 --items=auto",
        "listen 127.0.0.1:11211 budget 7864440 items 65537 accept 0",
    ),
    "items_of_the_greatest_budget": (
        "--budget 1099511627776 --items auto",
        "listen 127.0.0.1:11211 budget 1099511627776 items 16777216 accept 0",
    ),
    "cas_numbers_by_the_clock": ("--cas-from now", "listen 127.0.0.1:11211 budget 67108864 items 65536 accept 0 cas-from now"),
    "cas_numbers_from_the_greatest": (
        "--cas-from=9223372036854775807 --idle 1",
        "listen 127.0.0.1:11211 budget 67108864 items 65536 accept 0 cas-from 9223372036854775807 idle 1",
    ),
    "cas_numbers_from_0": ("--cas-from 0", "listen 127.0.0.1:11211 budget 67108864 items 65536 accept 0"),
    "a_log_that_was_asked_for": ("--report 1 --log", "listen 127.0.0.1:11211 budget 67108864 items 65536 accept 0 report 1 log"),
    "a_log_in_json": ("--log=json", "listen 127.0.0.1:11211 budget 67108864 items 65536 accept 0 log json"),
    "sizes_in_letters": (
        "--budget 2G --answer 1K --buffers 4M",
        "listen 127.0.0.1:11211 budget 2147483648 items 65536 accept 0 answer 1024 buffers 4194304",
    ),
    "sizes_in_small_letters": (
        "--budget=3m --answer=256m --buffers=256m",
        "listen 127.0.0.1:11211 budget 3145728 items 65536 accept 0",
    ),
    "the_greatest_sizes_in_letters": (
        "--budget 1024G --answer 1073741824k",
        "listen 127.0.0.1:11211 budget 1099511627776 items 65536 accept 0 answer 1099511627776",
    ),
    "a_listener_of_operators": (
        "--admin-name Watch --admin 127.0.0.1:9150 --report 4",
        "listen 127.0.0.1:11211 budget 67108864 items 65536 accept 0 report 4 admin 127.0.0.1:9150 admin-name Watch",
    ),
    "no_memory_for_a_while": ("--memory-exit 10", "listen 127.0.0.1:11211 budget 67108864 items 65536 accept 0 memory-exit 10"),
    "no_reserve": ("--reserve 0 --memory-exit 1", "listen 127.0.0.1:11211 budget 67108864 items 65536 accept 0 memory-exit 1 reserve 0"),
    "the_usual_reserve": ("--reserve 4M", "listen 127.0.0.1:11211 budget 67108864 items 65536 accept 0"),
    "in_another_order": (
        "--report 4 --accept 3 --items 2",
        "listen 127.0.0.1:11211 budget 67108864 items 2 accept 3 report 4",
    ),
}

USAGE = "\n\nUsage: mc_serverd [OPTIONS]"

# Words that are refused, and why.
REFUSED = {
    "an_unknown_option": (["--bind", "1"], "unexpected argument '--bind' found" + USAGE),
    "a_word": (["--check", "x"], "unexpected argument 'x' found" + USAGE),
    "an_option_twice": (["--check", "--check"], "the argument '--check' cannot be used multiple times" + USAGE),
    "no_value": (["--listen"], "a value is required for '--listen <host:port>' but none was supplied"),
    "no_seconds": (["--idle", "1s"], "invalid value '1s' for '--idle <seconds>': invalid digit found in string"),
    "seconds_below_0": (["--report=-1"], "invalid value '-1' for '--report <seconds>': invalid digit found in string"),
    "an_unknown_form": (["--log=xml"], "invalid value 'xml' for '--log[=<form>]'\n  [possible values: text, json]"),
    "an_empty_name": (["--admin-name="], "a value is required for '--admin-name <host>' but none was supplied"),
    "an_unknown_store": (["--store", "list"], "invalid value 'list' for '--store <kind>'\n  [possible values: table, lru]"),
    "no_number": (["--accept", "x"], "invalid value 'x' for '--accept <n>': invalid digit found in string"),
    "a_number_below_0": (["--accept=-1"], "invalid value '-1' for '--accept <n>': invalid digit found in string"),
    "too_large_a_number": (
        ["--accept", "18446744073709551616"],
        "invalid value '18446744073709551616' for '--accept <n>': number too large to fit in target type",
    ),
}


# The state before a command: nothing, the item `k`, or a dead one.
BEFORE = {"absent": [], "held": [b"set k 0 0 1\r\n5\r\n"], "dead": [b"set k 0 -1 1\r\n5\r\n"]}

# A command on the key `k`, and by how much it changes (hits, misses, stores, expired) if `k` is absent, stored and dead.
NOTHING, HIT, MISS, STORE = (0, 0, 0, 0), (1, 0, 0, 0), (0, 1, 0, 0), (0, 0, 1, 0)
DEAD_MISS, DEAD, DEAD_STORE = (0, 1, 0, 1), (0, 0, 0, 1), (0, 0, 1, 1)
COUNTED = {
    **dict.fromkeys(
        (b"get k", b"gets k", b"gat 60 k", b"gats 60 k", b"mg k", b"mg k v", b"mg k t T30 v q", b"mg k v R30"),
        (MISS, HIT, DEAD_MISS),
    ),
    b"get k k": ((0, 2, 0, 0), (2, 0, 0, 0), (0, 2, 0, 1)),
    b"get a k b": ((0, 3, 0, 0), (1, 2, 0, 0), (0, 3, 0, 1)),
    b"mg k N30 v": ((0, 1, 1, 0), HIT, (0, 1, 1, 1)),
    b"set k 0 0 1\r\nx": (STORE, STORE, DEAD_STORE),
    b"set k 0 0 1 noreply\r\nx": (STORE, STORE, DEAD_STORE),
    b"add k 0 0 1\r\nx": (STORE, NOTHING, DEAD_STORE),
    b"replace k 0 0 1\r\nx": (NOTHING, STORE, DEAD),
    b"append k 0 0 1\r\nx": (NOTHING, STORE, DEAD),
    b"prepend k 0 0 1\r\nx": (NOTHING, STORE, DEAD),
    b"cas k 0 0 1 1\r\nx": (NOTHING, STORE, DEAD),
    b"cas k 0 0 1 9\r\nx": (NOTHING, NOTHING, DEAD),
    b"ms k 1\r\nx": (STORE, STORE, DEAD_STORE),
    b"ms k 1 ME\r\nx": (STORE, NOTHING, DEAD_STORE),
    b"ms k 1 MA\r\nx": (NOTHING, STORE, DEAD),
    b"ms k 1 MP\r\nx": (NOTHING, STORE, DEAD),
    b"ms k 1 MR\r\nx": (NOTHING, STORE, DEAD),
    b"ms k 1 C9\r\nx": (NOTHING, NOTHING, DEAD),
    b"ms k 1 C1\r\nx": (NOTHING, STORE, DEAD),
    b"ms k 1 z\r\nx": (NOTHING, NOTHING, NOTHING),
    b"touch k 60": (NOTHING, NOTHING, DEAD),
    b"delete k": (NOTHING, NOTHING, DEAD),
    b"md k": (NOTHING, NOTHING, DEAD),
    b"md k C9": (NOTHING, NOTHING, DEAD),
    b"md k I": (NOTHING, NOTHING, DEAD),
    b"incr k 1": (NOTHING, STORE, DEAD),
    b"decr k 1": (NOTHING, STORE, DEAD),
    b"ma k": (NOTHING, STORE, DEAD),
    b"ma k N0": (STORE, STORE, DEAD_STORE),
    b"ma k C9": (NOTHING, NOTHING, DEAD),
    **dict.fromkeys((b"flush_all", b"flush_all 9", b"version", b"mn", b"quit", b"stats", b"get"), (NOTHING, NOTHING, NOTHING)),
}


def start(words="", limits=(), says=True, environment=None):
    """A server that was started with these words and limits, and has reported where it listens, if it can."""
    port = free_port()
    words = ["--listen", f"{HOST}:{port}", *words.split()]
    with open("/dev/full", "wb") as full:
        stdout = subprocess.PIPE if says else full
        return Listener(PROGRAM.path, words, port, limits, stdout=stdout, stderr=subprocess.PIPE, environment=environment)


def no_memory_to_start_is_told():
    """Whatever is refused at the start, the reserve too, before it reports that it listens."""
    for words, most in ((["--items", "16777216"], 100_000), (["--items", "1000000"], 60_000), (["--reserve", "128M"], 100_000)):
        words = ["--listen", f"{HOST}:{free_port()}", *words]
        want(PROGRAM.run(*words, limits=[(resource.RLIMIT_AS, most * KILOBYTE)]), (4, "", "mc_serverd: out of memory\n"))


def items_are_within_their_limits():
    """A word of --items that is neither auto nor a number within the limits is refused."""
    told = "mc_serverd: invalid value for '--items <n>': neither auto nor in 1..=16777216\n"
    for word in ("0", "16777217", "18446744073709551617", "Auto", "auto ", "+1", "1.0", ""):
        want(PROGRAM.run("--check", "--items", word), (2, "", told))


def names_of_operators_are_hosts():
    """A word of --admin-name that is no host is refused."""
    told = "mc_serverd: invalid value for '--admin-name <host>': not 1 to 255 letters, digits, dots and hyphens\n"
    for word in ("a b", "a_b", "a:1", "[::1]", "http://a", "a/", "\u00e4", "a" * 256):
        want((word, PROGRAM.run("--check", "--admin-name", word)), (word, (2, "", told)))
    want(PROGRAM.run("--check", "--admin-name", "A-1." * 63 + "abc")[0], 0)


def sizes_are_within_their_limits():
    wrong_sizes_are_refused(PROGRAM, "budget", 1)
    wrong_sizes_are_refused(PROGRAM, "answer", 1024, ("1023", "0", "0K"))
    wrong_sizes_are_refused(PROGRAM, "buffers", 4_194_304, ("4194303", "3M", "4095K", "0", "0G"))
    wrong_sizes_are_refused(PROGRAM, "reserve", 0, ("1073741825", "1025M", "2G"), most=1)


def cas_numbers_begin_as_said():
    """Above the number that was named, or above 2^30 for each second since 1970 by the clock: so a later server gives greater ones."""
    for word in ("Now", "now ", "", "-1", "+1", "9223372036854775808", "18446744073709551617", "1G"):
        why = "invalid value for '--cas-from <n>': neither now nor in 0..=9223372036854775807"
        want((word, PROGRAM.run("--check", f"--cas-from={word}")), (word, (2, "", f"mc_serverd: {why}\n")))
    for words, number in (("", 1), ("--cas-from 41", 42), ("--cas-from 9223372036854775807", 2**63)):
        want(first_number(words), number)
    before = time.time()
    first = first_number("--cas-from now")
    time.sleep(max(0, (first >> 30) + 1.1 - time.time()))
    want(before - 2 < (first >> 30) <= time.time() and first % 2**30 == 1, True)
    want(first_number("--cas-from now") >= first + 2**30, True)


def first_number(words):
    """The number of the first item of a server."""
    with start(words) as server, server.connected() as client:
        client.sendall(b"ms k 1 c\r\nx\r\nquit\r\n")
        return int(received_to_the_end(client).removeprefix(b"HD c"))


# How much memory a server may take, by its words: what it reports at its start, if an operator reads it.
SAID_OF_MEMORY = {
    "": [
        "may take 385.3 MB: budget 67.1 MB, 65,536 items, buffers 268.4 MB",
        "65,536 items of 120 bytes fill 12.1 MB of 67.1 MB: write --items auto",
    ],
    "--items auto": ["may take 440.6 MB: budget 67.1 MB, 559,240 items, buffers 268.4 MB"],
    "--items auto --buffers 4M": ["may take 176.4 MB: budget 67.1 MB, 559,240 items, buffers 4.2 MB"],
    "--budget 2000000000 --items 5000000": [
        "may take 3.0 GB: budget 2.0 GB, 5,000,000 items, buffers 268.4 MB",
        "5,000,000 items of 120 bytes fill 920.0 MB of 2.0 GB: write --items auto",
    ],
    "--budget 12000000000 --items auto": [
        "may take 15.0 GB: budget 12.0 GB, 16,777,216 items, buffers 268.4 MB",
        "16,777,216 items of 120 bytes fill 3.1 GB of 12.0 GB: a server holds no more: start another one",
    ],
    "--budget 4000000000 --items auto": [
        "may take 6.5 GB: budget 4.0 GB, 16,777,216 items, buffers 268.4 MB",
        "16,777,216 items of 120 bytes fill 3.1 GB of 4.0 GB",
    ],
    "--budget 1000000000 --items 1005": [
        "may take 1.4 GB: budget 1.0 GB, 1,005 items, buffers 268.4 MB",
        "1,005 items of 120 bytes fill 0.2 MB of 1.0 GB: write --items auto",
    ],
    "--budget 18400 --items 100": ["may take 306.2 MB: budget 0.0 MB, 100 items, buffers 268.4 MB"],
    "--budget 18401 --items 100": [
        "may take 306.2 MB: budget 0.0 MB, 100 items, buffers 268.4 MB",
        "100 items of 120 bytes fill 0.0 MB of 0.0 MB",
    ],
}


def how_much_memory_is_said_at_the_start():
    """If it is asked for, and otherwise nothing; with the limit of its addresses, if that is lower. (A control group's is left out here.)"""
    for words, lines in SAID_OF_MEMORY.items():
        for form in FORMS[1:]:
            want((words, said_at_the_start(words, form)), (words, lines))
        want((words, said_at_the_start(words)), (words, []))
    limits = [(resource.RLIMIT_AS, 2_500_000_000)]
    told = "may take 3.8 GB: budget 3.2 GB, 65,536 items, buffers 268.4 MB; limit 2.5 GB (ulimit -v)"
    want(said_at_the_start("--budget 3G", "--log", limits)[0], told)
    told = "may take 2.4 GB: budget 2.1 GB, 65,536 items, buffers 67.1 MB"
    want(said_at_the_start("--budget 2G --buffers 64M", "--log", limits)[0], told)


def said_at_the_start(words, form="", limits=()):
    with start(f"{words} {form}", limits) as server:
        server.process.terminate()
        said = plain_lines(server.process.stderr.read().decode(), form)
    said = re.sub(r"; limit [0-9.]+ [MG]B \(control group\)", "", said)
    return [line.removeprefix("mc_serverd: ") for line in said.splitlines()]


# Control groups: the system's lines about a process, the files below /sys/fs/cgroup, the most bytes of addresses, and the limit that is said.
GROUPS = {
    "of its own": ("0::/a/b\n", {"a/b/memory.max": "80000000\n", "a/memory.max": "90000000\n"}, None, "80.0 MB (control group)"),
    "of a group above": ("0::/a/b\n", {"a/b/memory.max": "max\n", "a/memory.max": "90000000\n"}, None, "90.0 MB (control group)"),
    "of all groups": ("0::/a\n", {"memory.max": "70000000\n"}, None, "70.0 MB (control group)"),
    "of version 1": (
        "9:cpu:/b\n4:memory:/a\n0::/\n",
        {"memory/a/memory.limit_in_bytes": "60000000\n", "memory/b/memory.limit_in_bytes": "1\n", "b/memory.max": "1\n"},
        None,
        "60.0 MB (control group)",
    ),
    "of both": ("4:memory:/a\n0::/a\n", {"memory/a/memory.limit_in_bytes": "60000000\n", "a/memory.max": "50000000\n"}, None, "50.0 MB (control group)"),
    "below that of addresses": ("0::/a\n", {"a/memory.max": "90000000\n"}, 200_000_000, "90.0 MB (control group)"),
    "above that of addresses": ("0::/a\n", {"a/memory.max": "300000000\n"}, 200_000_000, "200.0 MB (ulimit -v)"),
    "just below what it may take": ("0::/a\n", {"a/memory.max": "385330707\n"}, None, "385.3 MB (control group)"),
    "not below what it may take": ("0::/a\n", {"a/memory.max": "385330708\n"}, None, None),
    "of another group": ("0::/a/b\n", {"b/memory.max": "1\n", "a/c/memory.max": "1\n"}, None, None),
    "none": ("0::/a\n4:memory:/\n", {"a/memory.max": "max\n", "memory/memory.limit_in_bytes": "9223372036854771712\n"}, None, None),
}


def the_limit_of_a_control_group_is_said(lines, files, most, said):
    """With a file system of its own in place of that of groups, and a file in place of the system's about the process."""
    with tempfile.TemporaryDirectory() as folder:
        own, groups = pathlib.Path(folder, "cgroup"), pathlib.Path(folder, "groups")
        own.write_text(lines)
        for name, text in files.items():
            file = groups / name
            file.parent.mkdir(parents=True, exist_ok=True)
            file.write_text(text)
        groups.mkdir(exist_ok=True)
        put = f'mount --bind {groups} /sys/fs/cgroup && mount --bind {own} /proc/$$/cgroup && exec "$@"'
        words = ["unshare", "--map-root-user", "--mount", "sh", "-c", put, "sh", PROGRAM.path, "--listen", f"{HOST}:{free_port()}", "--log"]
        limits = [(resource.RLIMIT_AS, most)] if most else []
        with subprocess.Popen(words, stdout=subprocess.PIPE, stderr=subprocess.PIPE, preexec_fn=lambda: limit(limits)) as server:
            server.stdout.readline()
            server.terminate()
            line = plain_lines(server.stderr.read().decode(), "--log").splitlines()[0]
    told = "mc_serverd: may take 385.3 MB: budget 67.1 MB, 65,536 items, buffers 268.4 MB"
    want(line, f"{told}; limit {said}" if said else told)


def a_server_that_is_full_of_items_says_so():
    """If more than half of the budget is free, once, with the words to write; otherwise not at all."""
    for budget, told in ((397, ["full at 3 items, while more than half of --budget is free: write --items auto"]), (396, [])):
        with start(f"--items 3 --budget {budget}") as server:
            with server.connected() as client:
                for second in range(4):
                    client.sendall(b"".join(b"set %d 0 0 1\r\nx\r\n" % number for number in range(4)))
                    want(received(client, len(b"STORED\r\n") * 4), b"STORED\r\n" * 4)
                    time.sleep(1)
            server.process.terminate()
            said = server.process.stderr.read().decode().splitlines()
        want([line for line in said if "full" in line], [f"mc_serverd: {line}" for line in told])


def more_than_65535_items_are_stored():
    """Either store stores 70,000 items, its limit; one more evicts the one that was used least recently, and no other."""
    count = 70_000
    for kind in ("table", "lru"):
        with start(f"--items {count} --store {kind}") as server, server.connected() as client:
            client.sendall(b"".join(b"set %d 0 0 1 noreply\r\nx\r\n" % key for key in range(count)))
            asked(client, b"get 0\r\n", b"VALUE 0 0 1\r\nx\r\nEND\r\n")
            asked(client, b"set new 0 0 1\r\nx\r\nget 1\r\n", b"STORED\r\nEND\r\n")
            for first in range(2, count, 100):
                keys = range(first, min(first + 100, count))
                values = b"".join(b"VALUE %d 0 1\r\nx\r\n" % key for key in keys)
                asked(client, b"get %s\r\n" % b" ".join(b"%d" % key for key in keys), values + b"END\r\n")


def a_slow_reader_is_waited_for():
    """A client that sends 100 gets of a large value and reads nothing costs the mark and one answer, and delays nobody. The allocator
    keeps one freed answer once a server has sent two, so these are sent before. That memory is written to only as the slow reader's answers
    come: so from there the server grows by one answer more, and with the item it stays below the mark and three answers in all."""
    with start() as server, server.connected() as other, server.connected() as slow:
        asked(other, b"get k\r\n", b"END\r\n")
        empty = settles(server.memory)
        asked(other, b"set k 0 0 1000000\r\n" + VALUE + b"\r\n", b"STORED\r\n")
        for _ in range(2):
            asked(other, b"get k\r\n", ANSWER)
        before = settles(server.memory)
        slow.sendall(b"get k\r\n" * 100)
        is_served(other)
        now = settles(server.memory)
        want_at_most(now - before, MARK + 2 * len(ANSWER) + 256 * KILOBYTE)
        want_at_most(now - empty, MARK + 3 * len(ANSWER) + 256 * KILOBYTE)
        is_served(other)
        want(received(slow, 100 * len(ANSWER)) == ANSWER * 100, True)
        with server.connected() as gone:
            gone.sendall(b"get k\r\n" * 100)
            is_served(other)
        is_served(other)


def too_large_an_answer_is_refused():
    """A request whose answer may be larger than is allowed closes its connection, and is not executed; others are served. It is reported,
    at most once in a second, with how many such lines were suppressed. It does not matter where the request is cut."""
    keys = b" k" * 300
    for answer, asks in (
        (2_000_000, b"gat -1 k k\r\n"),
        (268_435_456, b"gat -1" + keys + b"\r\n"),
    ):
        with start(f"--answer {answer} --buffers 1G") as server, server.connected() as other:
            asked(other, b"set k 0 0 1000000\r\n" + VALUE + b"\r\n", b"STORED\r\n")
            before = settles(server.memory)
            for cut in (0, 1, len(asks) // 2, len(asks) - 1, 2):
                if cut == 2:
                    time.sleep(1.1)
                with server.connected() as client:
                    client.sendall(b"version\r\n" + asks[:cut])
                    want(received(client, 15), b"VERSION 1.6.0\r\n")
                    client.sendall(asks[cut:])
                    want(received_to_the_end(client), b"")
            lines = []
            while sum(1 + count for count, _ in lines) < 5:
                lines += [suppressed_of(line, "") for line in lines_said(server)]
            want((sum(1 + count for count, _ in lines), lines[0][0]), (5, 0))
            want({line for _, line in lines}, {f"mc_serverd: request refused: its answer may have more than {answer} bytes"})
            asked(other, b"get k\r\n", ANSWER)
            want_at_most(settles(server.memory) - before, 4 * len(ANSWER))


def an_answer_leaves_room_for_its_request():
    """An answer may have no more bytes than --buffers less 2 MiB, whatever --answer says."""
    with start("--buffers 4M") as server, server.connected() as other:
        asked(other, b"set k 0 0 1000000\r\n" + VALUE + b"\r\n", b"STORED\r\n")
        with server.connected() as client:
            client.sendall(b"gat 0 k k\r\nmn\r\n")
            want(received(client, 2 * (len(ANSWER) - 5) + 9) == ANSWER[:-5] * 2 + b"END\r\nMN\r\n", True)
        with server.connected() as client:
            client.sendall(b"gat 0 k k k\r\n")
            want(received_to_the_end(client), b"")
        want(lines_said(server), ["mc_serverd: request refused: its answer may have more than 2097152 bytes"])


def keeper(server):
    """A client that asks for thirteen large values and reads none, once the server keeps them for it."""
    client = server.connected()
    client.sendall(b"get" + b" k" * 13 + b"\r\n")
    time.sleep(0.5)
    return client


def who_keeps_memory_is_closed():
    """While one waits for memory, another that keeps much and takes nothing is closed after some seconds, which is reported with its address. Small
    requests go on meanwhile, and so do those for a single value."""
    with start("--buffers 16M") as server, server.connected() as other, server.connected() as small:
        asked(small, b"set k 0 0 1000000\r\n" + VALUE + b"\r\n", b"STORED\r\n")
        with keeper(server) as gone:
            address = "%s:%d" % gone.getsockname()
            begun = time.monotonic()
            other.sendall(b"get" + b" k" * 9 + b"\r\n")
            while not select.select([other], [], [], 0)[0] and time.monotonic() - begun < 3:
                asked(small, b"set s 0 0 3\r\nabc\r\nget s\r\n", b"STORED\r\nVALUE s 0 3\r\nabc\r\nEND\r\n")
                asked(small, b"get k\r\n", ANSWER)
            want(time.monotonic() - begun >= 3, True)
            want(received(other, len(ITEM) * 9 + 5) == ITEM * 9 + b"END\r\n", True)
            want(3 <= time.monotonic() - begun <= 9, True)
            line = lines_said(server)[0]
            told = rf"mc_serverd: {re.escape(address)} closed: it kept [1-9]\d{{6,7}} bytes while the memory for clients was used up"
            want((line, bool(re.fullmatch(told, line))), (line, True))
        is_served(other)


def an_answer_waits_for_memory():
    """A large answer waits until another client has taken its own, and then it arrives whole."""
    with start("--buffers 16M") as server, server.connected() as other, server.connected() as small:
        asked(small, b"set k 0 0 1000000\r\n" + VALUE + b"\r\n", b"STORED\r\n")
        with keeper(server) as slow:
            other.sendall(b"get" + b" k" * 9 + b"\r\nmn\r\n")
            want(select.select([other], [], [], 1)[0], [])
            is_served(small)
            want(received(slow, 13 * len(ITEM) + 5) == ITEM * 13 + b"END\r\n", True)
            want(received(other, 9 * len(ITEM) + 9) == ITEM * 9 + b"END\r\nMN\r\n", True)
            is_served(slow)


def blocks_that_take_all_memory_go_on():
    """Ten clients have sent a half of a large value each, which is more than is kept for all. Each is stored once it sends the other half, whichever is
    the first. Bytes for which a socket had no room are sent again by the system, after up to some seconds."""
    for order in (1, -1):
        with start("--buffers 4M") as server, contextlib.ExitStack() as stack:
            clients = [stack.enter_context(server.connected()) for _ in range(10)]
            for number, client in enumerate(clients):
                client.settimeout(3 * PATIENCE)
                client.sendall(b"set k%d 0 0 1000000\r\n" % number + VALUE[:600_000])
            time.sleep(0.5)
            for client in clients[::order]:
                client.sendall(VALUE[600_000:] + b"\r\n")
            for client in clients:
                want(received(client, 8), b"STORED\r\n")


def blocks_with_their_memory_go_on():
    """Clients of whose large values all but the end has arrived fill the room. Each is stored once it sends the end, though another waits for room and
    is silent."""
    with start("--buffers 4M") as server, contextlib.ExitStack() as stack:
        clients = [stack.enter_context(server.connected()) for _ in range(4)]
        for number, client in enumerate(clients):
            client.sendall(b"set k%d 0 0 1000000\r\n" % number + VALUE[:999_000])
            time.sleep(0.2)
        waits = stack.enter_context(server.connected())
        waits.sendall(b"set k 0 0 1000000\r\n" + VALUE[:900_000])
        time.sleep(0.2)
        begun = time.monotonic()
        for client in clients:
            asked(client, VALUE[999_000:] + b"\r\n", b"STORED\r\n")
        want_at_most(time.monotonic() - begun, 1)
        asked(waits, VALUE[900_000:] + b"\r\n", b"STORED\r\n")


def a_report_is_said():
    """Each second: what was done, and what there is."""
    with start("--report 1 --items 3", [(resource.RLIMIT_NOFILE, 2_000)]) as server:
        with server.connected() as gone, server.connected() as client:
            is_served(gone)
            gone.close()
            sent = b"".join(b"set %s 0 0 1\r\nx\r\n" % key for key in (b"a", b"b", b"c", b"d"))
            sent += b"get a b c d\r\nset e 0 -1 1\r\nx\r\nget e\r\nincr b 1\r\nadd d 0 0 1\r\nx\r\nmn\r\n"
            answers = b"STORED\r\n" * 4 + b"".join(b"VALUE %s 0 1\r\nx\r\n" % key for key in (b"b", b"c", b"d")) + b"END\r\n"
            answers += b"STORED\r\nEND\r\nNOT_FOUND\r\nNOT_STORED\r\nMN\r\n"
            asked(client, sent, answers)
            fields = {}
            while fields.get("requests") != "11" and fields.get("uptime") != "9":
                fields = fields_of(lines_said(server)[0], "mc_serverd")
        uptime = int(fields.pop("uptime"))
        want(1 <= uptime <= 8, True)
        wanted = dict(connections=1, accepted=2, refused=0, requests=11, hits=3, misses=2, stores=5, evictions=2, expired=1)
        want(0 <= int(fields.pop("buffered")) <= 65_536, True)
        wanted |= dict(items=2, bytes=2 * 66, read=len(sent) + 9, written=len(answers) + 15, no_memory=0)
        want(fields, {key: str(number) for key, number in wanted.items()})


def counts_of(server, requests):
    """The counts of hits, misses, stores, dead items and evictions that a server reports, once it has taken this many requests."""
    fields = {"requests": ""}
    for _ in range(9):
        fields = fields_of(lines_said(server)[0], "mc_serverd")
        if fields["requests"] == str(requests):
            break
    return tuple(int(fields[key]) for key in ("requests", "hits", "misses", "stores", "expired", "evictions"))


def each_command_is_counted(at, before):
    """Which counts each command changes, and by how much, if its key is absent, stored or dead: each by a server of its own."""
    with contextlib.ExitStack() as stack:
        tried = []
        for command, moves in COUNTED.items():
            server = stack.enter_context(start("--report 1 --items 10"))
            client = stack.enter_context(server.connected())
            client.sendall(b"".join(before) + command + b"\r\nmn\r\n")
            tried.append((command, server, moves[at]))
        for command, server, (hits, misses, stores, expired) in tried:
            requests = len(before) + (1 if command == b"quit" else 2)
            wanted = (requests, hits, misses, stores + len(before), expired, 0)
            want((command, counts_of(server, requests)), (command, wanted))


# So many items that a server has hints of the slots of a pipeline's keys, and requests that let it do so: they find nothing.
MANY = 33_000
AFTER = b"".join(b"touch of-an-item-that-is-not-there-%d 0\r\n" % number for number in range(4))
# These end all items, or all reading: they are last. Two of the others name the number of an item.
LAST = (b"flush_all 9", b"flush_all", b"quit")
NUMBERED = {b"cas k 0 0 1 1\r\nx": b"cas k 0 0 1 %d\r\nx", b"ms k 1 C1\r\nx": b"ms k 1 C%d\r\nx"}


def commands_are_counted_among_many_items(at, before):
    """Likewise in one server of many items, each command in a pipeline and on a key of its own: the sums of their changes. An item has the
    number of stores so far."""
    told = [(command, COUNTED[command][at]) for command in (*(command for command in COUNTED if command not in LAST), *LAST)]
    sent, stored = [b"set p%d 0 0 1 noreply\r\nx\r\n" % number for number in range(MANY)], MANY
    for number, (command, moves) in enumerate(told):
        stored += len(before)
        if command in NUMBERED:
            command = NUMBERED[command] % stored
        stored += moves[2]
        sent += [piece.replace(b" k", b" k%03d" % number) for piece in (*before, command + b"\r\n")]
        sent.append(AFTER)
    requests = MANY + (len(before) + 1 + 4) * len(told) - 4
    hits, misses, _, expired = map(sum, zip(*(moves for _, moves in told)))
    with start("--report 1 --items 40000") as server, server.connected() as client:
        client.sendall(b"".join(sent))
        want(counts_of(server, requests), (requests, hits, misses, stored, expired, 0))


def idle_connections_hold_little():
    """1,000 clients each store and read a large value. Idle, they cost less than 100 MB beside the items. One of them has stored a value
    for a second, which has expired by then."""
    budget = 67_108_864
    with start(f"--budget {budget}", [(resource.RLIMIT_NOFILE, 2_000)]) as server:
        clients = [server.connected() for _ in range(1_000)]
        stored = b"set k 0 0 1000000\r\n" + VALUE + b"\r\n"
        try:
            for number, client in enumerate(clients):
                key = b"%03d" % number
                asked(client, stored.replace(b"k", key, 1) + b"get %s\r\n" % key, b"STORED\r\n")
                want(received(client, len(ANSWER) + 2) == ANSWER.replace(b"k", key, 1), True)
            asked(clients[0], b"set a 0 1 1\r\nx\r\nset b 0 60 1\r\ny\r\n", b"STORED\r\nSTORED\r\n")
            time.sleep(3)
            want_at_most(server.memory() - budget, 99_999_999)
            asked(clients[999], b"get a b\r\n", b"VALUE b 0 1\r\ny\r\nEND\r\n")
        finally:
            for client in clients:
                client.close()


def what_is_due_in_hours_is_done_by_the_clock():
    """An item expires at its second, and not before; likewise a flush that was asked for, and a client that is idle for hours is closed. The
    script sets the server's clock ahead, so nobody waits."""
    with tempfile.TemporaryDirectory() as folder:
        clocks = Clocks(folder)
        with start("--idle 20000", environment=clocks.environment) as server, server.connected() as idle, server.connected() as client:
            is_served(idle)
            asked(client, b"set a 0 3600 1\r\nx\r\nset b 0 0 1\r\ny\r\n", b"STORED\r\nSTORED\r\n")
            clocks.set_ahead(3_500)
            asked(client, b"get a b\r\n", b"VALUE a 0 1\r\nx\r\nVALUE b 0 1\r\ny\r\nEND\r\n")
            clocks.set_ahead(3_600)
            asked(client, b"get a b\r\nflush_all 3600\r\n", b"VALUE b 0 1\r\ny\r\nEND\r\nOK\r\n")
            clocks.set_ahead(7_100)
            asked(client, b"get b\r\n", b"VALUE b 0 1\r\ny\r\nEND\r\n")
            clocks.set_ahead(7_200)
            asked(client, b"get b\r\n", b"END\r\n")
            clocks.set_ahead(30_000)
            is_served(client)
            want(received_to_the_end(idle), b"")


def no_memory_closes_connections_alone():
    """If there is no memory for the bytes of clients, they are answered or closed, and the server continues."""
    limits = [(resource.RLIMIT_AS, 40_000 * KILOBYTE), (resource.RLIMIT_NOFILE, 2_000)]
    with start("--items 1000", limits) as server:
        told = b"SERVER_ERROR out of memory storing object\r\n"
        answers = set()
        clients = [server.connected() for _ in range(60)]
        for number, client in enumerate(clients):
            try:
                client.sendall(b"set %03d 0 0 1000000\r\n" % number + VALUE + b"\r\nquit\r\n")
                answers.add(received_to_the_end(client))
            except ConnectionError:
                answers.add(b"")
            finally:
                client.close()
        want(answers - {told, b"STORED\r\n", b""}, set())
        want(b"STORED\r\n" in answers and len(answers) > 1, True)
        with server.connected() as client:
            is_served(client)


def a_client_that_breaks_off_is_no_want_of_memory():
    """Connections are reset before their bytes are read, in the middle of a block, and while answers are written. None is counted as a call that
    was refused memory."""
    admin = free_port()
    with start(f"--admin {HOST}:{admin}") as server, server.connected() as other:
        asked(other, b"set k 0 0 1000000\r\n" + VALUE + b"\r\n", b"STORED\r\n")
        for sent in (b"version\r\n" * 1_000, b"set a 0 0 9\r\nxy", b"get k\r\n" * 20):
            for _ in range(10):
                broken = server.connected()
                broken.sendall(sent)
                is_served(other)
                broken.setsockopt(socket.SOL_SOCKET, socket.SO_LINGER, struct.pack("ii", 1, 0))
                broken.close()
        deadline = time.monotonic() + PATIENCE
        while (shown := statistics(admin))["curr_connections"] != "1":
            want(time.monotonic() < deadline, True)
        want((shown["total_connections"], shown["rejected_connections"], shown["no_memory"]), ("31", "0", "0"))


def too_few_descriptors_for_operators_let_clients_in():
    """If the open files leave no client beside operators, these keep none: clients are served, as many as there are files."""
    with start(f"--admin {HOST}:{free_port()}", [(resource.RLIMIT_NOFILE, 20)]) as server, server.connected() as client:
        is_served(client)
        want(lines_said(server), ["mc_serverd: 20 open files: 0 connections can be served at a time"])


def operators_keep_their_descriptors():
    """While clients have all descriptors that are left for them, operators are answered. The server reports once that no more are
    accepted."""
    admin = free_port()
    with start(f"--admin {HOST}:{admin}", [(resource.RLIMIT_NOFILE, 40)]) as server:
        most = 40 - 5 - 18
        clients = [server.connected() for _ in range(most + 3)]
        try:
            for client in clients[:most]:
                is_served(client)
            clients[-1].sendall(b"version\r\n")
            want(select.select([clients[-1]], [], [], 0.3)[0], [])
            for _ in range(3):
                with connected(admin) as operator:
                    operator.sendall(b"stats\r\n")
                    want(f"STAT curr_connections {most}\r\n".encode() in until_end(operator), True)
            told = [f"40 open files: {most} connections can be served at a time", f"no more clients: 40 open files allow {most}"]
            want(lines_said(server, 2), [f"mc_serverd: {line}" for line in told])
            want(select.select([server.process.stderr], [], [], 1.2)[0], [])
            for client in clients[:3]:
                client.close()
            want(received(clients[-1], 15), b"VERSION 1.6.0\r\n")
        finally:
            for client in clients:
                client.close()


def until_end(connection):
    """The bytes that arrive, with its last line END."""
    came = b""
    while not came.endswith(b"END\r\n"):
        piece = connection.recv(65_536)
        if not piece:
            break
        came += piece
    return came


# No memory for as long as --memory-exit says.

NO_MEMORY = b"SERVER_ERROR out of memory storing object\r\n"
LITTLE = 8_000_000  # bytes that a server may take beside those of its start
REFUSED_LINE = re.compile(r"mc_serverd: out of memory: ([0-9]+) refused")


def start_with_little(words, reserve=0):
    """A server that may take little more memory than it has at its start, and keeps this much in reserve."""
    server = start(f"--items 100000 --budget 1G --reserve {reserve} {words}")
    pages = pathlib.Path(f"/proc/{server.process.pid}/statm").read_text().split()[0]
    most = int(pages) * resource.getpagesize() + LITTLE
    resource.prlimit(server.process.pid, resource.RLIMIT_AS, (most, most))
    return server


class Filler:
    """Stores values under keys that are new each time, on a connection that is made anew if it is closed."""

    def __init__(self, server):
        self.server, self.client, self.number = server, None, 0
        self.refused = 0  # how often memory was refused: stores, and closed connections
        self.closed = 0  # how often its connection was closed

    def store(self, size, last=b""):
        """A line and a value of this many bytes under a new key."""
        self.number += 1
        return b"set f%d 0 0 %d%s\r\n%s\r\n" % (self.number, size, last, b"v" * size)

    def answered(self, text, end):
        """The answer to a text, to this end; the bytes that arrived by then, if its connection is closed."""
        answer = b""
        try:
            if self.client is None:
                self.client = self.server.connected()
            self.client.sendall(text)
            while not answer.endswith(end):
                piece = self.client.recv(KILOBYTE)
                if not piece:
                    raise ConnectionError
                answer += piece
        except OSError:
            self.refused += 1
            self.closed += 1
            self.close()
        self.refused += answer.count(NO_MEMORY)
        return answer

    def store_many(self, size):
        """Stores in a pipeline, every second time with noreply."""
        many = b"".join(self.store(size, last) for last in (b"", b" noreply") * 10)
        self.answered(many + b"version\r\n", b"VERSION 1.6.0\r\n")

    def is_refused(self, size):
        """Whether a value of this many bytes is refused, or its connection is closed."""
        answer = self.answered(self.store(size), b"\r\n")
        want(answer in (b"", NO_MEMORY, b"STORED\r\n"), True)
        return answer != b"STORED\r\n"

    def fill(self, size):
        """Stores until a hundred in a row are refused."""
        row, deadline = 0, time.monotonic() + 60
        while row < 100:
            row = row + 1 if self.is_refused(size) else 0
            if time.monotonic() > deadline:
                raise Wrong("memory does not end")

    def close(self):
        if self.client is not None:
            self.client.close()
        self.client = None

    def __enter__(self):
        return self

    def __exit__(self, *_):
        self.close()


# a value for whose bytes there is no memory when they arrive
LARGE = 1_000_000


def no_memory_ends_who_is_asked_to(sizes):
    """A server that is refused memory and stores nothing ends after the seconds, with its line and its status. Hits meanwhile change
    nothing. Each second it reports how many were refused."""
    with start_with_little("--memory-exit 3") as server, Filler(server) as filler:
        with server.connected() as reader:
            asked(reader, b"set k 0 0 1\r\nx\r\n", b"STORED\r\n")
            for size in sizes:
                filler.fill(size)
            begun = time.monotonic()
            while server.process.poll() is None and time.monotonic() < begun + 20:
                filler.is_refused(LARGE)
                with contextlib.suppress(OSError):
                    reader.sendall(b"get k\r\n")
                    reader.recv(100)
                time.sleep(0.005)
        want_at_most(time.monotonic() - begun, 8)
        status, lines = server.process.wait(PATIENCE), server.process.stderr.read().decode().splitlines()
    want((status, lines[-1]), (4, "mc_serverd: out of memory for 3 seconds"))
    want([line for line in lines[:-1] if not REFUSED_LINE.fullmatch(line)], [])
    want(len(lines) > 2, True)


def refused_stores_are_counted(size):
    """Each store that is answered that memory is missing is counted, with noreply and in a pipeline too; the line as a value is not. Each
    second it reports how many calls were refused, such stores among them."""
    with start_with_little("--report 1") as server, Filler(server) as filler:
        shown = b"set k 0 0 43\r\n%s\r\nget k\r\n" % NO_MEMORY
        with server.connected() as reader:
            asked(reader, shown * 3, (b"STORED\r\nVALUE k 0 43\r\n%s\r\nEND\r\n" % NO_MEMORY) * 3)
        while "uptime=" not in (line := server.process.stderr.readline().decode().rstrip()):
            want(line != "", True)
        want(fields_of(line, "mc_serverd")["no_memory"], "0")
        filler.fill(size)
        filled, begun = filler.refused, time.monotonic()
        while time.monotonic() < begun + 5:
            filler.store_many(size)
            time.sleep(0.1)
        want(filler.refused > filled + 20, True)
        time.sleep(2.2)
        want(server.process.poll(), None)
        server.process.terminate()
        lines = server.process.stderr.read().decode().splitlines()
    refused = [int(found[1]) for found in map(REFUSED_LINE.fullmatch, lines) if found]
    # A client that is closed in a pipeline, for which there is no memory, has not seen all of its refusals.
    want((len(refused) >= 4, sum(refused) >= filler.refused), (True, True))
    reported = [line for line in lines if "uptime=" in line]
    want(fields_of(reported[-1], "mc_serverd")["no_memory"], str(sum(refused)))


def no_memory_ends_nobody_else():
    """A server without that option stays, reports each second how many were refused, and counts each."""
    with start_with_little("--report 1") as server, Filler(server) as filler:
        filler.fill(5_000)
        begun = time.monotonic()
        while time.monotonic() < begun + 5:
            want(filler.is_refused(LARGE), True)
            time.sleep(0.02)
        time.sleep(2.2)
        want(server.process.poll(), None)
        server.process.terminate()
        lines = server.process.stderr.read().decode().splitlines()
    refused = [int(found[1]) for found in map(REFUSED_LINE.fullmatch, lines) if found]
    want(len(refused) >= 4, True)
    reported = [line for line in lines if "uptime=" in line]
    want(fields_of(reported[-1], "mc_serverd")["no_memory"], str(sum(refused)))


def a_store_ends_the_row_of_refusals():
    """A server that can store something now and then stays, however much is refused."""
    with start_with_little("--memory-exit 2") as server, Filler(server) as filler:
        with server.connected() as other:
            asked(other, b"set k 0 0 1\r\nx\r\n", b"STORED\r\n")
            filler.fill(5_000)
            begun = time.monotonic()
            while time.monotonic() < begun + 6:
                want(filler.is_refused(LARGE), True)
                asked(other, b"delete k\r\nset k 0 0 1\r\nx\r\n", b"DELETED\r\nSTORED\r\n")
                time.sleep(0.05)
        want(server.process.poll(), None)


def without_memory_what_is_held_is_served(size, turns):
    """A server that keeps a reserve and whose memory is used up serves gets and sets of its stored keys, on connections that were idle and
    on new ones, however often missing keys are refused between. Nobody is closed. After deletes it stores anew."""
    value = b"w" * size
    stored, shown = b"set k 0 0 %d\r\n%s\r\n" % (size, value), b"VALUE k 0 %d\r\n%s\r\nEND\r\n" % (size, value)
    with start_with_little("--memory-exit 3", "4M") as server, Filler(server) as filler:
        idle = [server.connected() for _ in range(7)]
        for client in idle:
            asked(client, stored, b"STORED\r\n")
        first = filler.number + 1
        for each in sorted({size, max(size, 1_000)}, reverse=True):
            filler.fill(each)
        # By then idle clients have returned their memory, so a few more are stored.
        time.sleep(3.2)
        filler.fill(size)
        for turn in range(turns):
            client = idle[turn % len(idle)]
            asked(client, b"get k\r\n", shown)
            asked(client, stored, b"STORED\r\n")
            if turn % 10 == 0:
                with server.connected() as new:
                    asked(new, b"get k\r\n", shown)
                    asked(new, stored, b"STORED\r\n")
            filler.is_refused(size)
        filler.fill(size)
        deletes = b"".join(b"delete f%d noreply\r\n" % number for number in range(first, first + 10))
        asked(idle[0], deletes + b"version\r\n", b"VERSION 1.6.0\r\n")
        # Missing keys are refused for a second at most once the reserve was used.
        deadline = time.monotonic() + 5
        while filler.is_refused(size):
            want(time.monotonic() < deadline, True)
        for client in idle:
            client.close()
        want((server.process.poll(), filler.closed), (None, 0))


def a_reserve_that_was_used_comes_back():
    """Clients that read no answers use the reserve, for longer than new keys are refused for that. Once such a client is gone its memory is the
    reserve's again, though another stores new keys at that moment: they are refused, and the next client is served from it too."""
    put, shown = b"set k 0 0 %d\r\n%s\r\n" % (LARGE, b"w" * LARGE), b"VALUE k 0 %d\r\n%s\r\nEND\r\n" % (LARGE, b"w" * LARGE)
    with start_with_little("", "16M") as server, Filler(server) as filler, server.connected() as client:
        asked(client, put, b"STORED\r\n")
        for size in (5_000, 1_000):
            filler.fill(size)
        for _ in range(4):
            with server.connected() as slow:
                slow.sendall(b"get k\r\n" * 6)
                time.sleep(2.2)
                server.process.send_signal(signal.SIGSTOP)
            stores = b"".join(filler.store(3_000) for _ in range(300)) + b"version\r\n"
            before = filler.refused
            sender = threading.Thread(target=filler.answered, args=(stores, b"VERSION 1.6.0\r\n"))
            sender.start()
            time.sleep(0.05)
            server.process.send_signal(signal.SIGCONT)
            sender.join()
            want(filler.refused - before > 200, True)
            asked(client, b"get k\r\n", shown)


def checks():
    """Each check by its name."""
    yield from checks_of_words(PROGRAM, SETTINGS, REFUSED, HELP)
    yield from checks_of_connections(start, "mc_serverd", 5)
    yield no_client_gets_a_standard_stream.__name__, no_client_gets_a_standard_stream, (PROGRAM,)
    for check in (
        no_memory_to_start_is_told,
        items_are_within_their_limits,
        sizes_are_within_their_limits,
        cas_numbers_begin_as_said,
        how_much_memory_is_said_at_the_start,
        a_server_that_is_full_of_items_says_so,
        more_than_65535_items_are_stored,
        a_slow_reader_is_waited_for,
        too_large_an_answer_is_refused,
        an_answer_leaves_room_for_its_request,
        who_keeps_memory_is_closed,
        an_answer_waits_for_memory,
        blocks_that_take_all_memory_go_on,
        blocks_with_their_memory_go_on,
        a_report_is_said,
        idle_connections_hold_little,
        what_is_due_in_hours_is_done_by_the_clock,
        no_memory_closes_connections_alone,
        a_client_that_breaks_off_is_no_want_of_memory,
        operators_keep_their_descriptors,
        too_few_descriptors_for_operators_let_clients_in,
        no_memory_ends_nobody_else,
        a_store_ends_the_row_of_refusals,
        a_reserve_that_was_used_comes_back,
        names_of_operators_are_hosts,
    ):
        yield check.__name__, check, ()
    for name, case in GROUPS.items():
        yield f"the limit of a control group, {name}", the_limit_of_a_control_group_is_said, case
    for sizes in ((100,), (5_000,), (10_000,), (100, 5_000), (100, 10_000)):
        name = ", then ".join(map(str, sizes))
        yield f"no memory ends who is asked to, {name} bytes", no_memory_ends_who_is_asked_to, (sizes,)
    for size in (5_000, 10_000):
        yield f"refused stores are counted, {size} bytes", refused_stores_are_counted, (size,)
    for size, turns in ((10, 2_000), (1_000, 2_000), (10_000, 1_000), (100_000, 300), (1_000_000, 50)):
        yield f"without memory what is held is served, {size} bytes", without_memory_what_is_held_is_served, (size, turns)
    for at, (name, before) in enumerate(BEFORE.items()):
        yield f"each command is counted, {name}", each_command_is_counted, (at, before)
        yield f"commands are counted among many items, {name}", commands_are_counted_among_many_items, (at, before)


if __name__ == "__main__":
    if len(sys.argv) != 2:
        sys.exit(__doc__.strip().split("\n\n")[1])
    if not are_built(sys.argv[1]):
        sys.exit(1)
    PROGRAM = Program(sys.argv[1])
    sys.exit(tally(checks()))
