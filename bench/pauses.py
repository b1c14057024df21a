#!/usr/bin/env python3
"""Measures how long a client's gets take while another client loads the same server, or the same proxy.

Usage: pauses.py SERVER [--beside PROGRAM] [--mixes NAME,NAME ..] [--items N] [--times N] [--words WORDS]
       pauses.py SERVER --through PROXY [--beside PROGRAM] [--mixes NAME,NAME ..] [--seconds S] [--words WORDS]

SERVER is the built mc_serverd, beside Debian's memcached with one thread. Each is filled with N items (4,000,000) of 20 and 100 bytes.
Then one client sends requests in pipelines of 50, --times (3) of them for each item. Another client, a process of its own, gets one key
at a time and measures each get. The mixes:

    new      stores of new keys, whose values have 100 bytes
    sizes    stores of new keys, whose values shrink and grow from 10 to 400 bytes
    deletes  as new, but three in ten requests delete a key that was stored half as many keys before as there are items
    flush    as new, with a flush_all each ten seconds
    block    50 stores of 1,000,000 bytes, each under a new key, into a server that is full of items of one byte and keys of up to
             7 bytes; then 50 stores under the last of these keys, which evict nothing. A table shows how long these stores take, too

With --through, PROXY is the built mc_proxyd in front of two SERVERs, beside Debian's nutcracker in front of two memcached (an mc_proxyd
after --beside has SERVERs too). They have 100,000 items of 20 and 100 bytes, and the other client loads the proxy for S seconds (10):

    alone    there is no other client
    keys     gets of 32,000 keys of one byte, or of as many as the proxy answers: 16,000, 8,000 and so on. They repeat 52 stored keys
    blocks   stores of 1,000,000 bytes
    unread   pipelines of gets, but it reads no answer. When the proxy takes nothing for half a second, it closes its connection and opens
             another. In this mix a proxy may take 4 GB of addresses

On four processors or more each client has one of its own, a server the others, and a proxy and the servers behind it one each.
--words gives SERVER, or PROXY, further options. The output is a table in Markdown: how many gets took how many milliseconds, and the
longest. The last line says for how long a virtual machine's processors stood still: a get waits then whatever the server does.
"""

import argparse
import contextlib
import datetime
import os
import pathlib
import sys

HERE = pathlib.Path(__file__).resolve().parent
sys.path.insert(0, str(HERE.parent / "tests" / "lib"))
sys.path.insert(0, str(HERE))

import pause_loads
from pause_loads import BLOCKS, COST_OF_AN_ITEM, KEY_SIZE, VALUE_SIZE, Waits, Watcher, keep
from servers import Proxy, Server, connected, is_nutcracker

MIXES = ["new", "sizes", "deletes", "flush", "block"]
MIXES_OF_PROXIES = {
    "alone": pause_loads.wait,
    "keys": pause_loads.get_many_keys,
    "blocks": pause_loads.store_blocks,
    "unread": pause_loads.leave_unread,
}
MOST_ITEMS = 16_777_216
ITEMS_BEHIND_PROXIES = 100_000
BUDGET_BEHIND_PROXIES = 256 * 2**20
COST_OF_A_SMALL_ITEM = COST_OF_AN_ITEM + 7 + 1


def rounded(number):
    return f"{number:,.1f}" if 0 < number < 100 else f"{number:,.0f}"


def row(program, other, items, load, waits):
    rate = load.requests / load.seconds
    cells = [pathlib.Path(program).name, other, f"{items:,}", rounded(load.seconds), rounded(rate), *waits.cells()]
    print("| " + " | ".join(cells) + " |", flush=True)


@contextlib.contextmanager
def filled(program, budget, items, words, fill):
    """A server, and a connection over which it was filled."""
    with Server(program, budget, items, words=words) as server, connected(server.port, timeout=60) as connection:
        keep(server.process.pid, "server")
        fill(connection)
        yield server, connection


def measure(program, words, asked, mix):
    items = asked.items
    budget = items * (KEY_SIZE + VALUE_SIZE + COST_OF_AN_ITEM) * 11 // 10
    pipelines = pause_loads.Pipelines(mix, items)
    with filled(program, budget, items, words, pipelines.fill) as (server, connection):
        with Watcher(server.port, pause_loads.GETS[:1]) as watcher:
            load = pipelines.run(connection, items * asked.times)
    row(program, load.note, items, load, watcher.waits)


def measure_blocks(program, words, items):
    """Stores of large values into a server that is full of the smallest items."""
    small = pause_loads.SmallItems(3 * items)  # memcached is full by then, too: it has more memory
    with filled(program, items * COST_OF_A_SMALL_ITEM, min(2 * items, MOST_ITEMS), words, small.fill) as (server, connection):
        for what, keys in (("new keys", range(BLOCKS)), ("one key", [BLOCKS - 1] * BLOCKS)):
            stores = Waits()
            with Watcher(server.port, [small.last_get()]) as watcher:
                load = pause_loads.store_block_each(connection, keys, stores)
            row(program, f"block: the stores, {what}{load.note}", items, load, stores)
            row(program, f"block: gets beside stores, {what}", items, load, watcher.waits)


def started_proxy(stack, program, server, words, limits):
    """A proxy in front of two servers, filled."""
    behind = [stack.enter_context(Server(server, BUDGET_BEHIND_PROXIES, 2 * ITEMS_BEHIND_PROXIES)) for _ in range(2)]
    for each in behind:
        keep(each.process.pid, "behind")
    proxy = stack.enter_context(Proxy(program, [each.address for each in behind], words, limits))
    keep(proxy.process.pid, "proxy")
    with connected(proxy.port, timeout=60) as connection:
        pause_loads.Pipelines("new", ITEMS_BEHIND_PROXIES).fill(connection)
        pause_loads.store_letters(connection)
    return proxy


def measure_proxy(program, server, words, mix, seconds):
    limits = pause_loads.LIMITS if mix == "unread" else ()
    with contextlib.ExitStack() as stack:
        proxy = started_proxy(stack, program, server, words, limits)
        with Watcher(proxy.port, pause_loads.GETS) as watcher:
            load = MIXES_OF_PROXIES[mix](proxy.port, seconds)
        most = proxy.memory("VmHWM") / 2**20
    row(program, f"{load.note}; the proxy took {most:,.0f} MB at most", ITEMS_BEHIND_PROXIES, load, watcher.waits)


def measure_mix(program, asked, mix):
    words = asked.words.split() if program != asked.beside else ()
    if asked.through:
        server = "memcached" if is_nutcracker(program) else asked.server
        measure_proxy(program, server, words, mix, asked.seconds)
    elif mix == "block":
        measure_blocks(program, words, asked.items)
    else:
        measure(program, words, asked, mix)


def stolen():
    """How many seconds the machine's processors stood still so far, since its own host ran something else."""
    fields = pathlib.Path("/proc/stat").read_text().split("\n", 1)[0].split()
    return int(fields[8]) / os.sysconf("SC_CLK_TCK")


def run(asked):
    steps = pause_loads.STEPS
    head = ["Program", "The other client", "Items", "Seconds", "Its requests a second", f"Below {steps[0]} ms"]
    head += [*(f"{low} to {high}" for low, high in zip(steps, steps[1:])), f"{steps[-1]} and more", "Longest"]
    print(f"{datetime.datetime.now():%Y-%m-%d %H:%M}, {os.cpu_count()} processors; load at the start {os.getloadavg()[0]:.2f}.\n")
    print("| " + " | ".join(head) + " |\n|" + "---|" * len(head), flush=True)
    start = stolen()
    for mix in asked.mixes:
        for program in (asked.through or asked.server, asked.beside):
            try:
                measure_mix(program, asked, mix)
            except (EOFError, OSError) as error:
                print(f"| {pathlib.Path(program).name} | {mix}: ended by {error!r} |", flush=True)
    print(f"\nLoad of the machine at the end: {os.getloadavg()[0]:.2f}; its host held its processors back for {stolen() - start:.1f} seconds.")


def main():
    words = argparse.ArgumentParser(description=__doc__, formatter_class=argparse.RawDescriptionHelpFormatter)
    words.add_argument("server", metavar="SERVER")
    words.add_argument("--through", metavar="PROXY")
    words.add_argument("--beside", metavar="PROGRAM", help="memcached, or for a proxy nutcracker")
    words.add_argument("--mixes", help="the names of some, with commas (new; with --through all)")
    words.add_argument("--items", metavar="N", type=int, default=4_000_000)
    words.add_argument("--times", metavar="N", type=int, default=3, help="requests for each item (3)")
    words.add_argument("--seconds", metavar="S", type=float, default=10, help="of each mix of a proxy (10)")
    words.add_argument("--words", default="")
    asked = words.parse_args()
    names = list(MIXES_OF_PROXIES) if asked.through else MIXES
    asked.mixes = asked.mixes.split(",") if asked.mixes else names if asked.through else ["new"]
    asked.beside = asked.beside or ("nutcracker" if asked.through else "memcached")
    if not set(asked.mixes) <= set(names):
        words.error(f"the mixes are {', '.join(names)}")
    if not 1_000 <= asked.items <= MOST_ITEMS:
        words.error(f"a server has 1,000 to {MOST_ITEMS:,} items")
    keep(0, "load")
    run(asked)


if __name__ == "__main__":
    main()
