#!/usr/bin/env python3
"""Computes what the servers of a pool get: each one's share of the keys and of the requests, the keys that move when a server joins or
leaves, the cost of a lost server, connections, memory, processors and machines.

Usage: scale.py [--write | --check | --beside MC_SIM]

It prints its tables. Those of ON_THE_PAGE are in docs/RUNNING.md: with --write each replaces the table there that begins with the same
row, and the picture docs/scale_shares.svg is drawn. --check compares both with what would be written, and the shares with the owners of
single keys. With --beside, MC_SIM is the built mc_sim: it plays pools in which 2,000 keys are set, and its account must name the owners
that the model names. The last line of both is 'N passed, M failed'.

The ring is the model of tests/lib/rings.py. A server's share of the keys is the part of the circle before its points: it is exact for a
great many keys. Its share of the requests is that of 1,000,000 keys by Zipf's law. Both depend on the addresses of the pool. So a
figure is the middle one of 20 pools of other addresses, and in brackets is the worst of them.
"""

import argparse
import bisect
import functools
import itertools
import math
import pathlib
import re
import statistics
import subprocess
import sys
from typing import NamedTuple

TOP = pathlib.Path(__file__).resolve().parent.parent
sys.path.insert(0, str(TOP / "tests" / "lib"))

import scale_picture
from checks import Wrong, tally, want
from rings import Ring, hash_of

DOCUMENT, PICTURE = TOP / "docs" / "RUNNING.md", TOP / "docs" / "scale_shares.svg"

SIZES = (2, 4, 8, 16, 32, 64)
MOST_SERVERS = 64
POOLS = 20
CIRCLE = 1 << 32
KEYS = 1_000_000
PLACED_KEYS = 100_000
EXPONENT = 0.99
HOTTEST = (1, 10, 100)
KEYS_OF_A_GET = 24
SAMPLE = 2_000


class Cost(NamedTuple):
    """Nanoseconds of processor time of a request: of the server that does it, and of the proxy that it goes through."""

    server: float
    proxy: float


def nine_gets_to_a_set(get, put):
    return get * 0.9 + put * 0.1


# The cost of a request, by bench/serve.py on 2026-11-23: a get and a set, one at a time and 32 at a time, with keys of 20 bytes and values
# of 100. docs/RUNNING.md, "Planning for many servers", is computed from them.
COSTS_OF_A_POOL = {
    "one at a time": Cost(nine_gets_to_a_set(5_348, 5_681), nine_gets_to_a_set(10_305, 12_523)),
    "32 at a time": Cost(nine_gets_to_a_set(861, 1_118), nine_gets_to_a_set(2_423, 2_188)),
}

# How many times as much a request costs if few arrive together: bench/scale_load.py over 64 servers and 8 proxies, each server 1 or 2 per
# cent busy, beside 2 servers and 1 proxy in the same minutes, 2026-11-25.
FEW_TOGETHER = {"one at a time": Cost(3.0, 1.7), "32 at a time": Cost(4.8, 2.3)}

# Bytes that a proxy has resident: at its start and for each link under load by bench/scale_load.py; for each client that sends 8 gets at a
# time by bench/serve.py (500 clients), and for each that sends 100 sets at a time by bench/scale_load.py.
START_OF_A_PROXY, LINK_OF_A_PROXY = 2_000_000, 6_500
CLIENTS_OF_A_PROXY = {"8 gets at a time": 9_400, "100 sets at a time": 96_000}

BUSY = 0.6  # the most that a processor should be busy
PROCESSORS_OF_A_MACHINE = 16
MOST_CONNECTIONS = 1_024  # of a server, and clients of a proxy
BYTES_OF_A_REQUEST = nine_gets_to_a_set(167, 144)  # with its answer, without the network's overhead
RATES = (1_000_000,)
POOLS_OF_PROXIES = ((1, 8), (8, 64), (64, 64), (256, 64), (1_024, 64))


# Shares.


def servers_of(pool, count):
    """The addresses of the servers of a pool."""
    return [f"10.0.{pool}.{number}:11211" for number in range(1, count + 1)]


@functools.cache
def ring_of(pool, count):
    """The ring of the first servers of a pool: those points of its ring of 64 servers that are theirs."""
    if count == MOST_SERVERS:
        return Ring(servers_of(pool, count))
    ring = Ring([])
    ring.points = [each for each in ring_of(pool, MOST_SERVERS).points if each[1] < count]
    return ring


def key_of(rank):
    return b"key-%016d" % rank


def circle_up_to(hash):
    """The part of all hashes that is at most this one."""
    return (hash + 1) / CIRCLE


class Requests:
    """The requests of clients: the key of a rank, from 1 on, is asked for as often as 1 / rank ** EXPONENT says.

    The hottest keys are at their hashes. All others are so many, and each so rare, that they count as spread evenly.
    """

    def __init__(self):
        weights = [rank**-EXPONENT for rank in range(1, KEYS + 1)]
        sums = list(itertools.accumulate(weights))
        self.total, self.rest = sums[-1], sums[-1] - sums[PLACED_KEYS - 1]
        self.by_rank = sums
        placed = sorted((hash_of(key_of(rank)), weights[rank - 1]) for rank in range(1, PLACED_KEYS + 1))
        self.hashes = [hash for hash, _ in placed]
        self.sums = list(itertools.accumulate((weight for _, weight in placed), initial=0.0))

    def up_to(self, hash):
        """The part of the requests whose keys have at most this hash."""
        return (self.sums[bisect.bisect_right(self.hashes, hash)] + self.rest * circle_up_to(hash)) / self.total

    def of_the_hottest(self, count):
        return self.by_rank[count - 1] / self.total


def arcs(ring):
    """The parts of the circle in turn: the last hash of each, and the place of its owner. Of equal points the second has no hash."""
    return [*ring.points, (CIRCLE - 1, ring.points[0][1])]


def shares(ring, count, up_to):
    """Each server's part of the whole, as `up_to` counts it."""
    parts, before = [0.0] * count, 0.0
    for last, place in arcs(ring):
        counted = up_to(last)
        parts[place] += counted - before
        before = counted
    return parts


class Pools:
    """The shares of all pools of all sizes, and the figures that follow from them."""

    def __init__(self):
        self.requests = Requests()
        self.keys_of = functools.cache(lambda pool, count: shares(ring_of(pool, count), count, circle_up_to))
        self.requests_of = functools.cache(lambda pool, count: shares(ring_of(pool, count), count, self.requests.up_to))

    def each(self, figure, count):
        """A figure of each pool of this size."""
        return [figure(pool, count) for pool in range(POOLS)]

    def greatest(self, pool, count):
        """The greatest share of the keys, as a multiple of an even one."""
        return max(self.keys_of(pool, count)) * count

    def busiest(self, pool, count):
        """The greatest share of the requests."""
        return max(self.requests_of(pool, count))

    def moved(self, pool, count):
        """The part of the keys that the last server of this many took when it joined."""
        return self.keys_of(pool, count)[-1]

    def growth(self, pool, count):
        """By how much the server grows most that takes over from the last one when it leaves the list."""
        before, after = self.keys_of(pool, count), self.keys_of(pool, count - 1)
        return max(now / then for then, now in zip(before, after))

    def ratio(self, count):
        """How many times an even share the fullest server has, in the middle of the pools."""
        return statistics.median(self.each(self.greatest, count))

    def hottest_ratio(self, count):
        """How many times an even share of the requests the busiest server has, in the middle of the pools."""
        return statistics.median(self.each(self.busiest, count)) * count


# Tables.


def percent(part, digits=1):
    return f"{in_percent(part, digits)} %"


def in_percent(part, digits=1):
    """A part in a column whose head says that it is in percent."""
    return f"{part * 100:.{digits}f}"


def times(ratio):
    return f"{ratio:.2f}"


def middle(values, form, worst):
    """The middle one of some figures, and the worst."""
    return f"{form(statistics.median(values))} ({form(worst(values))})"


def range_of(values, form):
    return f"{form(statistics.median(values))} ({form(min(values))} to {form(max(values))})"


def table(head, rows):
    first, *others = (f"| {' | '.join(line)} |" for line in (head, *rows))
    return [first, "|" + "---|" * len(head), *others]


def table_of_shares(pools):
    """The least and the greatest share of a server, as multiples of an even one."""
    rows = []
    for count in SIZES:
        least = [min(parts) * count for parts in pools.each(pools.keys_of, count)]
        least_asked = [min(parts) * count for parts in pools.each(pools.requests_of, count)]
        most_asked = [each * count for each in pools.each(pools.busiest, count)]
        rows.append([
            str(count),
            percent(1 / count),
            middle(least, times, min),
            middle(pools.each(pools.greatest, count), times, max),
            middle(least_asked, times, min),
            middle(most_asked, times, max),
            middle(pools.each(pools.busiest, count), percent, max),
        ])
    head = ["Servers", "Even share", "Keys, least", "Keys, most", "Requests, least", "Requests, most", "The busiest server's requests"]
    return table(head, rows)


def table_of_hot_keys(pools):
    rows = [[f"{count:,}", in_percent(pools.requests.of_the_hottest(count))] for count in HOTTEST]
    return table(["The hottest keys", "% of all requests"], rows)


def table_of_moves(pools):
    rows = []
    for count in SIZES:
        rows.append([
            f"{count - 1} and {count}",
            percent(1 / count),
            range_of(pools.each(pools.moved, count), percent),
            middle(pools.each(pools.growth, count), times, max),
        ])
    return table(["Servers without and with it", "Even share", "Keys that move", "Another server grows at most by"], rows)


def part_with_a_lost_key(count):
    """The part of the gets of many keys that name a key of one lost server."""
    return 1 - (1 - 1 / count) ** KEYS_OF_A_GET


def table_of_losses(pools):
    rows = []
    for count in SIZES:
        fullest = [share / count for share in pools.each(pools.greatest, count)]
        rows.append([str(count), percent(1 / count), middle(fullest, percent, max), percent(part_with_a_lost_key(count))])
    head = ["Servers, one of them lost", "Keys that fail", "If it is the fullest", f"Gets of {KEYS_OF_A_GET} keys that fail"]
    return table(head, rows)


def megabytes(bytes):
    return f"{bytes / 1e6:,.0f} MB" if bytes < 10e9 else f"{bytes / 1e9:,.0f} GB"


def table_of_connections(_):
    rows = []
    for proxies, servers in POOLS_OF_PROXIES:
        clients = proxies * MOST_CONNECTIONS
        idle = START_OF_A_PROXY + servers * LINK_OF_A_PROXY
        full = [idle + MOST_CONNECTIONS * each for each in CLIENTS_OF_A_PROXY.values()]
        rows.append([
            f"{proxies:,}",
            str(servers),
            f"{proxies * servers:,}",
            f"{proxies:,}",
            f"{clients:,}",
            f"{clients * servers:,}",
            *(megabytes(proxies * each) for each in full),
        ])
    head = [
        "Proxies", "Servers", "Links", "Connections of a server", "Clients at most", "Connections without proxies",
        *(f"Memory of all proxies, {way}" for way in CLIENTS_OF_A_PROXY),
    ]
    return table(head, rows)


def carried(cost, share):
    """Requests a second of a pool whose busiest server gets this share of them."""
    return BUSY * 1e9 / cost.server / share


def to_two_digits(rate):
    """A rate to two digits: no more of them are significant."""
    digits = 2 - len(str(round(rate)))
    return f"{round(rate, digits):,.0f}"


def table_of_pools(pools):
    rows = []
    for count in SIZES:
        fullest = [share / count for share in pools.each(pools.greatest, count)]
        even, zipf = pools.ratio(count) / count, pools.hottest_ratio(count) / count
        rates = [carried(COSTS_OF_A_POOL["one at a time"], share) for share in (even, zipf)]
        rows.append([
            str(count),
            middle(fullest, in_percent, max),
            middle(pools.each(pools.busiest, count), in_percent, max),
            in_percent(statistics.median(pools.each(pools.moved, count))),
            in_percent(part_with_a_lost_key(count)),
            *map(to_two_digits, rates),
        ])
    head = [
        "Servers", "Fullest: % of keys", "Busiest: % of requests", "Join of the last: % of keys that move",
        f"Loss: % of gets of {KEYS_OF_A_GET} keys that fail", "Requests a second, even keys", "By Zipf's law",
    ]
    return table(head, rows)


def servers_for(pools, rate, cost):
    """How many servers a rate of even keys needs; beyond 64 they are of several pools."""
    for count in SIZES:
        needed = math.ceil(rate * cost.server / 1e9 * pools.ratio(count) / BUSY)
        if needed <= count:
            break
    return needed


def programs_for(pools, rate, cost):
    """How many servers and how many proxies a rate needs."""
    return servers_for(pools, rate, cost), math.ceil(rate * cost.proxy / 1e9 / BUSY)


def table_of_machines(pools):
    rows = []
    for rate, (way, cost) in itertools.product(RATES, COSTS_OF_A_POOL.items()):
        servers, proxies = programs_for(pools, rate, cost)
        more = FEW_TOGETHER[way]
        dear = programs_for(pools, rate, Cost(cost.server * more.server, cost.proxy * more.proxy))
        rows.append([
            f"{rate:,}",
            way,
            f"{servers:,}",
            f"{proxies:,}",
            f"{math.ceil((servers + proxies) / PROCESSORS_OF_A_MACHINE):,}",
            f"{math.ceil(sum(dear) / PROCESSORS_OF_A_MACHINE):,}",
            f"{rate * BYTES_OF_A_REQUEST * 8 / 1e9:,.1f}",
        ])
    head = [
        "Requests a second", "A client asks", "Servers", "Proxies", f"Machines of {PROCESSORS_OF_A_MACHINE} processors",
        "Machines, if few come together", "Gbit a second",
    ]
    return table(head, rows)


TABLES = {
    "shares of keys and requests": table_of_shares,
    "hot keys": table_of_hot_keys,
    "a server joins or leaves": table_of_moves,
    "a lost server": table_of_losses,
    "connections and memory": table_of_connections,
    "pools": table_of_pools,
    "machines": table_of_machines,
}
ON_THE_PAGE = "hot keys", "pools", "machines"


# The document and the picture.


def place_of(lines, made):
    """The first and the last line of the table that begins with the same row; an error if there is none."""
    if made[0] not in lines:
        raise Wrong(f"no table begins with {made[0]}")
    start = end = lines.index(made[0])
    while end < len(lines) and lines[end].startswith("|"):
        end += 1
    return start, end


def table_is_as_computed(pools, make):
    made, lines = make(pools), DOCUMENT.read_text().splitlines()
    start, end = place_of(lines, made)
    for got, wanted in itertools.zip_longest(lines[start:end], made):
        want(got, wanted)


def picture_of(pools):
    """The picture of the first pool of each size."""
    drawn = {}
    for count in SIZES:
        parts = pools.keys_of(0, count), pools.requests_of(0, count)
        drawn[count] = [[part * count for part in each] for each in parts]
    return scale_picture.picture(drawn)


def picture_is_as_drawn(pools):
    if PICTURE.read_text() != picture_of(pools):
        raise Wrong(f"{PICTURE.name} is not the picture of these shares")


def write(pools):
    lines = DOCUMENT.read_text().splitlines()
    for name in ON_THE_PAGE:
        made = TABLES[name](pools)
        start, end = place_of(lines, made)
        lines[start:end] = made
    DOCUMENT.write_text("\n".join(lines) + "\n")
    PICTURE.write_text(picture_of(pools))


# Checks.


def shares_are_those_of_single_keys(pools, count):
    """A key belongs to the server whose part of the circle it is in. Without the last server it belongs to the same one, or was the
    last one's."""
    whole, without = Ring(servers_of(0, count)), Ring(servers_of(0, count - 1))
    parts = arcs(ring_of(0, count))
    lasts = [last for last, _ in parts]
    for rank in range(1, SAMPLE + 1):
        key = key_of(rank)
        place = whole.owner(key)
        want((key, parts[bisect.bisect_left(lasts, hash_of(key))][1]), (key, place))
        if place != count - 1:
            want((key, without.owner(key)), (key, place))
    for each in (pools.keys_of(0, count), pools.requests_of(0, count)):
        want(round(math.fsum(each), 9), 1.0)


def checks(pools):
    for name in ON_THE_PAGE:
        yield name, table_is_as_computed, (pools, TABLES[name])
    yield "picture", picture_is_as_drawn, (pools,)
    for count in SIZES:
        yield f"single keys of {count} servers", shares_are_those_of_single_keys, (pools, count)


# Beside the program.

TAKEN = re.compile(r"^server (\d+), client 0, request (\d+), command 0, ", re.M)


def program_names_the_same_owners(program, count):
    """mc_sim's pools are of 127.0.0.1:11211 and the ports after it. Its account shows which server took the set of each key."""
    sets = [f"bytes 0 set {key_of(rank).decode()} 0 0 1\\r\\nx\\r\\n\ndrain 100" for rank in range(SAMPLE)]
    script = "\n".join([f"pool {count} 1 67108864 65536", *sets]) + "\n"
    told = subprocess.run([program, "--account"], input=script, capture_output=True, text=True, check=True).stdout
    owners = {int(request): int(server) for server, request in TAKEN.findall(told)}
    ring = Ring([f"127.0.0.1:{11211 + place}" for place in range(count)])
    want(owners, {rank: ring.owner(key_of(rank)) for rank in range(SAMPLE)})


def main():
    words = argparse.ArgumentParser(description=__doc__, formatter_class=argparse.RawDescriptionHelpFormatter)
    ways = words.add_mutually_exclusive_group()
    ways.add_argument("--write", action="store_true")
    ways.add_argument("--check", action="store_true")
    ways.add_argument("--beside", metavar="MC_SIM")
    asked = words.parse_args()
    if asked.beside:
        return tally((f"{count} servers", program_names_the_same_owners, (asked.beside, count)) for count in (1, *SIZES))
    pools = Pools()
    if asked.check:
        return tally(checks(pools))
    if asked.write:
        write(pools)
        return 0
    for name, make in TABLES.items():
        print(f"{name}:\n", *make(pools), "", sep="\n")
    return 0


if __name__ == "__main__":
    sys.exit(main())
