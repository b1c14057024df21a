#!/usr/bin/env python3
"""Writes a pool script of many events, to measure the cost of a world's step: `world.py 1000000 | mc_sim > /dev/null`.

Usage: world.py EVENTS [LOST]      (LOST: after each so many rounds a link is lost and comes back; 0, the default, is never)

3 servers, 8 clients, keys of 20 bytes, values of 100. A round is a set or a get of each client, each taken, sent, served, replied and
answered: 8 events a request.
"""
import pathlib
import sys

sys.path.insert(0, str(pathlib.Path(__file__).resolve().parents[1] / "tests" / "lib"))

from rings import Ring

SERVERS = [f"127.0.0.1:{11211 + number}" for number in range(3)]
CLIENTS = 8


def request(number, key):
    if number % 4 == 0:
        return f"set {key} 0 0 100\\r\\n{'v' * 100}\\r\\n"
    return f"get {key}\\r\\n"


def main():
    events = int(sys.argv[1])
    lost = int(sys.argv[2]) if len(sys.argv) > 2 else 0
    ring = Ring(SERVERS)
    keys = [f"key-{number:016}" for number in range(1000)]
    owners = [ring.owner(key.encode()) for key in keys]
    generations = [1] * 3
    lines = [f"pool 3 {CLIENTS} 67108864 65536"]
    number = 0
    while len(lines) <= events:
        for client in range(CLIENTS):
            at = number * 7 % 1000
            place = owners[at]
            lines += [
                f"bytes {client} {request(number, keys[at])}",
                f"turn {client}",
                f"toserver {place} {generations[place]} all",
                f"serve {place} {generations[place]} {100 + number // 1000}",
                f"toproxy {place} all",
                f"reply {place}",
                f"emit {client}",
                f"takes {client} all",
            ]
            number += 1
        if lost and number % (lost * CLIENTS) == 0:
            place = number // CLIENTS % 3
            lines += [f"lost {place}", f"end {place} {generations[place]}", f"back {place}"]
            generations[place] += 1
    print("\n".join(lines[: events + 1]))


main()
