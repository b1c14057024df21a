#!/usr/bin/env python3
"""Asks a proxy one of whose servers is gone, by pymemcache or pylibmc, and prints the results as JSON: see lost.py.

Usage: lost_python.py KIND PLAN
"""

import json
import sys
import time


def pymemcache_client(plan, kind):
    from pymemcache.client.base import Client
    from pymemcache.client.hash import HashClient

    address = plan["host"], plan["port"]
    return HashClient([address]) if kind == "HashClient" else Client(address)


class Pylibmc:
    """pylibmc with the calls that pymemcache has."""

    def __init__(self, plan, kind):
        import pylibmc

        behaviors = {"_noreply": True} if kind == "noreply" else {}
        self.client = pylibmc.Client([f"{plan['host']}:{plan['port']}"], behaviors=behaviors)
        self.set, self.get, self.get_many = self.client.set, self.client.get, self.client.get_multi


KINDS = {"pymemcache": pymemcache_client, "pylibmc": Pylibmc}


def text_of(value):
    return value.decode() if isinstance(value, bytes) else value


class Trial:
    """The results of a client, counted."""

    def __init__(self, plan, client):
        self.plan, self.client = plan, client
        self.counts, self.least, self.slowest = dict.fromkeys(plan["counts"], 0), len(plan["living"]), 0

    def timed(self, call, *words):
        begun = time.monotonic()
        try:
            return call(*words)
        finally:
            self.slowest = max(self.slowest, time.monotonic() - begun)

    def count(self, what, key, call):
        try:
            value = text_of(self.timed(call, key))
        except Exception:
            self.counts[f"{what} raised"] += 1
            return
        said = "missed" if value is None else "right" if value == "v:" + key else "wrong"
        self.counts[f"{what} {said}"] += 1

    def store(self, key):
        try:
            done = self.timed(self.client.set, key, "v:" + key)
        except Exception:
            done = False
        self.counts["confirmed"] += bool(done)

    def page(self):
        try:
            values = self.timed(self.client.get_many, self.plan["living"] + self.plan["lost"])
        except Exception:
            self.least = 0
            self.counts["pages raised"] += 1
            return
        self.counts["pages wrong"] += any(text_of(value) != "v:" + text_of(key) for key, value in values.items())
        self.least = min(self.least, len([key for key in self.plan["living"] if key in values]))

    def run(self):
        for number in range(self.plan["rounds"]):
            living, lost = (self.plan[name][number % len(self.plan[name])] for name in ("living", "lost"))
            self.store(lost)
            self.count("living", living, self.client.get)
            self.count("lost", lost, self.client.get)
            if number % 10 == 0:
                self.page()
        return {**self.counts, "least": self.least, "slowest": self.slowest}


def main():
    library, _, kind = sys.argv[1].partition(" ")
    plan = json.loads(sys.argv[2])
    print(json.dumps(Trial(plan, KINDS[library](plan, kind)).run()))


main()
