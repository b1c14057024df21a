#!/usr/bin/env python3
"""Tries a proxy in front of two servers: nutcracker (Debian: nutcracker), asked by pymemcache (python3-pymemcache).

The proxy spreads keys over both servers by ketama, forwards what it receives, and joins both servers' answers to one
request. Requests that it does not support (`version`, `flush_all`, `stats`) are not sent.
"""

import itertools
import os
import shutil
import subprocess
import sys

from pymemcache.client.base import Client
from trial import main
from with_pymemcache import as_mapping, compares, counts, each, limits, many, stores, unanswered

from servers import Proxy

PROGRAM = shutil.which("nutcracker", path=os.environ["PATH"] + ":/usr/sbin")


def calls(first, second):
    with Proxy(PROGRAM, [first.address, second.address]) as proxy:
        client = Client(("127.0.0.1", proxy.port), default_noreply=False, timeout=5)
        parts = (stores, counts, compares, many, unanswered, as_mapping, limits)
        yield from each("nutcracker", itertools.chain.from_iterable(part(client) for part in parts))


if __name__ == "__main__":
    version = subprocess.run([PROGRAM, "--version"], capture_output=True, text=True)
    print((version.stdout + version.stderr).strip())
    sys.exit(main(__doc__, calls))
