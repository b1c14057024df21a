#!/usr/bin/env python3
"""Tries PHP's sessions on a server as Debian's packages set them, in the binary protocol: they are rejected (Debian: php-cli,
php-memcached).

It prints after how many seconds PHP said so. with_php.py has sessions in the text protocol.
"""

import json
import pathlib
import subprocess
import sys

from trial import main

SESSION = pathlib.Path(__file__).with_suffix(".php")
NO_BINARY = "no binary protocol"


def started(port):
    """Whether a session was started, and the setting by which it is in the binary protocol."""
    done = subprocess.run(["php", str(SESSION), str(port)], capture_output=True, timeout=60)
    binary, is_started, seconds, warnings = json.loads(done.stdout)
    print(f"{seconds:.2f} seconds until PHP said: {'; '.join(warnings) or 'started'}")
    return binary, is_started


def calls(first, second):
    yield "session_start at the defaults", lambda: started(first.port), ("1", False), NO_BINARY


if __name__ == "__main__":
    sys.exit(main(__doc__, calls))
