#!/usr/bin/env python3
"""Tries each call that PHP's Memcached has on a server, in the text protocol (Debian: php-cli, php-memcached).

The calls are in with_php.php; here they are counted.
"""

import json
import pathlib
import subprocess
import sys

from trial import main

CALLS = pathlib.Path(__file__).with_suffix(".php")
VERSIONS = 'echo "PHP ", PHP_VERSION, ", its memcached ", phpversion("memcached"), "\n";'
LIBRARY = '(new ReflectionExtension("memcached"))->info();'


def calls(first, second):
    words = ["php", str(CALLS), str(first.port), str(second.port)]
    done = subprocess.run(words, capture_output=True, timeout=120)
    for line in done.stdout.splitlines():
        name, got, wanted, differs = json.loads(line)
        yield name, lambda: "|" + got, "|" + wanted, differs
    yield "with_php.php to its end", lambda: (done.returncode, done.stderr.decode()), (0, "")


if __name__ == "__main__":
    print(subprocess.run(["php", "-r", VERSIONS], capture_output=True, text=True).stdout, end="")
    library = subprocess.run(["php", "-r", LIBRARY], capture_output=True, text=True).stdout
    print(*(line for line in library.splitlines() if line.startswith("libmemcached library")), sep="\n")
    sys.exit(main(__doc__, calls))
