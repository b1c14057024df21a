#!/usr/bin/env python3
"""Refuses each allocation of a test in turn, and checks that the test still passes.

Usage: refused.py PROGRAM TEST [COUNT ..]     (crates/mc_server_tests/out/mc_server_tests_tests or crates/mc_pool_tests/out/mc_pool_tests_tests, as `rt ci`
or `rt test` built it, a test's name, and how many in a row are refused: once 1 and once 3, if none is given)

The program is run repeatedly with a library in front of the C library, which refuses the Nth allocation, for N from 1 until none is left to refuse,
and those after it too, COUNT in all. The test must make a call again that was refused memory, and then must find all as it would have been; or, if a
store was answered so, all else as the cache has it then. (If a store asks for one piece of memory, three refusals in a row may refuse several stores,
which the test does not foresee.) The library is that of refusing.py. A line is printed for each N at which the test fails; the last line is 'N
passed, M failed', one for each COUNT.
"""
import os
import pathlib
import subprocess
import sys
import tempfile

sys.path.insert(0, str(pathlib.Path(__file__).resolve().parents[1] / "lib"))

import refusing
from suite import are_built, counted


def refuses(library, program, test, count):
    """Refuses this many allocations of a test from each of them on, and returns whether any was refused and the test passed each time."""
    first, refused, is_so = 1, count, True
    while refused:
        ran, refused = refusing.run(library, [program, test], first, count, stdin=subprocess.DEVNULL)
        if ran.returncode:
            print(f"refused.py: {test} fails where allocation {first} is refused, {count} in all")
        is_so &= ran.returncode == 0
        first += 1
    if first == 2:
        print("refused.py: nothing was refused")
    return is_so and first > 2


def main(program, test, counts):
    with tempfile.TemporaryDirectory() as folder:
        library = refusing.build(folder)
        return counted([refuses(library, program, test, count) for count in counts])


if __name__ == "__main__":
    if len(sys.argv) < 3:
        sys.exit(__doc__)
    program, test, *counts = sys.argv[1:]
    sys.exit(main(os.path.realpath(program), test, list(map(int, counts)) or [1, 3]) if are_built(program) else 1)
