#!/usr/bin/env python3
"""Refuses each allocation of mc_sim in turn, over each script of tests/examples/ that has a line, and checks the outcome.

Usage: refused_scripts.py [PROGRAM]      (crates/mc_sim/out/mc_sim, as it was built)

If an allocation is refused, there are three right outcomes. mc_sim ends with status 4, says that it is out of memory, and has printed
nothing. Or all is as if none were refused. Or one store is refused: it is answered `SERVER_ERROR out of memory storing object`, and all
else is the output of a model that then leaves its items, their order and its numbers as they were (model.py, pool_model.py). The
library that refuses is that of refusing.py. The script prints a line for each script that fails; the last line is 'N passed, M failed'.

Scripts of a link that is lost, and of a get whose keys two servers have, are played over each store that mc_sim has.

A script of a server and one of a pool, each of 3,000 lines, are played too. Of their allocations only those of 16,384 bytes or more are
refused in turn: the growths of a list that has many lines.

A script NAME.txt that has a NAME.refused is played over each store, with one, two or three allocations refused from each on
(a block that is refused is asked for once more): one of these runs must print what that file has.
"""
import concurrent.futures
import functools
import itertools
import os
import pathlib
import subprocess
import sys
import tempfile

sys.path.insert(0, str(pathlib.Path(__file__).resolve().parents[1] / "lib"))

import pool_model
import refusing
from model import Fault, Server, is_of_pool, lines_of, printed, settings
from pool_script import Script
from suite import are_built, built, counted, examples

NO_MEMORY = "SERVER_ERROR out of memory storing object"
GIVES_UP = (4, b"", b"mc_sim: out of memory\n")
OVER_EACH_STORE = (
    "pool_keys_of_two_servers_the_second_replies_first",
    "pool_a_lost_command_is_served_after_a_newer_one",
    "pool_a_lost_command_is_dropped_by_a_drain",
)
MANY_LINES = 3_000
GROWTH = 16_384


class Stores:
    """The stores of all servers of a play: one of them finds no memory, that of this number, counted from 1."""

    def __init__(self, refused):
        self.left = refused

    def server(self, *words):
        return Refusing(self, *words)


class Refusing(Server):
    """A server whose stores are counted."""

    def __init__(self, stores, *words):
        super().__init__(*words)
        self.stores = stores

    def put(self, *item):
        before = self.items, self.counter
        made = super().put(*item)
        self.stores.left -= 1
        if self.stores.left == 0:
            self.items, self.counter = before
            raise Fault(NO_MEMORY)
        return made


def printed_with(stores, script):
    lines = lines_of(script)
    if is_of_pool(script):
        return pool_model.printed(pool_model.played(Script(lines), stores.server))
    return printed(lines, stores.server(*settings(lines)))


def with_one_refused(script):
    """The output if one store is refused, for each store."""
    told = set()
    for refused in itertools.count(1):
        stores = Stores(refused)
        text = printed_with(stores, script)
        if stores.left > 0:
            return told
        told.add(text.encode())


def run(library, words, script, number, count=1, least=0):
    """The status, the output and the errors of a run with this many allocations refused from this one on, and whether there was one."""
    ran, refused = refusing.run(library, words, number, count, least, input=script)
    return (ran.returncode, ran.stdout, ran.stderr), refused > 0


def fault_of(library, script, words):
    """The fault if an allocation of a script is refused, if any."""
    calm, _ = run(library, words, script, 0)
    others = with_one_refused(script) if calm[0] == 0 else set()
    for number in itertools.count(1):
        ended, was_refused = run(library, words, script, number)
        if not was_refused:
            return None if number > 1 else "nothing was refused"
        status, output, errors = ended
        if ended not in (GIVES_UP, calm) and (status, errors, output in others) != (0, b"", True):
            return f"wrong where allocation {number} is refused"


def long_scripts():
    """A script of a server, and one of a pool, of this many lines: a client counts."""
    rounds = MANY_LINES // 2
    alone = [line for number in range(rounds) for line in (rf"bytes 0 set k{number % 99} 0 0 1\r\n{number % 10}\r\n", "turn 0 1")]
    steps = (r"bytes 0 incr n 1\r\n", "turn 0", "toserver 0 1 all", "serve 0 1 100", "toproxy 0 all", "reply 0")
    pool = [r"bytes 0 set n 0 0 1\r\n0\r\n", *steps[1:], *(step for _ in range(rounds // 3 - 1) for step in steps), "drain 200", "emit 0"]
    for lines in ["server 1 67108864 1000", *alone], ["pool 1 1 67108864 1000", *pool]:
        yield "\n".join([*lines, ""]).encode()


def fault_of_long(library, script, words):
    """The fault if a growth of a list of many lines is refused, or if none is, if any."""
    calm, _ = run(library, words, script, 0)
    if calm != (0, printed_with(Stores(0), script).encode(), b""):
        return "is not played as the model plays it"
    for number in itertools.count(1):
        ended, was_refused = run(library, words, script, number, least=GROWTH)
        if not was_refused:
            return None if number > 2 else "too few growths were refused"
        if ended != GIVES_UP:
            return f"wrong where growth {number} is refused: {ended}"


def stores(program):
    """The words for each store that mc_sim has; none, if it has only one."""
    words = [["--store", name] for name in ("list", "lru", "table")]
    script = examples()[0].read_bytes()
    return [each for each in words if subprocess.run([program, *each], input=script, capture_output=True).returncode == 0] or [[]]


def is_printed(library, words, script, wanted):
    """Whether a script prints this if some allocations are refused."""
    for count in (1, 2, 3):
        for number in itertools.count(1):
            ended, was_refused = run(library, words, script, number, count)
            if ended == (0, wanted, b""):
                return True
            if not was_refused:
                break
    return False


def are_refused(library, program, scripts):
    """Reports for each script that has a text for a refusal, over each store, whether the text is printed."""
    for script in scripts:
        wanted = script.with_suffix(".refused")
        for words in stores(program) if wanted.is_file() else ():
            printed = is_printed(library, [program, *words], script.read_bytes(), wanted.read_bytes())
            if not printed:
                print(f"{script}: no refusal prints {wanted.name}, {' '.join(words)}")
            yield printed


def played(program, scripts):
    """For each script its name in a line on its failure, its text, and the words that play it."""
    for script in scripts:
        yield script, script.read_bytes(), [program]
        for words in stores(program) if script.stem in OVER_EACH_STORE else ():
            yield f"{script} {' '.join(words)}", script.read_bytes(), [program, *words]


def main(program):
    scripts = [path for path in examples() if path.stat().st_size]
    with tempfile.TemporaryDirectory() as folder, concurrent.futures.ThreadPoolExecutor(os.cpu_count()) as pool:
        library = refusing.build(folder)
        names, texts, words = zip(*played(program, scripts))
        faults = list(pool.map(functools.partial(fault_of, library), texts, words))
        long = dict(zip(("a server's script of 3,000 lines", "a pool's script of 3,000 lines"), long_scripts()))
        faults += pool.map(functools.partial(fault_of_long, library), long.values(), [[program]] * len(long))
        refused = list(are_refused(library, program, scripts))
    for name, fault in zip([*names, *long], faults):
        if fault:
            print(f"{name}: {fault}")
    return counted([fault is None for fault in faults] + refused)


if __name__ == "__main__":
    if len(sys.argv) > 2:
        sys.exit(__doc__)
    program = pathlib.Path(sys.argv[1]).resolve() if sys.argv[1:] else built("mc_sim")
    sys.exit(main(program) if are_built(program) else 1)
