#!/usr/bin/env python3
"""Checks that no cut of a client's bytes matters: each beginning of them is answered by a beginning of the answers, and if they arrive
in two pieces, wherever they are cut, the answers are equal.

Usage: prefixes.py [PROGRAM]      (crates/mc_sim/out/mc_sim, as it was built)

The bytes are those of each server script of tests/examples/ that has one client and at most 1,000 bytes. Each beginning, and each pair
of pieces, is played to mc_sim, with a turn of each piece for each of its lines and one more, and the output is compared with the
answers of a model if nothing is cut (model.py). Each has a new server if items' numbers are compared; all others of a script are
clients of one, each after a flush, so that the items of another are gone, and only numbers continue. The script prints a line for each
script that fails; the last line is 'N passed, M failed'.
"""
import concurrent.futures
import os
import pathlib
import re
import subprocess
import sys

sys.path.insert(0, str(pathlib.Path(__file__).resolve().parents[1] / "lib"))

from model import Connection, Server, escaped, is_of_pool, lines_of, settings, unescaped
from suite import are_built, built, counted, examples

MOST = 1_000  # bytes of a client
AT_ONCE = 1_000  # connections of a server, beside the one that flushes
COMPARES = re.compile(rb"^cas |^m[ads] .* C[0-9]", re.MULTILINE)


class Input:
    """The input of a script's client: pieces, each with the moment of its turns."""

    def __init__(self, script):
        lines = lines_of(script.read_bytes())
        self.clients, *self.bounds = settings(lines)
        moment, self.pieces = 0, []
        for name, _, rest in reversed([line.split(" ", 2) for line in lines[1:]]):
            if name == "turn":
                moment = int(rest)
            else:
                self.pieces.insert(0, (moment, unescaped(rest)))
        self.text = b"".join(piece for _, piece in self.pieces)

    def between(self, first, last):
        """The pieces of these of its bytes."""
        at, some = 0, []
        for moment, piece in self.pieces:
            some.append((moment, piece[max(0, first - at) : max(0, last - at)]))
            at += len(piece)
        return [(moment, piece) for moment, piece in some if piece]

    def played(self):
        """Each beginning, and each cut in two; and beside it the bytes uncut."""
        size = len(self.text)
        begun = [self.between(0, count) for count in range(size + 1)]
        cut = [(self.between(0, at) + self.between(at, size), self.pieces) for at in range(1, size)]
        return [(pieces, pieces) for pieces in begun] + cut


def turns(piece):
    return range(piece.count(b"\n") + 1)


def told(server, pieces):
    """The answers of a model to a new client."""
    connection = Connection()
    for moment, piece in pieces:
        connection.unread += b"" if connection.closed else piece
        for _ in turns(piece):
            server.turn(connection, moment)
    return connection.output


def wanted(bounds, played):
    """The expected output for clients that send pieces, in sequence, with a flush before each except the first."""
    server = Server(0, *bounds)
    for number, pieces in enumerate(played):
        if number:
            server.flush(0, 0)
        yield f"client {number}: {escaped(told(server, pieces))}\n"
    yield f"client {len(played)}: " + "OK\\r\\n" * (len(played) - 1) + "\n"


def printed(program, bounds, played):
    """The output of mc_sim for them. The last client is the one that flushes."""
    flushes = len(played)
    lines = [f"server {flushes + 1} {bounds[0]} {bounds[1]}"]
    for number, pieces in enumerate(played):
        lines += [f"bytes {flushes} flush_all\\r\\n", f"turn {flushes} 0"] if number else []
        for moment, piece in pieces:
            lines += [f"bytes {number} {escaped(piece)}", *(f"turn {number} {moment}" for _ in turns(piece))]
    script = "\n".join([*lines, ""]).encode()
    return subprocess.run([program], input=script, stdout=subprocess.PIPE, check=True, close_fds=False).stdout.decode()


def answers_begin_so(given):
    """Whether a model answers each beginning with a beginning of the answers."""
    whole, *begun = (told(Server(0, *given.bounds), pieces) for _, pieces in reversed(given.played()))
    return all(whole.startswith(answer) for answer in begun)


def is_right(program, given):
    """Whether the answers are right for each beginning and each cut."""
    at_once = 1 if COMPARES.search(given.text) else AT_ONCE
    played = given.played()
    for at in range(0, len(played), at_once):
        cut, uncut = zip(*played[at : at + at_once])
        if printed(program, given.bounds, cut) != "".join(wanted(given.bounds, uncut)):
            return False
    return answers_begin_so(given)


def main(program):
    scripts = [script for script in examples() if not script.with_suffix(".err").exists()]
    inputs = [(script, Input(script)) for script in scripts if not is_of_pool(script.read_bytes())]
    inputs = [(script, given) for script, given in inputs if given.clients == 1 and len(given.text) <= MOST]
    with concurrent.futures.ThreadPoolExecutor(os.cpu_count()) as pool:
        right = list(pool.map(lambda named: is_right(program, named[1]), inputs))
    for (script, _), is_so in zip(inputs, right):
        if not is_so:
            print(f"{script}: another output where its bytes are cut")
    return counted(right)


if __name__ == "__main__":
    if len(sys.argv) > 2:
        sys.exit(__doc__)
    program = pathlib.Path(sys.argv[1]).resolve() if sys.argv[1:] else built("mc_sim")
    sys.exit(main(program) if are_built(program) else 1)
