"""The common part of the scripts of this folder: calls of a client, their expected results, and the count of those that had them.

A script has a generator of its calls. It gets two servers (`Server` of tests/lib/servers.py), and yields for each call its name,
the call as a function without parameters, and its expected result; if memcached has another result, also a piece of the line of
docs/PROTOCOL.md that says so ("Where we differ from memcached 1.6"). A call is made before the next is asked for, so a later one
finds what an earlier one left.

`main` plays the generator to two servers that it starts, and to two of memcached if `--beside` names it. Then each call without
such a piece must have the same result there, and each with one another result. If `--through` names a proxy, the calls get two of
it in the servers' places, each in front of two servers: they must have the same results.
"""

import argparse
import contextlib
import pathlib
import sys
from typing import Any, Callable, NamedTuple

sys.path.insert(0, str(pathlib.Path(__file__).resolve().parents[2] / "lib"))

from servers import Proxy, Server
from suite import TOP

PROTOCOL = TOP / "docs" / "PROTOCOL.md"
SECTION = "## Where we differ from memcached 1.6"


class Raises(NamedTuple):
    """A call that raises an exception of this name, whose text has this in it."""

    name: str
    text: str = ""


def is_as(got, wanted):
    """Whether a call had the expected result: the same value of the same type, or an exception as described."""
    if isinstance(wanted, Raises):
        return isinstance(got, Raises) and got.name == wanted.name and wanted.text in got.text
    return type(got) is type(wanted) and got == wanted


class Call(NamedTuple):
    name: str
    make: Callable[[], Any]
    wanted: Any
    differs: str = ""

    def outcome(self):
        try:
            return self.make()
        except Exception as error:
            return Raises(type(error).__name__, str(error))


class Tally:
    """How many calls had their expected results. A failure is printed at once; a documented difference, by its line."""

    def __init__(self):
        self.passed = self.failed = 0
        self.documented = {}

    def fail(self, name, *lines):
        self.failed += 1
        print(f"FAILED {name}")
        for line in lines:
            print(f"       {line}")

    def count(self, call, got, beside):
        """Counts a call by its result; `beside` is a list of its result on memcached, empty if none runs."""
        line = line_of(call.differs) if call.differs else ""
        theirs = [f"memcached gives {shortened(each)}" for each in beside]
        if not is_as(got, call.wanted):
            self.fail(call.name, f"gives  {shortened(got)}", f"wanted {shortened(call.wanted)}", *theirs)
        elif line is None:
            self.fail(call.name, f"no line of {SECTION[3:]!r} has {call.differs!r}")
        elif beside and is_as(beside[0], call.wanted) == bool(call.differs):
            told = "the same, though a difference is documented" if call.differs else "something else"
            self.fail(call.name, f"gives {shortened(got)}", f"memcached gives {told}: {shortened(beside[0])}")
        elif call.differs:
            self.documented.setdefault(line, []).append("; ".join([f"{call.name}: gives {shortened(got)}", *theirs]))
        else:
            self.passed += 1

    def print(self):
        for line, calls in sorted(self.documented.items()):
            print(line, *calls, sep="\n    ")
        documented = sum(len(calls) for calls in self.documented.values())
        print(f"{self.passed} passed, {documented} differ as documented, {self.failed} failed")


def line_of(piece):
    """The line of docs/PROTOCOL.md that documents a difference: the number and the first words of the line that has this piece."""
    inside = False
    for number, line in enumerate(PROTOCOL.read_text().splitlines(), 1):
        inside = line == SECTION if line.startswith("## ") else inside
        if inside and piece in line:
            return f"docs/PROTOCOL.md line {number}: {line}"
    return None


def shortened(value, most=100):
    text = " ".join(value[1:].split()) if isinstance(value, str) and value.startswith("|") else repr(value)
    return text if len(text) <= most else f"{text[:most]}.. ({len(text)} characters)"


def gave(calls, program, proxy=None):
    """Plays the calls to two servers, or to two proxies in front of two each: each call with its result."""
    with contextlib.ExitStack() as stack:

        def server():
            return stack.enter_context(Server(program))

        def place():
            return stack.enter_context(Proxy(proxy, [server().address, server().address])) if proxy else server()

        return [(call, call.outcome()) for call in (Call(*row) for row in calls(place(), place()))]


def main(usage, calls):
    words = argparse.ArgumentParser(description=usage, formatter_class=argparse.RawDescriptionHelpFormatter)
    words.add_argument("server", metavar="SERVER", help="the program mc_serverd")
    words.add_argument("--beside", metavar="MEMCACHED", help="the program memcached, to which the same calls are made")
    words.add_argument("--through", metavar="PROXY", help="the program mc_proxyd, to which the calls are made in front of servers")
    asked = words.parse_args()
    ours = gave(calls, asked.server, asked.through)
    theirs = gave(calls, asked.beside) if asked.beside else []
    if asked.beside and [call.name for call, _ in ours] != [call.name for call, _ in theirs]:
        raise SystemExit("memcached was not asked the same")
    tally = Tally()
    for at, (call, got) in enumerate(ours):
        tally.count(call, got, [theirs[at][1]] if theirs else [])
    tally.print()
    return 1 if tally.failed else 0
