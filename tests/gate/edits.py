#!/usr/bin/env python3
"""Tries the must-fail edits that the gate does not: wrong bodies that the prover must refuse, below tests/must-fail.

Usage: edits.py [--read] [CRATE | CRATE/NAME ...]       (a crate's edits, or one of them; all of them, if none is named)

The crates are copied to a temporary folder, with their build results, and have these edits there in place of the gate's; `rt must-fail`
tries them, crate by crate. That takes a crate's proof and some 20 seconds an edit, and first the proof of each library below that is not
built; all edits take hours of processor time. A line for each crate says how many were refused and how long it took, and at the end
there is one for each edit that was not. With --read it only checks that each edit can be made: each text that it names is in its file
exactly once. That is a part of `make test`. The last line is 'N passed, M failed', one for each edit.
"""
import argparse
import itertools
import pathlib
import re
import shutil
import subprocess
import sys
import tempfile
import time

sys.path.insert(0, str(pathlib.Path(__file__).resolve().parents[1] / "lib"))

from suite import CRATES, TESTS, TOP

EDITS = TESTS / "must-fail"
REFUSED = re.compile(r"must-fail (\S+): refused, as it must be")


def faults_of(edit):
    """Why an edit cannot be made: an empty list if it can."""
    faults, text, old, changes = [], "", "", 0
    for line in edit.read_text().splitlines():
        name, _, rest = line.partition(": ")
        if name == "file":
            text = (CRATES / edit.parent.name / rest).read_text()
        elif name == "old":
            old, found = rest, text.count(rest)
            if found != 1:
                faults.append(f"{rest!r} is there {found} times")
        elif name == "new":
            text, changes = text.replace(old, rest), changes + 1
    return faults if changes else ["it changes nothing"]


def read(edits):
    """Checks that each edit can be made, and returns how many can."""
    made = 0
    for edit in edits:
        try:
            faults = faults_of(edit)
        except OSError as error:
            faults = [str(error)]
        for fault in faults:
            print(f"{edit.relative_to(TOP)}: {fault}")
        made += not faults
    return made


def refused(edits):
    """Lets rt try the edits in a copy of the crates, and returns how many are refused."""
    passed = set()
    with tempfile.TemporaryDirectory() as room:
        for name in ("HANDLES", "crates.txt"):
            shutil.copy(TOP / name, room)
        copy = pathlib.Path(room, "crates")
        shutil.copytree(CRATES, copy, ignore=shutil.ignore_patterns("must-fail"))
        for name, own in itertools.groupby(edits, lambda edit: edit.parent.name):
            passed |= refused_of(name, list(own), copy)
    for edit in edits:
        if f"{edit.parent.name}/{edit.name}" not in passed:
            print(f"{edit.relative_to(TOP)} was not refused")
    return len(passed)


def refused_of(crate, edits, copy):
    """Lets rt try the edits of a crate in a copy of all crates, and returns the names of those that are refused."""
    (copy / crate / "must-fail").mkdir()
    for edit in edits:
        shutil.copy(edit, copy / crate / "must-fail")
    begun = time.monotonic()
    ran = subprocess.run(["rt", "must-fail", crate], cwd=copy.parent, stdout=subprocess.PIPE, stderr=subprocess.STDOUT, text=True)
    passed = set(REFUSED.findall(ran.stdout))
    took = time.monotonic() - begun
    print(f"{ran.stdout}{crate}: {len(passed)} of {len(edits)} refused, in {took:.0f} seconds", flush=True)
    return passed


def main():
    words = argparse.ArgumentParser(description=__doc__, formatter_class=argparse.RawDescriptionHelpFormatter)
    words.add_argument("--read", action="store_true")
    words.add_argument("named", metavar="CRATE | CRATE/NAME", nargs="*")
    asked = words.parse_args()
    edits = sorted(EDITS.glob("*/*.edit"))
    if asked.named:
        edits = [it for it in edits if {it.parent.name, f"{it.parent.name}/{it.stem}"} & set(asked.named)]
    passed = read(edits) if asked.read else refused(edits)
    print(f"{passed} passed, {len(edits) - passed} failed")
    return passed != len(edits) or not edits


if __name__ == "__main__":
    sys.exit(main())
