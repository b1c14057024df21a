#!/usr/bin/env python3
"""Proves and builds crates and the crates that these use, side by side, lowest first.

Usage: prove.py [--processors N] CRATE ..

A crate is proved by `rt lib`, a program by `rt run`, in a copy whose out/ then takes the place of the crate's: there is never half of one.
It is skipped if neither its text, nor that of one below it, nor the toolchain has changed since, and what rt built is still there, by its
time. Of those that are ready, the one with the longest chain up to one that was asked for comes first. They share N processors, by jobs;
with no N, all that there are, with 3 GB of free memory each. If one fails, all end with status 1, and rt's words are printed.
"""
import argparse
import fcntl
import hashlib
import os
import pathlib
import shutil
import signal
import subprocess
import sys
import tempfile
import time

TOP = pathlib.Path(__file__).resolve().parent
PARTS = ("src", "specs", "proofs")  # what a proof reads of a crate
STAMP = "proved.stamp"  # beside what rt built: of which text it is
LISTED = (line.partition("#")[0].strip() for line in (TOP / "crates.txt").read_text().splitlines())
LINES = {line.partition(":")[0].split()[0]: line for line in LISTED if line}  # of crates.txt, by the names of their crates
USES = {name: [it for it in line.partition(":")[2].split() if it in LINES] for name, line in LINES.items()}


def needed(names):
    """These crates and those below them, the one with the longest chain up to one of these first."""
    found, level = [], {*names}
    for _ in LINES:  # no chain is longer
        found = [it for it in found if it not in level] + sorted(level, reverse=True)
        level = {below for it in level for below in USES[it]}
    return found[::-1]


def held(folder, other):
    """Waits until no other works in a folder, as rt does. It is held until what this gives is closed."""
    lock = os.open(folder, os.O_RDONLY)
    try:
        fcntl.flock(lock, fcntl.LOCK_EX | fcntl.LOCK_NB)
    except BlockingIOError:
        print(f"waiting for another {other}", flush=True)
        fcntl.flock(lock, fcntl.LOCK_EX)
    return lock


def copied(name, top):
    """Makes the copy in which a crate is proved, and gives its folder there. A program is not in it: it is there once it is proved."""
    def link_or_copy(one, other):  # rt never writes into a library, nor into what it keeps of a proof, but makes it anew
        (os.link if "/rlib/" in one or one.endswith(".oantt") else shutil.copy2)(one, other)
    own, below = f"crates/{name}", needed(USES[name])
    shutil.copytree(TOP / own, top / own, copy_function=link_or_copy, ignore=shutil.ignore_patterns("must-fail", STAMP))
    (top / own / "out" / name).unlink(missing_ok=True)
    for part in (f"crates/{it}/{part}" for it in below for part in (*PARTS, "out/rlib")):
        if (TOP / part).is_dir():
            shutil.copytree(TOP / part, top / part, copy_function=link_or_copy)
    (top / "crates.txt").write_text("".join(f"{line}\n" for it, line in LINES.items() if it in [name, *below]))
    shutil.copy(TOP / "HANDLES", top)
    return top / own


class Crate:
    """A crate, with the sum of its text, of those below it (in `crates`), and of what is common to all: the toolchain, HANDLES."""

    def __init__(self, name, crates, common):
        self.name, self.below, self.folder = name, needed(USES[name]), TOP / "crates" / name
        self.out, self.is_program = self.folder / "out", (self.folder / "src/main.rt").is_file()
        found = hashlib.sha256(repr((*common, LINES[name], [crates[it].sum for it in USES[name]])).encode())
        for path in (it for part in PARTS for it in sorted((self.folder / part).rglob("*")) if it.is_file()):
            found.update(repr((str(path.relative_to(self.folder)), path.read_bytes())).encode())
        self.sum = found.hexdigest()
        self.is_proved = [it.read_text() for it in self.out.glob(STAMP)] == [self.stamp(self.out)]

    def stamp(self, out):
        """What is written beside what rt built in an out/: the sum of its text, and when that was. None if rt built nothing."""
        built = out / (self.name if self.is_program else "rlib")
        return f"{self.sum}\n{built.stat().st_mtime_ns}\n" if built.exists() else None

    def start(self, room, jobs):
        """Starts its proof in a copy, and gives the process."""
        self.begun, self.jobs, self.top, self.said = time.monotonic(), jobs, room / self.name, room / f"{self.name}.said"
        folder = copied(self.name, self.top)
        args = "".join(it.read_text() for it in folder.glob("args")).split()
        words = ["run", "--jobs", str(jobs), "--", *args] if self.is_program else ["lib", "--jobs", str(jobs)]
        with open(self.said, "w") as said, open(next(folder.glob("stdin"), os.devnull)) as given:
            return subprocess.Popen(["rt", *words], cwd=folder, stdin=given, stdout=said, stderr=subprocess.STDOUT)

    def take(self, status):
        """Has what was built take the place of out/. A program is proved if it is there: the status of `rt run` is the program's own."""
        stamp = self.stamp(made := self.top / "crates" / self.name / "out")
        if stamp is None or status and not self.is_program:
            sys.exit(f"prove.py: {self.said.read_text(errors='replace')}{self.name} is not proved")
        (made / STAMP).write_text(stamp)
        lock = held(self.folder, f"rt to finish in {self.folder}")
        if self.out.exists():
            self.out.rename(self.top / "before")
        made.rename(self.out)
        os.close(lock)
        shutil.rmtree(self.top)


def prove(left, processors, room):
    """Proves the crates that are left, by their names: of those that are ready always the first."""
    count, runs = len(left), {}
    try:
        while left:
            free = processors - sum(left[it].jobs for it in runs)
            ready = [it for it in left if it not in runs and left.keys().isdisjoint(left[it].below)]
            for name in ready[:free]:
                runs[name] = left[name].start(room, max(free // len(ready), 1))
            for name in [it for it in runs if runs[it].poll() is not None]:
                (crate := left.pop(name)).take(runs.pop(name).returncode)
                print(f"{count - len(left)} of {count}: {name} is proved ({time.monotonic() - crate.begun:.0f} s)", flush=True)
            time.sleep(0.2)
    finally:
        for end in (subprocess.Popen.terminate, subprocess.Popen.wait):
            for process in runs.values():
                end(process)


def main():
    free = int(pathlib.Path("/proc/meminfo").read_text().partition("MemAvailable:")[2].split()[0])  # in kB
    words = argparse.ArgumentParser(description=__doc__, formatter_class=argparse.RawDescriptionHelpFormatter)
    words.add_argument("--processors", type=int, metavar="N", default=max(min(len(os.sched_getaffinity(0)), free * 1024 // 3_000_000_000), 1))
    words.add_argument("names", metavar="CRATE", nargs="+")
    asked, crates = words.parse_args(), {}
    if unknown := [it for it in asked.names if it not in LINES]:
        sys.exit(f"prove.py: crates.txt lists no {unknown[0]}")
    held(TOP / "crates", "prove.py to end")
    common = subprocess.run(["rt", "version"], stdout=subprocess.PIPE, text=True, check=True).stdout, (TOP / "HANDLES").read_text()
    for name in needed(asked.names):
        crates[name] = Crate(name, crates, common)
    left = {name: it for name, it in crates.items() if not it.is_proved}
    if left:
        print(f"{len(left)} of {len(crates)} crates are to be proved", flush=True)
        with tempfile.TemporaryDirectory(prefix="prove-", dir=TOP / ".git" if (TOP / ".git").is_dir() else TOP) as room:
            prove(left, max(asked.processors, 1), pathlib.Path(room))


if __name__ == "__main__":
    signal.signal(signal.SIGTERM, signal.default_int_handler)
    try:
        main()
    except KeyboardInterrupt:
        print("prove.py: ended; what was proved is kept", file=sys.stderr)
        sys.exit(130)
