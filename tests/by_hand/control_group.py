#!/usr/bin/env python3
"""Fills a server in a control group of memory, and reports what happens to it (docs/DEVELOPING.md has the figures).

Usage: control_group.py SERVER [--budget MEGABYTES]      (SERVER is the built mc_serverd; 128 MiB unless it is given)

The group is made for this, below the group that this script is in, or in a mount of its own, and is removed at the end. Only servers that this
script has started are put into it. The server has --memory-exit 10. Values of 100 bytes are stored under new keys, then of 5,000, then of 10,000,
each until half as much again as the budget was sent. Two limits are tried: what the server says at its start that it may take, and the budget.
For each size a line has the client's answers, the group's memory and the kernel's count of kills. With the higher limit the server must stay and
store. With the lower one the kernel must kill it, or it must end with status 4, and serve again when it is started anew. The last line is 'N
passed, M failed'. If the machine has no control group of memory, one line says so, and the status is 3.
"""

import argparse
import contextlib
import os
import pathlib
import re
import signal
import subprocess
import sys
import tempfile
import time

sys.path.insert(0, str(pathlib.Path(__file__).resolve().parents[1] / "lib"))

from servers import HOST, Listener, free_port
from suite import are_built, counted

SIZES = (100, 5_000, 10_000)
MEGABYTE = 1 << 20
NO_MEMORY = b"SERVER_ERROR out of memory storing object\r\n"
BESIDE = 8 * MEGABYTE  # for the program itself and a client, beside the server's own figure
PATIENCE = 30  # seconds until the script gives up on a server that cannot store
NO_GROUP = 3
SAID = re.compile(r"mc_serverd: may take ([0-9.]+) (MB|GB): .*")
UNITS = {"MB": 10**6, "GB": 10**9}


class NoGroup(Exception):
    """Why the machine has no control group."""


# The files of a group, by the version of Linux's control groups.
FILES = {
    1: {"limit": "memory.limit_in_bytes", "taken": "memory.usage_in_bytes", "most": "memory.max_usage_in_bytes", "kills": "memory.oom_control"},
    2: {"limit": "memory.max", "taken": "memory.current", "most": "memory.peak", "kills": "memory.events"},
}


class Group:
    """A control group with a limit of memory, of which nothing is swapped out if the system allows that."""

    def __init__(self, version, parent, limit):
        self.files, self.folder = FILES[version], parent / f"wiersbol-{os.getpid()}-{time.monotonic_ns()}"
        try:
            self.folder.mkdir()
        except OSError as error:
            raise NoGroup(f"{parent}: {error.strerror}") from error
        try:
            self.write(self.files["limit"], limit)
        except OSError as error:
            self.folder.rmdir()
            raise NoGroup(f"{self.folder}: {error.strerror}, as its memory is limited") from error
        for name, value in (("memory.swappiness", 0), ("memory.swap.max", 0)):
            with contextlib.suppress(OSError):
                self.write(name, value)

    def write(self, name, value):
        with open(self.folder / name, "r+", encoding="ascii") as file:
            file.write(str(value))

    def enter(self):
        """Puts this process into it: a child, before it becomes the server."""
        self.write("cgroup.procs", os.getpid())

    def number(self, what):
        """A number of bytes in one of its files, or 0."""
        try:
            return int((self.folder / self.files[what]).read_text())
        except (OSError, ValueError):
            return 0

    def kills(self):
        """How many processes the kernel has killed in it."""
        found = re.search(r"^oom_kill ([0-9]+)$", (self.folder / self.files["kills"]).read_text(), re.MULTILINE)
        return int(found[1]) if found else 0

    def remove(self):
        """Removes it, once the system has freed its memory."""
        for _ in range(100):
            with contextlib.suppress(OSError):
                self.folder.rmdir()
                return
            time.sleep(0.05)


def own_group(memory_of_one):
    """The path of the group that this process is in: of the tree of memory of version 1, or of version 2."""
    for line in pathlib.Path("/proc/self/cgroup").read_text().splitlines():
        _, names, path = line.split(":", 2)
        if names == ("memory" if memory_of_one else ""):
            return path
    raise NoGroup("this process is in no group of memory")


def mounted(memory_of_one):
    """The mount point of the tree of groups, or None."""
    for line in pathlib.Path("/proc/self/mounts").read_text().splitlines():
        _, place, kind, options = line.split()[:4]
        if kind == "cgroup" and "memory" in options.split(",") if memory_of_one else kind == "cgroup2":
            return pathlib.Path(place)
    return None


def is_of_one():
    """Whether the system has memory in a tree of version 1."""
    controllers = pathlib.Path("/proc/cgroups")
    found = re.search(r"^memory\s+([0-9]+)", controllers.read_text() if controllers.exists() else "", re.MULTILINE)
    return bool(found) and found[1] != "0"


@contextlib.contextmanager
def tree():
    """The version, and the folder below which a group is made."""
    one = is_of_one()
    place, own = mounted(one), None
    try:
        if place is None:
            own = tempfile.mkdtemp()
            kind = ["-t", "cgroup", "-o", "memory"] if one else ["-t", "cgroup2"]
            ended = subprocess.run(["mount", *kind, "none", own], capture_output=True, text=True)
            if ended.returncode:
                raise NoGroup(ended.stderr.strip())
            place = pathlib.Path(own)
        parent = place / own_group(one).lstrip("/")
        if not one and "memory" not in (parent / "cgroup.subtree_control").read_text().split():
            try:
                (parent / "cgroup.subtree_control").write_text("+memory")
            except OSError as error:
                raise NoGroup(f"{parent}: {error.strerror}, as its groups are given memory") from error
        yield (1 if one else 2), parent
    finally:
        if own:
            subprocess.run(["umount", own], capture_output=True)
            os.rmdir(own)


def start(program, budget, group=None):
    """A server, in a group if one is given, which reports how much memory it may take."""
    port = free_port()
    words = ["--listen", f"{HOST}:{port}", "--budget", str(budget), "--items", "auto", "--memory-exit", "10", "--log"]
    process = subprocess.Popen(
        [program, *words], stdout=subprocess.PIPE, stderr=subprocess.PIPE, preexec_fn=group.enter if group else None
    )
    return Started(process, program, port)


class Started(Listener):
    """A server that was started, and whose first line says where it listens."""

    def __init__(self, process, program, port):
        self.process, self.program, self.port, self.on = process, program, port, None
        self.address = f"{HOST}:{port}"
        try:
            self.await_start()
        except BaseException:
            self.stop()
            raise

    def said(self):
        """Its lines until it ended."""
        self.process.stdout.close()
        text = self.process.stderr.read().decode()
        return [line.split(" ", 1)[-1] for line in text.splitlines()]


def memory_said(program, budget):
    """How much memory a server with this budget says that it may take, in bytes."""
    with start(program, budget) as server:
        server.process.terminate()
        found = next(filter(None, map(SAID.fullmatch, server.said())), None)
    if found is None:
        raise NoGroup("the server does not say what it may take")
    return int(float(found[1]) * UNITS[found[2]])


class Client:
    """Stores values under keys that are new each time."""

    def __init__(self, server):
        self.server, self.client, self.number = server, None, 0

    def batch(self, size):
        """Stores some, and returns how many were stored, refused by a line, and whether the connection was closed."""
        count = max(1, 100_000 // size)
        value = b"v" * size
        first, self.number = self.number, self.number + count
        text = b"".join(b"set k%09d 0 0 %d\r\n%s\r\n" % (number, size, value) for number in range(first, self.number))
        answers = b""
        try:
            if self.client is None:
                self.client = self.server.connected()
            self.client.sendall(text)
            while answers.count(b"\n") < count:
                piece = self.client.recv(1 << 16)
                if not piece:
                    raise ConnectionError
                answers += piece
        except OSError:
            if self.client is not None:
                self.client.close()
            self.client = None
        return answers.count(b"STORED\r\n"), answers.count(NO_MEMORY), self.client is None

    def fill(self, size, budget):
        """Sends half as much again as the budget, or as much as it can until the server ends."""
        stored = refused = closed = 0
        sent, progress = 0, time.monotonic()
        while sent < budget * 3 // 2 and self.server.process.poll() is None and time.monotonic() < progress + PATIENCE:
            more, fewer, is_closed = self.batch(size)
            stored, refused, closed = stored + more, refused + fewer, closed + is_closed
            sent += (more + fewer) * (size + 74)
            if more:
                progress = time.monotonic()
            elif is_closed:
                time.sleep(0.01)
        return stored, refused, closed


def filled(program, budget, group):
    """Fills a server in a group, and prints the results. Returns how it ended (None: it stays), its lines, and whether it stored to the end."""
    stored = 0
    with start(program, budget, group) as server:
        client = Client(server)
        for size in SIZES:
            stored, refused, closed = client.fill(size, budget)
            print(
                f"values of {size} bytes: {stored} stored, {refused} answered out of memory, {closed} connections closed;"
                f" the group takes {group.number('taken') / 10**6:.1f} MB, {group.kills()} killed",
                flush=True,
            )
            if server.process.poll() is not None:
                break
        time.sleep(0.2)
        ended = server.process.poll()
        if ended is None:
            server.process.terminate()
        lines = server.said()
    return ended, lines, stored > 0


def tried(program, budget, version, parent, name, limit, has_to_stay):
    """Tries a limit, and returns whether all was as expected."""
    group = Group(version, parent, limit)
    try:
        print(f"{name}: budget {budget / 10**6:.1f} MB, limit {limit / 10**6:.1f} MB", flush=True)
        ended, lines, stores = filled(program, budget, group)
        killed = group.kills()
        how = {None: "it stays", -signal.SIGKILL: f"killed by the kernel ({killed})" if killed else "killed"}.get(ended, f"status {ended}")
        print(f"{name}: {how}; the most that the group took {group.number('most') / 10**6:.1f} MB; it said {lines}", flush=True)
        if has_to_stay:
            return ended is None and stores and killed == 0
        names_it = any("may take" in line and line.endswith("(control group)") for line in lines)
        is_over = ended == 4 or (ended == -signal.SIGKILL and killed > 0)
        return names_it and is_over and is_served_again(program, budget, group)
    finally:
        group.remove()


def is_served_again(program, budget, group):
    """Whether a server that is started anew in the group stores."""
    with start(program, budget, group) as server:
        return Client(server).batch(100)[0] > 0


def main():
    parser = argparse.ArgumentParser()
    parser.add_argument("server")
    parser.add_argument("--budget", type=int, default=128, help="MiB of the budget")
    given = parser.parse_args()
    if not are_built(given.server):
        return 1
    budget = given.budget * MEGABYTE
    try:
        with tree() as (version, parent):
            said = memory_said(given.server, budget) + BESIDE
            runs = (("limit as it says", said, True), ("limit of the budget", budget, False))
            return counted([tried(given.server, budget, version, parent, *run) for run in runs])
    except NoGroup as why:
        print(f"no control group of memory here: {why}")
        return NO_GROUP


if __name__ == "__main__":
    sys.exit(main())
