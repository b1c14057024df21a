#!/usr/bin/env python3
"""Tries the programs of libmemcached on a server, in the text protocol (Debian: libmemcached-tools).

memccapable's tests of the text protocol are run twice: straight, and through a relay that makes `version` of
`version foo bar` and `version noreply`, by which many of them check whether the server still answers.
"""

import pathlib
import re
import socket
import subprocess
import sys
import tempfile
import threading

from trial import main

# Pieces of lines of docs/PROTOCOL.md.
CONTROL_BYTES = "| A key with a control byte or 127 is refused"
LARGE_VALUE = "| A value has at most 1,048,576 bytes"
NO_BINARY = "no binary protocol"
NO_STATS = "| `stats`, `verbosity`,"
VERSION = "| `version` is always"
VERSION_WORDS = "| `version` and `quit` with a further word"

STORAGE = [f"{name}{end}" for name in "set add replace cas append prepend".split() for end in ("", " noreply")]
OTHERS = [f"{name}{end}" for name in "flush delete incr decr".split() for end in ("", " noreply")]
TESTS = ["version", "quit", "get", "gets", "mget", *STORAGE, *OTHERS, "verbosity", "stat"]
NOT_TAKEN = {"verbosity", "stat"}
# These ask `version` with further words, and expect the version; `quit` asks `quit` with further words, and expects an
# error.
ASK_WITH_WORDS = {"quit", "version", "set", "add", "replace", "cas"} | {name for name in TESTS if name.endswith(" noreply")}


class Relay:
    """Stands between a client and a server on a port of its own, and removes the further words of `version`."""

    def __init__(self, port):
        self.server_port = port
        self.listener = socket.create_server(("127.0.0.1", 0))
        self.port = self.listener.getsockname()[1]
        threading.Thread(target=self.accept, daemon=True).start()

    def accept(self):
        while True:
            try:
                client, _ = self.listener.accept()
            except OSError:
                return
            server = socket.create_connection(("127.0.0.1", self.server_port))
            threading.Thread(target=self.pass_on, args=(client, server), daemon=True).start()
            threading.Thread(target=self.pass_on, args=(server, client), daemon=True).start()

    def pass_on(self, source, target):
        """Forwards pieces until one side ends. (memccapable sends each line as one piece.)"""
        try:
            while piece := source.recv(65536):
                target.sendall(re.sub(rb"^version [a-z ]*\r\n$", b"version\r\n", piece))
            target.shutdown(socket.SHUT_WR)
        except OSError:
            target.close()

    def __enter__(self):
        return self

    def __exit__(self, *_):
        self.listener.close()


def run(*words):
    """A program's exit status and its output, as text."""
    done = subprocess.run(words, capture_output=True, timeout=60)
    return done.returncode, (done.stdout + done.stderr).decode("latin-1")


def capable(port):
    """memccapable's tests of the text protocol, one by one: status 0 if the test passed."""

    def status(port, name):
        return run("memccapable", "-h", "127.0.0.1", "-p", str(port), "-a", "-t", "2", "-T", f"ascii {name}")[0]

    for name in TESTS:
        why = NO_STATS if name in NOT_TAKEN else VERSION_WORDS if name in ASK_WITH_WORDS else ""
        wanted = 0 if name == "quit" or not why else 1
        yield f"memccapable: {name}", lambda: status(port, name), wanted, why
    with Relay(port) as relay:
        for name in TESTS:
            why = NO_STATS if name in NOT_TAKEN else VERSION_WORDS if name == "quit" else ""
            wanted = 1 if name in NOT_TAKEN else 0
            yield f"memccapable through the relay: {name}", lambda: status(relay.port, name), wanted, why


def files(servers, folder):
    """Files that are stored under their names, and shown again."""
    one, two, large = folder / "one", folder / "two", folder / "large"
    one.write_bytes(b"x\r\ny")
    two.write_bytes(b"second")
    large.write_bytes(b"v" * 1048576)
    ok, nothing = (0, ""), (1, "")
    yield "memccp", lambda: run("memccp", servers, str(one), str(two)), ok
    yield "memccat", lambda: run("memccat", servers, "one"), (0, "x\r\ny\n")
    yield "memccat of two", lambda: run("memccat", servers, "one", "two"), (0, "x\r\ny\nsecond\n")
    yield "memccat of a key that is not held", lambda: run("memccat", servers, "none"), nothing
    yield "memcexist", lambda: run("memcexist", servers, "one"), ok
    yield "memcexist of a key that is not held", lambda: run("memcexist", servers, "none"), nothing
    yield "memctouch", lambda: run("memctouch", servers, "-e", "60", "one"), ok
    yield "memctouch of a key that is not held", lambda: run("memctouch", servers, "-e", "60", "none"), nothing
    yield "memccp with flags and expiry", lambda: run("memccp", servers, "-F", "5", "-e", "3600", str(one)), ok
    yield "memccat with flags", lambda: run("memccat", servers, "-F", "one"), (0, "5\nx\r\ny\n")
    yield "memccp by add, of a held key", lambda: run("memccp", servers, "-A", str(one))[0], 1
    yield "memccp by replace", lambda: run("memccp", servers, "-R", str(two)), ok
    yield "memccp of 1,048,576 bytes", lambda: run("memccp", servers, str(large))[0], 0, LARGE_VALUE
    yield "memcrm", lambda: run("memcrm", servers, "one"), ok
    yield "memcrm of a key that is not held", lambda: run("memcrm", servers, "one"), nothing
    yield "memcflush", lambda: run("memcflush", servers), ok
    yield "memccat of what was flushed", lambda: run("memccat", servers, "two"), nothing
    yield "memccp by the binary protocol", lambda: run("memccp", servers, "-b", str(one))[0], 1, NO_BINARY


def tells(servers, port):
    yield "memcping", lambda: run("memcping", servers), (0, "")
    yield "memcstat -S", lambda: run("memcstat", servers, "-S"), (0, f"127.0.0.1:{port} 1.6.0\n"), VERSION
    yield "memcstat", lambda: run("memcstat", servers)[0], 1, NO_STATS
    yield "memcstat --analyze", lambda: run("memcstat", servers, "--analyze")[0], 1, NO_STATS
    yield "memcstat --analyze=latency", lambda: run("memcstat", servers, "--analyze=latency", "--iterations", "10")[0], 0
    yield "memcdump", lambda: run("memcdump", servers)[0], 1, NO_STATS


def loads(servers, port):
    """Programs that load a server: they report errors, not times."""

    def slap(*words):
        status, written = run("memcslap", servers, "--concurrency", "4", "--execute-number", "1000", *words)
        return status, re.findall(r"Time to (?:set|get|mget) +(\d+) keys by", written)

    def aslap():
        status, written = run("memcaslap", "-s", f"127.0.0.1:{port}", "-x", "1000", "-T", "1", "-c", "8", "-v", "0.5")
        return status, "CLIENT_ERROR bad command line format" in written, re.findall(r"cmd_get: (\d+)", written)

    for test in ("set", "get", "mget"):
        yield f"memcslap, {test}", lambda: slap("--test", test), (0, ["4000"])
    yield "memcslap, set, noreply", lambda: slap("--test", "set", "--noreply"), (0, ["4000"])
    yield "memcslap, get, no blocking", lambda: slap("--test", "get", "--non-blocking", "--tcp-nodelay"), (0, ["4000"])
    yield "memcaslap, whose keys begin with control bytes", aslap, (0, True, ["0"]), CONTROL_BYTES


def calls(first, second):
    servers = f"--servers=127.0.0.1:{first.port}"
    both = f"--servers=127.0.0.1:{first.port},127.0.0.1:{second.port}"
    yield from capable(first.port)
    with tempfile.TemporaryDirectory() as folder:
        for row in files(servers, pathlib.Path(folder)):
            yield row
        for row in files(both, pathlib.Path(folder)):
            yield (f"{row[0]}, of two servers", *row[1:])
    yield from tells(servers, first.port)
    yield from loads(servers, first.port)


if __name__ == "__main__":
    print(run("memcstat", "--version")[1].strip())
    sys.exit(main(__doc__, calls))
