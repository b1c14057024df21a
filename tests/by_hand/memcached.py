#!/usr/bin/env python3
"""Sends the examples of the meta commands to memcached, and prints which requests it answers otherwise than we do.

Usage: memcached.py [NAME ..]      (examples of tests/examples/; all that have a meta command and one moment)

If memcached is installed, one is started for each example on a free port of 127.0.0.1 and ended again. It is sent the
example's requests one by one, each with one more after it, whose answer shows the end of the other; our answer is that
of model.py. If there is no answer within a second, or the connection is closed, a line says so. If memcached is not
installed nothing is compared. The last line is a count. Differences are no failure: docs/PROTOCOL.md lists them ("Where
we differ").
"""

import pathlib
import re
import shutil
import subprocess
import sys

sys.path.insert(0, str(pathlib.Path(__file__).resolve().parents[1] / "lib"))

import servers
from model import Server, escaped, unescaped
from suite import examples

LAST, LAST_ANSWER = b"md no-such-key Oend\r\n", b"NF Oend\r\n"
META_LINE = re.compile(rb"(^|\r\n|\n) *m[gsdan]( |\r|\n)")


def requests_of(script):
    """The requests of an example of one connection at one moment, each with our answer; none if the example is
    another."""
    lines = [line for line in script.read_bytes().decode("latin-1").split("\n") if line]
    texts = [unescaped(line[8:]) for line in lines if line.startswith("bytes 0 ")]
    moments = {line for line in lines if line.startswith("turn ")}
    if not lines[0].startswith("server 1 67108864 ") or len(moments) != 1 or not META_LINE.search(b"".join(texts)):
        return []
    server = Server(1, 67108864, 1000)
    client = server.connections[0]
    client.unread = b"".join(texts)
    requests = []
    while True:
        unread, answered = client.unread, len(client.output)
        server.turn(client, 100)
        taken = len(unread) - len(client.unread)
        if taken == 0:
            return requests
        requests.append((unread[:taken], client.output[answered:]))


def asked(connection, request):
    connection.sendall(request + LAST)
    answer = b""
    try:
        while not answer.endswith(LAST_ANSWER):
            piece = connection.recv(65536)
            if not piece:
                return answer, "and closed the connection"
            answer += piece
    except TimeoutError:
        return answer, "and takes what follows for its block"
    return answer[: -len(LAST_ANSWER)], ""


def differences(program, requests):
    found = []
    with servers.Server(program) as memcached, servers.connected(memcached.port, timeout=1) as connection:
        for request, ours in requests:
            theirs, beside = asked(connection, request)
            if theirs != ours or beside:
                found.append((request, ours, theirs, beside))
            if beside:
                break
    return found


def main(names):
    program = shutil.which("memcached")
    if program is None:
        print("memcached.py: memcached is not installed, so nothing was compared")
        return
    print(subprocess.run([program, "--version"], capture_output=True, text=True).stdout.strip())
    scripts = [script for script in examples() if not script.with_suffix(".err").exists() and (not names or script.stem in names)]
    sent = differ = 0
    for script in scripts:
        requests = requests_of(script)
        sent += len(requests)
        # A second that began in between changes the time that an item has left, so a difference must appear twice.
        found = requests and differences(program, requests) and differences(program, requests)
        differ += len(found)
        alike = {}
        for request, *answers in found:
            alike.setdefault(tuple(answers), []).append(escaped(request))
        for (ours, theirs, beside), sent_lines in alike.items():
            print(f"{script.stem}: {' and '.join(sent_lines)}")
            print(f"    ours:      {escaped(ours)}")
            print(f"    memcached: {escaped(theirs)} {beside}".rstrip())
    print(f"{sent} requests sent, {differ} answered otherwise")


if __name__ == "__main__":
    main(sys.argv[1:])
