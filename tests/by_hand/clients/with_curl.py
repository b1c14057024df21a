#!/usr/bin/env python3
"""Tries curl, which speaks HTTP, on a server: it is rejected whatever its method, and nothing of it is done (Debian: curl).

It prints how many seconds each call of curl took until it knew.
"""

import pathlib
import socket
import subprocess
import sys
import tempfile
import time

from trial import main

BODY = b"set pwn 0 0 4\r\nhack\r\n"
TURNED_AWAY = "no answer", "nothing is held"
# Statuses of curl: no answer at all, or the connection was closed while it was sent or read, or before the stream of HTTP/2 ended.
NO_ANSWER = {16, 18, 52, 55, 56}
CALLS = {
    "curl": [],
    "curl --data-binary": ["--data-binary", "@{body}"],
    "curl -X PURGE": ["-X", "PURGE", "--data-binary", "@{body}"],
    "curl -X propfind": ["-X", "propfind", "--data-binary", "@{body}"],
    "curl --http2-prior-knowledge": ["--http2-prior-knowledge", "--data-binary", "@{body}"],
    "curl --http0.9": ["--http0.9", "--data-binary", "@{body}"],
    "curl --http1.0 -X TRACE": ["--http1.0", "-X", "TRACE", "--data-binary", "@{body}"],
}


def held(port):
    """Whether the body's command was done."""
    with socket.create_connection(("127.0.0.1", port), timeout=10) as client:
        client.sendall(b"get pwn\r\ndelete pwn noreply\r\nquit\r\n")
        came = b""
        while piece := client.recv(100):
            came += piece
    return "nothing is held" if came == b"END\r\n" else f"held: {came!r}"


def call(port, body, words):
    """The status that curl reports of a request, and the item that is stored after it."""
    words = [word.format(body=body) for word in words]
    begun = time.monotonic()
    done = subprocess.run(["curl", "-sS", *words, f"http://127.0.0.1:{port}/"], capture_output=True, timeout=60)
    took = time.monotonic() - begun
    print(f"{took:.2f} seconds, {' '.join(['curl', *words])}: status {done.returncode}, {done.stderr.decode().strip()}")
    answer = "no answer" if done.returncode in NO_ANSWER and not done.stdout else f"status {done.returncode}, {done.stdout!r}"
    return answer, held(port)


def calls(first, second):
    with tempfile.TemporaryDirectory() as folder:
        body = pathlib.Path(folder) / "body"
        body.write_bytes(BODY)
        for name, words in CALLS.items():
            yield name, lambda: call(first.port, body, words), TURNED_AWAY


if __name__ == "__main__":
    print(subprocess.run(["curl", "--version"], capture_output=True, text=True).stdout.splitlines()[0])
    sys.exit(main(__doc__, calls))
