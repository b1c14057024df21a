#!/usr/bin/env python3
"""Starts servers and a proxy in front of them on free ports of 127.0.0.1, prints how to reach them, and ends them together.

Usage: pool.py PROXY SERVER [--servers N]      (2 servers)

PROXY is the built mc_proxyd, SERVER the built mc_serverd. It waits until it is interrupted (Ctrl-C) or terminated, or one of them
has ended by itself; then it ends the others, and nothing is left running. Interrupts while it ends the others are ignored. Its
status is 1 if one ended by itself.
"""

import argparse
import contextlib
import os
import pathlib
import signal
import sys

sys.path.insert(0, str(pathlib.Path(__file__).resolve().parents[1] / "lib"))

from servers import Proxy, Server


def tell(proxy, servers):
    for server in servers:
        print(f"server  {server.address}  (process {server.process.pid})")
    print(f"proxy   {proxy.address}  (process {proxy.process.pid})")
    print("From another shell:")
    print(rf"    printf 'set a 0 0 1\r\nx\r\nget a\r\nquit\r\n' | nc 127.0.0.1 {proxy.port}")
    print("Ctrl-C ends all of them.", flush=True)


INTERRUPTS = signal.SIGINT, signal.SIGTERM


def hear(handler):
    for each in INTERRUPTS:
        signal.signal(each, handler)


def interrupt(*_):
    hear(lambda *_: None)
    raise KeyboardInterrupt


def main():
    words = argparse.ArgumentParser(description=__doc__, formatter_class=argparse.RawDescriptionHelpFormatter)
    words.add_argument("proxy", metavar="PROXY")
    words.add_argument("server", metavar="SERVER")
    words.add_argument("--servers", type=int, default=2)
    asked = words.parse_args()
    hear(interrupt)
    with contextlib.ExitStack() as stack:
        stack.callback(hear, signal.SIG_IGN)  # Once all are ended: otherwise one more would kill the interpreter.
        try:
            servers = [stack.enter_context(Server(asked.server, items="auto", words=["--cas-from", "now"])) for _ in range(asked.servers)]
            proxy = stack.enter_context(Proxy(asked.proxy, [server.address for server in servers]))
            tell(proxy, servers)
            ended, status = os.wait()
        except KeyboardInterrupt:
            print("ended")
            return 0
        print(f"process {ended} ended by itself, with status {os.waitstatus_to_exitcode(status)}", file=sys.stderr)
        return 1


if __name__ == "__main__":
    sys.exit(main())
