#!/usr/bin/env python3
"""Loads a proxy in front of two servers, kills one of them repeatedly, and checks that every answer is right.

Usage: losses.py PROXY SERVER [--losses N] [--clients N] [--seed N]      (200 losses, 20 clients, seed 1)

PROXY is the built mc_proxyd, SERVER the built mc_serverd. Each client sends batches of 1 to 30 requests on keys of its own, of which
each server owns some, and knows which answers are right (checked_clients.py). The second server is killed, in half of the cases after it
was stopped for a moment with pending commands, and started again; the next loss happens once the proxy uses it again. It fails, and
prints the bytes that were sent and those that arrived, if

- the answer that arrives is not that of the next request. (At the server that is killed a key may have been lost, so that
  a get misses. A value that was stored before an answered command of the key never appears again.)
- a command of the first server is reported lost;
- a client is closed, or waits ten seconds for an answer;
- the proxy, with all clients at rest, has more sockets open after the last loss than after the 20th, or three megabytes more of
  memory resident (what the allocator keeps goes up and down by one or two).
"""

import argparse
import collections
import pathlib
import random
import signal
import sys
import threading
import time

sys.path.insert(0, str(pathlib.Path(__file__).resolve().parents[1] / "lib"))

import checked_clients
from checked_clients import Answers, Lives, Pause, Trouble
from checks import FAILURES, Wrong, settles
from live_pool import SECONDS_TO_RETURN, Pool

KEYS_AT_A_SERVER = 6
EARLY = 20  # losses until the proxy is first checked
MAY_GROW = 3 * 2**20
SECONDS_UP = 0.3  # the longest that it is used between two losses
SECONDS_TO_PAUSE = 20  # at most, until all clients rest
SECONDS_TO_REST = 2.5


class Client(checked_clients.Client, threading.Thread):
    """A client with keys of both servers."""

    def __init__(self, run, number):
        checked_clients.Client.__init__(self, f"c{number}", f"{run.seed} {number}", run.ring, run.lives, KEYS_AT_A_SERVER, False)
        threading.Thread.__init__(self, daemon=True)
        self.run_of, self.error = run, None
        self.uses(run.proxy.connected(), run.troubles)

    def run(self):
        try:
            while not self.run_of.ended:
                self.run_of.pause.wait()
                self.batch()
        except (Wrong, *FAILURES) as error:
            self.error = error


class Run:
    """The servers, the proxy and its clients."""

    def __init__(self, asked):
        self.seed = asked.seed
        Pool.programs = asked.proxy, asked.server
        self.pool = Pool(stderr=None)
        self.proxy, self.ring = self.pool.proxy, self.pool.ring
        self.lives, self.troubles = (Lives(), Lives()), (Trouble(), Trouble(1))  # The second server may be lost at any time.
        self.ended, self.pause = False, Pause(SECONDS_TO_PAUSE)
        self.dice = random.Random(asked.seed)
        self.clients = [Client(self, number) for number in range(asked.clients)]
        self.away = []  # seconds from each loss to the next use

    def look_at_clients(self):
        for number, client in enumerate(self.clients):
            if client.error is not None:
                raise Wrong(f"client {number}: {type(client.error).__name__}: {client.error}")
        if self.proxy.process.poll() is not None:
            raise Wrong(f"the proxy ended, with status {self.proxy.process.poll()}")

    def lose(self):
        """Kills the second server, starts it again, and waits until the proxy uses it again."""
        time.sleep(self.dice.random() * SECONDS_UP)
        server = self.pool.servers[1]
        if self.dice.random() < 0.5:
            server.process.send_signal(signal.SIGSTOP)
            time.sleep(self.dice.random() * 0.02)
        with self.lives[1].end():
            server.stop()
        lost = time.monotonic()
        time.sleep(self.dice.choice((0, self.dice.random() * 0.1)))
        self.pool.restart(1)
        with self.proxy.connected() as probe:
            answers = Answers(probe)
            while True:
                probe.sendall(b"get %s\r\n" % self.ring.key(1))
                if answers.line() == b"END\r\n":
                    break
                if time.monotonic() > lost + SECONDS_TO_RETURN:
                    raise Wrong("the server is not used again")
                time.sleep(0.002)
        self.away.append(time.monotonic() - lost)
        self.look_at_clients()

    def at_rest(self):
        """The memory and the descriptors of the proxy with all clients at rest."""
        with self.pause.all_rest(len(self.clients), self.look_at_clients):
            time.sleep(SECONDS_TO_REST)
            return settles(self.proxy.memory), self.proxy.descriptors()

    def lose_all(self, losses):
        self.pause.leave.set()
        for client in self.clients:
            client.start()
        early = None
        for number in range(1, losses + 1):
            self.lose()
            if number == min(EARLY, losses):
                early = self.at_rest()
        late = self.at_rest()
        self.ended = True
        for client in self.clients:
            client.join(20)
        self.look_at_clients()
        self.tell(losses, early, late)
        if losses > EARLY and (late[0] > early[0] + MAY_GROW or late[1] > early[1]):
            raise Wrong(f"the proxy grew: {early} bytes and descriptors after {min(EARLY, losses)} losses, {late} at the end")

    def tell(self, losses, early, late):
        told = sum((client.told for client in self.clients), collections.Counter())
        away = sorted(self.away)
        print(f"{losses} losses, {len(self.clients)} clients, seed {self.seed}; {told['answered']:,} requests answered,", end=" ")
        print(f"{told['link lost']:,} told that the link was lost")
        print(f"from a loss to the next use {away[len(away) // 2] * 1e3:.0f} ms (median), {away[-1] * 1e3:.0f} at most")
        print(f"memory of the proxy {early[0]:,} bytes after {min(EARLY, losses)} losses, {late[0]:,} at the end;", end=" ")
        print(f"descriptors {early[1]}, {late[1]}")


def main():
    words = argparse.ArgumentParser(description=__doc__, formatter_class=argparse.RawDescriptionHelpFormatter)
    words.add_argument("proxy", metavar="PROXY")
    words.add_argument("server", metavar="SERVER")
    words.add_argument("--losses", type=int, default=200)
    words.add_argument("--clients", type=int, default=20)
    words.add_argument("--seed", type=int, default=1)
    asked = words.parse_args()
    run = Run(asked)
    try:
        run.lose_all(asked.losses)
    except (Wrong, *FAILURES) as error:
        print(f"FAILED after {len(run.away)} losses, seed {asked.seed}: {error}")
        return 1
    finally:
        run.pool.stack.close()
    print("nothing failed")
    return 0


if __name__ == "__main__":
    sys.exit(main())
