"""What a proxy answers for a server that is lost, by its choice for lost commands (`--lost`). `checks_of_losses` has each check by its name;
links.py passes them on. `Pool.programs` are the programs that are tried.
"""

import contextlib
import time

from checks import PATIENCE, Wrong, asked, is_served, received, want
from connections import fields_of, lines_said
from live_pool import LOST, Played, Pool, all_that_comes, stored

MISSED = ("--lost", "missed")


@contextlib.contextmanager
def with_one_lost(words):
    """A client of a proxy with these words, and two keys each of a server that lives and of one that is lost, with a value `x` under all."""
    with Pool(words) as pool, pool.connected() as client:
        living, lost = (pool.ring.keys(place, 2) for place in (0, 1))
        for key in living + lost:
            asked(client, *stored(key)[:2])
        pool.servers[1].stop()
        yield client, living, lost


def item(key):
    return b"VALUE %s 0 1\r\nx\r\n" % key


def a_lost_item_is_a_miss():
    with with_one_lost(MISSED) as (client, (first, second), (lost, other)):
        keys = b" ".join((lost, first, other, second))
        shown = item(first) + item(second) + b"END\r\n"
        asked(client, b"get %s\r\n" % keys, shown)
        asked(client, b"gat 0 %s\r\n" % keys, shown)
        asked(client, b"gets %s\r\n" % lost, b"END\r\n")
        asked(client, b"mg %s v\r\nmg %s v k O7\r\nmg %s v q\r\nmn\r\n" % (lost, lost, lost), b"EN\r\nEN\r\nMN\r\n")
        asked(client, b"mg %s v\r\n" % first, b"VA 1\r\nx\r\n")


def a_reply_that_is_lost_is_a_miss():
    """The command was sent, and its link is lost before a reply."""
    with Played(1, ("--timeout", "0", *MISSED)) as pool, pool.connected() as client:
        ask = b"get a\r\n"
        client.sendall(ask + b"mg a v\r\nset a 0 0 1 noreply\r\nx\r\nversion\r\n")
        want(received(pool.links[0], len(ask)), ask)
        pool.links[0].close()
        want(received(client, len(b"END\r\nEN\r\nVERSION 1.6.0\r\n")), b"END\r\nEN\r\nVERSION 1.6.0\r\n")


def a_lost_request_that_hides_its_reply_is_silent():
    with with_one_lost(MISSED) as (client, (living, _), (lost, _)):
        puts = b"set %s 0 0 1 noreply\r\ny\r\nadd %s 0 0 1 noreply\r\ny\r\nms %s 1 q\r\ny\r\n" % (lost, lost, lost)
        others = b"incr %s 1 noreply\r\ntouch %s 0 noreply\r\nmd %s q\r\nma %s q\r\n" % (lost, lost, lost, lost)
        client.sendall(puts + others)
        asked(client, *stored(living)[2:])
        asked(client, b"flush_all noreply\r\nget %s\r\n" % living, b"END\r\n")
        want(all_that_comes(client), b"")


def a_lost_change_is_told():
    with with_one_lost(MISSED) as (client, _, (lost, _)):
        puts = b"set %s 0 0 1\r\ny\r\nadd %s 0 0 1\r\ny\r\ncas %s 0 0 1 1\r\ny\r\nms %s 1\r\ny\r\n" % (lost, lost, lost, lost)
        others = b"incr %s 1\r\ndelete %s\r\ntouch %s 0\r\nmd %s\r\nma %s\r\nflush_all\r\n" % (lost, lost, lost, lost, lost)
        asked(client, puts + others, LOST * 10)
        is_served(client)


def a_fault_is_told_where_losses_are_missed():
    with with_one_lost(MISSED) as (client, _, (lost, _)):
        text = b"incr %s x noreply\r\nget\r\nmg %s z q\r\n" % (lost, lost)
        asked(client, text, b"CLIENT_ERROR invalid numeric delta argument\r\nERROR\r\nCLIENT_ERROR invalid flag\r\n")


def each_loss_is_told_otherwise():
    for words in ((), ("--lost", "told")):
        with with_one_lost(words) as (client, (living, _), (lost, _)):
            text = b"get %s %s\r\nmg %s v q\r\nset %s 0 0 1 noreply\r\ny\r\n" % (living, lost, lost, lost)
            asked(client, text, LOST * 3)
            asked(client, *stored(living)[2:])


def missed(pool):
    """Of the next report, how many requests had an answer that hides a loss."""
    while True:
        [line] = lines_said(pool)
        if " uptime=" in line:
            return int(fields_of(line, "mc_proxyd")["missed"])


def missed_after(pool, before, ask=lambda: None):
    """The first report's number that differs from the one before, while a request is sent before each look."""
    deadline = time.monotonic() + PATIENCE
    while time.monotonic() < deadline:
        ask()
        if (now := missed(pool)) != before:
            return now
    raise Wrong(f"still {before} missed")


def what_was_missed_is_counted():
    """By requests: a get of two keys of a server that is down is one, and so is a store with `noreply`; a store whose loss is reported is none, nor
    is a get of a living server's key."""
    with Pool(("--report", "1", *MISSED)) as pool, pool.connected() as client:
        living, lost = pool.ring.key(0), pool.ring.keys(1, 2)
        want(missed(pool), 0)
        pool.servers[1].stop()
        missed_after(pool, 0, lambda: asked(client, b"get %s\r\n" % lost[0], b"END\r\n"))
        before = missed(pool)
        gets = b"get %s %s\r\nget %s\r\n" % (*lost, living)
        puts = b"set %s 0 0 1 noreply\r\nx\r\nset %s 0 0 1\r\nx\r\n" % (lost[0], lost[1])
        asked(client, gets + puts, b"END\r\nEND\r\n" + LOST)
        want(missed_after(pool, before), before + 2)


def what_is_lost_on_its_way_is_counted():
    """A get that was sent is one, once its link is lost; nothing is counted before."""
    with Played(1, ("--timeout", "0", "--report", "1", *MISSED)) as pool, pool.connected() as client:
        ask = b"get a\r\n"
        client.sendall(ask)
        want(received(pool.links[0], len(ask)), ask)
        want(missed(pool), 0)
        pool.links[0].close()
        want(received(client, len(b"END\r\n")), b"END\r\n")
        want(missed_after(pool, 0), 1)


def checks_of_losses():
    """Each of them by its name."""
    for check in (
        a_lost_item_is_a_miss,
        a_reply_that_is_lost_is_a_miss,
        a_lost_request_that_hides_its_reply_is_silent,
        a_lost_change_is_told,
        a_fault_is_told_where_losses_are_missed,
        each_loss_is_told_otherwise,
        what_was_missed_is_counted,
        what_is_lost_on_its_way_is_counted,
    ):
        yield check.__name__, check, ()
