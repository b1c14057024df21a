"""What a proxy does with its links if a network or a server fails, if descriptors are few, and if servers have names of their own.
`checks_of_links` has each check by its name, those of losses.py too; proxyd.py makes them. `Pool.programs` are the programs that are tried.
"""

import contextlib
import resource
import select
import signal
import socket
import subprocess
import time

import lookups
from checks import PATIENCE, asked, is_served, received, received_to_the_end, want, want_at_most
from connections import fields_of, lines_said
from live_pool import (
    ANSWER, LOST, QUIET, Played, Pool, all_that_comes, answered_in_time, bytes_before_a_reset, is_asked_and_answers, is_lost_and_refused,
    is_said, nothing_comes, nothing_is_said, stored,
)  # fmt: skip
from losses import checks_of_losses
from rings import Ring
from servers import HOST, Proxy, Server, connected, free_port

LATE = 0.4  # seconds of a --timeout that a check waits for
USUAL_TIMEOUT = 1  # seconds of the --timeout that a proxy has without the word
KEEPALIVE = {  # a second to the first question, between two, their number, and milliseconds in all
    "a link": (5, 1, 5, 10_000),
    "a client": (30, 10, 3, 60_000),
}
OWN_FILES = 7  # files that a proxy in front of two servers has open beside its clients


def proxy_in_front(words, addresses):
    return Proxy(Pool.programs[0], addresses, words, stderr=subprocess.PIPE)


# Links that the proxy gives up on.


def a_link_that_is_given_up_is_reset():
    """By a late reply, by a protocol violation and by an end in the middle of a reply."""
    with Played(3, ["--timeout", str(int(LATE * 1000))]) as pool, pool.connected() as client:
        late, strange, ends = pool.links
        keys = [pool.ring.key(place) for place in range(3)]
        for link, key in zip(pool.links, keys):
            get = b"get %s\r\n" % key
            client.sendall(get)
            want(received(link, len(get)), get)
        strange.sendall(b"?\r\n")
        ends.sendall(b"VALUE ")
        ends.shutdown(socket.SHUT_WR)
        want(received(client, 3 * len(LOST)), LOST * 3)
        for link in (late, strange, ends):
            want(bytes_before_a_reset(link), 0)


def what_is_undelivered_dies_with_its_link():
    """A server reads nothing, and its link is lost. The bytes that it reads on the old connection later end before the last store, though the
    proxy had sent all of them; stores through the new one arrive whole."""
    with Played(1, ["--timeout", str(int(LATE * 1000))]) as pool, pool.connected() as client:
        put, told, _, _ = stored(b"a", b"old" * 300_000)
        client.sendall(put * 5)
        want(received(client, 5 * len(LOST)), LOST * 5)
        with pool.servers[0].accept() as link:
            is_served(client)
            newer = stored(b"a", b"new")
            client.sendall(newer[0])
            want(received(link, len(newer[0])), newer[0])
            link.sendall(told)
            want(received(client, len(told)), told)
            want_at_most(bytes_before_a_reset(pool.links[0]), 4 * len(put))
            nothing_comes(link)


# Servers that are late.


def a_large_reply_may_take_long():
    """Its bytes arrive at more than 64 KB a second, and take several times as long as the timeout. The next reply stops in the middle: its link is
    lost a timeout after the last one was taken, and a millisecond more for each 64 bytes."""
    with Played(1, ["--timeout", str(int(LATE * 1000))]) as pool, pool.connected() as client:
        [link] = pool.links
        _, _, get, shown = stored(b"a", b"v" * 500_000)
        client.sendall(get)
        want(received(link, len(get)), get)
        for place in range(0, len(shown), 50_000):
            link.sendall(shown[place : place + 50_000])
            time.sleep(LATE / 2)
        want(received(client, len(shown)) == shown, True)
        begun = time.monotonic()
        client.sendall(get)
        want(received(link, len(get)), get)
        link.sendall(shown[:64])
        want(received(client, len(LOST)), LOST)
        want(LATE - 0.01 < time.monotonic() - begun < LATE + 1.5, True)
        is_said(pool, f"{pool.servers[0].address} lost: no reply in time")


def a_server_that_drips_is_late():
    """It sends a byte of its reply again and again, each in time, and is lost after one timeout."""
    with Played(1, ["--timeout", "500"]) as pool, pool.connected() as client:
        [link] = pool.links
        _, _, get, shown = stored(b"a", b"v" * 100)
        client.sendall(get)
        want(received(link, len(get)), get)
        begun = time.monotonic()
        for byte in shown:
            with contextlib.suppress(ConnectionError):
                link.sendall(bytes([byte]))
            if select.select([client], [], [], 0.3)[0]:
                break
        want(received(client, len(LOST)), LOST)
        want(0.49 < time.monotonic() - begun < 1.5, True)
        is_said(pool, f"{pool.servers[0].address} lost: no reply in time")


def no_command_is_older_than_four_timeouts():
    """A server answers one command in each three quarters of a timeout, and always gets the next: no reply is late by itself, but the commands are
    more and more behind. Its link is lost before one has waited for four timeouts."""
    with Played(1, ["--timeout", str(int(LATE * 1000))]) as pool, pool.connected() as client:
        [link] = pool.links
        client.sendall(b"get a\r\n" * 20)
        begun = time.monotonic()
        want(received(link, 7 * 20), b"get a\r\n" * 20)
        answered = 0
        while not select.select([client], [], [], LATE * 0.75)[0] or client.recv(len(LOST), socket.MSG_PEEK)[:5] == b"END\r\n":
            with contextlib.suppress(ConnectionError):
                link.sendall(b"END\r\n")
            answered += len(all_that_comes(client)) // 5
            want_at_most(time.monotonic() - begun, 4 * LATE)
        want(received(client, (20 - answered) * len(LOST)), LOST * (20 - answered))
        want(time.monotonic() - begun > 2 * LATE - 0.01, True)
        is_said(pool, f"{pool.servers[0].address} lost: no reply in time")


# Servers that do not answer before they are used.


def a_server_that_answers_nobody_is_down():
    """Its system accepts the connection. Requests for its keys are lost at once, from the first client on, and others are answered."""
    with contextlib.ExitStack() as stack:
        mute, other = (stack.enter_context(Played.Server()) for _ in range(2))
        addresses = [mute.address, other.address]
        proxy = stack.enter_context(proxy_in_front([], addresses))
        links = [stack.enter_context(server.accept(answer)) for server, answer in ((mute, b""), (other, ANSWER))]
        client = stack.enter_context(proxy.connected())
        mine, others = (Ring(addresses).key(place) for place in (0, 1))
        is_served(client)
        is_said(proxy, f"{mute.address} refused: no answer")
        with mute.accept(ANSWER[:-1]) as link:
            for _ in range(3):
                begun = time.monotonic()
                asked(client, b"get %s\r\n" % mine, LOST)
                want_at_most(time.monotonic() - begun, LATE)
                is_asked_and_answers(links[1], client, others)
            nothing_is_said(proxy)
            link.sendall(ANSWER[-1:])
            is_said(proxy, f"{mute.address} back")
            is_asked_and_answers(link, client, mine)


def what_does_not_answer_as_a_server_is_refused():
    """By another line, by more than the line, and by a line that is too long. It is asked again after a second."""
    with Played(2) as pool, pool.connected() as client:
        odd = pool.servers[0]
        pool.links[0].close()
        is_said(pool, f"{odd.address} lost: connection ended")
        for answer in (b"ERROR\r\n", b"VERSION 1\r\nEND\r\n", b"VERSION 1\n", b"VERSION " + b"1" * 119 + b"\r\n", b"\0"):
            with odd.accept(answer) as link:
                want(received_or_reset(link), b"")
            asked(client, b"get %s\r\n" % pool.ring.key(0), LOST)
            is_asked_and_answers(pool.links[1], client, pool.ring.key(1))
        is_said(pool, f"{odd.address} refused: strange reply")
        with odd.accept(b"VERSION " + b"1" * 118 + b"\r\n") as link:
            is_said(pool, f"{odd.address} back")
            is_asked_and_answers(link, client, pool.ring.key(0))


def received_or_reset(link):
    """What arrives before a connection is over."""
    with contextlib.suppress(ConnectionResetError):
        return received_to_the_end(link)
    return b""


def a_hung_server_is_given_up_without_words():
    """In a second: a client of another server's keys is delayed at most that long."""
    with Pool() as pool, pool.connected() as client, pool.connected() as other:
        hung, others = (b"get %s\r\n" % pool.ring.key(place) for place in (0, 1))
        is_served(client)
        pool.servers[0].process.send_signal(signal.SIGSTOP)
        begun = time.monotonic()
        client.sendall(hung + others)
        asked(other, others, b"END\r\n")
        want(received(client, len(LOST) + 5), LOST + b"END\r\n")
        want(USUAL_TIMEOUT - 0.01 < time.monotonic() - begun < USUAL_TIMEOUT + 2, True)
        pool.servers[0].process.send_signal(signal.SIGCONT)
        answered_in_time(client, hung, b"END\r\n")


def figure(port, server, name):
    """A figure of a server's link, as an operator is shown it at a port."""
    with connected(port) as operator:
        operator.sendall(b"stats\r\nquit\r\n")
        lines = received_to_the_end(operator).decode().splitlines()
    [number] = [line.rpartition(" ")[2] for line in lines if line.startswith(f"STAT server:{server}:{name} ")]
    return int(number)


def shown_up(port, server):
    return figure(port, server, "up") == 1


def a_hung_server_is_down_until_it_answers():
    """Its system accepts each connection. After one timeout requests for its keys are lost at once, and it is used again within a second."""
    port = free_port()
    with Pool(["--timeout", str(int(LATE * 1000)), "--admin", f"{HOST}:{port}"]) as pool, pool.connected() as client:
        hung, get = pool.servers[0], b"get %s\r\n" % pool.ring.key(0)
        asked(client, get, b"END\r\n")
        want(shown_up(port, hung.address), True)
        hung.process.send_signal(signal.SIGSTOP)
        asked(client, get, LOST)
        is_said(pool, f"{hung.address} lost: no reply in time")
        deadline = time.monotonic() + 5
        while time.monotonic() < deadline:
            begun = time.monotonic()
            asked(client, get, LOST)
            want_at_most(time.monotonic() - begun, LATE / 2)
            want(shown_up(port, hung.address), False)
            time.sleep(QUIET)
        is_said(pool, f"{hung.address} refused: no answer")
        nothing_is_said(pool)
        hung.process.send_signal(signal.SIGCONT)
        answered_in_time(client, get, b"END\r\n", 1)
        is_said(pool, f"{hung.address} back")
        want(shown_up(port, hung.address), True)


def a_server_is_back_though_nobody_asks():
    """Once it has answered the proxy."""
    port = free_port()
    with Pool(["--admin", f"{HOST}:{port}"]) as pool, pool.connected() as client:
        asked(client, b"get %s\r\n" % pool.ring.key(0), b"END\r\n")
        gone = pool.servers[0].address
        pool.servers[0].stop()
        is_lost_and_refused(pool, gone)
        want(shown_up(port, gone), False)
        pool.restart(0)
        is_said(pool, f"{gone} back")
        want(shown_up(port, gone), True)
        asked(client, b"get %s\r\n" % pool.ring.key(0), b"END\r\n")


def a_server_that_was_away_is_used_soon():
    """It was away for a moment: the second try at it follows after 0.1 to 0.2 seconds, and the third after 0.2 to 0.4 more, however often it was away
    before."""
    with Played() as pool, pool.connected() as client:
        [server] = pool.servers
        for _ in range(4):
            time.sleep(1)  # A connection that lasted a second is followed by the next at once.
            server.listener.close()
            pool.links[0].close()
            time.sleep(0.05)
            begun = time.monotonic()
            server.listen()
            pool.links[0] = pool.stack.enter_context(server.accept())
            want_at_most(time.monotonic() - begun, 0.8)
            is_served(client)
            is_asked_and_answers(pool.links[0], client, b"a")


# Servers that close idle clients.


class Closing(Pool):
    """A pool whose servers close a client that has sent nothing for three seconds, and so a link."""

    def new_server(self, port=None):
        return Server(self.programs[1], port=port, words=["--idle", "3"])


def a_link_that_nobody_needs_is_ended_and_nothing_is_lost():
    """One of two links gets requests all the time, and stays. The other ends once nobody has needed it for as long as --idle says. The proxy
    connects again at once, so the next get is answered rightly. No command is lost."""
    port = free_port()
    with Closing(["--admin", f"{HOST}:{port}"]) as pool, pool.connected() as client:
        quiet, busy = (server.address for server in pool.servers)
        (put, told, get, shown), ask_busy = stored(pool.ring.key(0)), b"get %s\r\n" % pool.ring.key(1)
        begun = time.monotonic()
        asked(client, put, told)
        while figure(port, quiet, "losses") == 0 or not shown_up(port, quiet):
            want_at_most(time.monotonic() - begun, PATIENCE)
            asked(client, ask_busy, b"END\r\n")
            time.sleep(QUIET)
        want(time.monotonic() - begun > 3, True)
        is_said(pool, f"{quiet} lost: connection ended")
        asked(client, get, shown)
        want([figure(port, quiet, name) for name in ("losses", "lost")], [1, 0])
        want([figure(port, busy, name) for name in ("losses", "lost")], [0, 0])
        is_said(pool, f"{quiet} back")


# Peers that vanish silently.


def the_system_looks_for_peers():
    """The times of TCP's keepalive on each connection of the proxy, and how long it waits for a peer that confirms nothing."""
    with Pool() as pool, pool.connected() as client:
        is_served(client)
        names = (socket.TCP_KEEPIDLE, socket.TCP_KEEPINTVL, socket.TCP_KEEPCNT, socket.TCP_USER_TIMEOUT)
        seen = {"a link": [], "a client": []}
        for each in pool.connections():
            what = "a client" if each.getsockname()[1] == pool.port else "a link"
            want(each.getsockopt(socket.SOL_SOCKET, socket.SO_KEEPALIVE), 1)
            seen[what].append(tuple(each.getsockopt(socket.IPPROTO_TCP, name) for name in names))
            each.close()
        want(seen, {"a link": [KEEPALIVE["a link"]] * 2, "a client": [KEEPALIVE["a client"]]})


def a_server_that_takes_nothing_is_gone():
    """Without --timeout: its system takes no more bytes for ten seconds."""
    with Played(1, ["--timeout", "0"]) as pool, pool.connected() as client:
        put, _, _, _ = stored(b"a", b"v" * 1_000_000)
        begun = time.monotonic()
        with contextlib.suppress(TimeoutError):
            client.settimeout(1)
            client.sendall(put * 7)
        client.settimeout(2 * PATIENCE)
        want(received(client, len(LOST)), LOST)
        want(9 < time.monotonic() - begun < 2 * PATIENCE, True)
        is_said(pool, f"{pool.servers[0].address} lost: timed out")


# Few descriptors.


def descriptors_of_links_are_reserved():
    """Clients that wait for a place do not take the descriptor of a lost link: its server is used again while they wait. It is reported once."""
    most = 5
    with Pool(limits=[(resource.RLIMIT_NOFILE, OWN_FILES + most)]) as pool, contextlib.ExitStack() as stack:
        files = f"{OWN_FILES + most} open files"
        is_said(pool, f"{files}: {most} connections can be served at a time")
        clients = [stack.enter_context(pool.connected()) for _ in range(2 * most)]
        for client in clients:
            client.sendall(b"version\r\n")
        for client in clients[:most]:
            want(received(client, 15), b"VERSION 1.6.0\r\n")
        is_said(pool, f"no more clients: {files} allow {most}")
        asked(clients[0], b"get %s\r\n" % pool.ring.key(0), b"END\r\n")
        gone = pool.servers[0].address
        for _ in range(2):
            time.sleep(1.1)  # At most one line in a second is written of it.
            pool.servers[0].stop()
            is_lost_and_refused(pool, gone)
            pool.restart(0)
            answered_in_time(clients[0], b"get %s\r\n" % pool.ring.key(0), b"END\r\n")
            is_said(pool, f"{gone} back")
        want(select.select(clients[most:], [], [], 0)[0], [])
        for client in clients[:most]:
            client.close()
        for client in clients[most:]:
            want(received(client, 15), b"VERSION 1.6.0\r\n")


def a_link_without_a_descriptor_is_told_so():
    """Of two servers the second has none left."""
    with Pool(limits=[(resource.RLIMIT_NOFILE, OWN_FILES - 1)]) as pool:
        told = f"mc_proxyd: {OWN_FILES - 1} open files: 0 connections can be served at a time"
        want(lines_said(pool, 2), [told, f"mc_proxyd: {pool.servers[1].address} refused: too many open files"])


# Names that are resolved.


def a_silent_name_server_holds_up_nobody():
    lookups.in_a_network_of_its_own(*map(str, Pool.programs))


# Names apart from addresses.


def a_server_is_replaced_at_another_address():
    """Keys are spread by names: a proxy that is started with another address for one moves no key. The name is in all lines."""
    names = ["a:1", "cache-b.example:2"]
    ring = Ring(names)
    keys = [ring.key(place) for place in (0, 1)]
    with Server(Pool.programs[1]) as first, Server(Pool.programs[1]) as second, Server(Pool.programs[1]) as other:
        for servers in ((first, second), (other, second)):
            words = [f"{name}={server.address}" for name, server in zip(names, servers)]
            with proxy_in_front(["--report", "1"], words) as proxy, proxy.connected() as client:
                for server, key in zip(servers, keys):
                    asked(client, *stored(key, b"at " + server.address.encode())[:2])
                    with server.connected() as direct:
                        asked(direct, *stored(key, b"at " + server.address.encode())[2:])
                told = lines_said(proxy, 3)[1:]
                want([fields_of(line, "mc_proxyd")["server"] for line in told], names)
        with proxy_in_front([], words) as proxy, proxy.connected() as client:
            for server, key in zip((other, second), keys):
                asked(client, *stored(key, b"at " + server.address.encode())[2:])
            other.stop()
            is_lost_and_refused(proxy, names[0])


def a_server_joins_by_its_name():
    with Server(Pool.programs[1]) as third:
        with Pool(["--join", f"c:3={third.address}", "--join-after", "1"]) as pool, pool.connected() as client:
            key = Ring([*(server.address for server in pool.servers), "c:3"]).key(2)
            asked(client, *stored(key)[:2])
            with third.connected() as direct:
                asked(direct, *stored(key)[2:])
            third.stop()
            is_lost_and_refused(pool, "c:3")


def two_names_may_have_one_address():
    with Server(Pool.programs[1]) as server:
        with proxy_in_front([], [f"a:1={server.address}", f"b:1={server.address}"]) as proxy, proxy.connected() as client:
            for key in (Ring(["a:1", "b:1"]).key(place) for place in (0, 1)):
                asked(client, *stored(key)[:2])
                with server.connected() as direct:
                    asked(direct, *stored(key)[2:])


def checks_of_links():
    """Each of them by its name."""
    for check in (
        a_link_that_is_given_up_is_reset,
        what_is_undelivered_dies_with_its_link,
        a_large_reply_may_take_long,
        a_server_that_drips_is_late,
        no_command_is_older_than_four_timeouts,
        a_server_that_answers_nobody_is_down,
        what_does_not_answer_as_a_server_is_refused,
        a_hung_server_is_given_up_without_words,
        a_hung_server_is_down_until_it_answers,
        a_server_is_back_though_nobody_asks,
        a_server_that_was_away_is_used_soon,
        a_link_that_nobody_needs_is_ended_and_nothing_is_lost,
        the_system_looks_for_peers,
        a_server_that_takes_nothing_is_gone,
        descriptors_of_links_are_reserved,
        a_link_without_a_descriptor_is_told_so,
        a_silent_name_server_holds_up_nobody,
        a_server_is_replaced_at_another_address,
        a_server_joins_by_its_name,
        two_names_may_have_one_address,
    ):
        yield check.__name__, check, ()
    yield from checks_of_losses()
