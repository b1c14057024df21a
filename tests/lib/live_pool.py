"""A proxy in front of servers: of those that are started, or of some that a check plays; and the requests and answers that checks of both
share."""

import contextlib
import os
import select
import socket
import struct
import subprocess
import time

from checks import PATIENCE, Wrong, is_served, received, received_to_the_end, want
from rings import Ring
from servers import HOST, Proxy, Server, free_port

LOST = b"SERVER_ERROR link lost\r\n"
ASKED, ANSWER = b"version\r\n", b"VERSION 1\r\n"  # what a proxy asks a server before it is used, and what a server answers
SECONDS_TO_RETURN = 5  # a lost link is tried again at once, after 0.1 to 0.2 seconds, and then each time after twice as long
QUIET = 0.1  # seconds in which nothing arrives if nothing should


class Pool:
    """Servers, and a proxy in front of them. It can be used as the proxy can."""

    programs = None  # the paths of mc_proxyd and of mc_serverd

    def __init__(self, words=(), limits=(), count=2, **streams):
        self.stack = contextlib.ExitStack()
        with self.stack:
            self.servers = [self.stack.enter_context(self.new_server()) for _ in range(count)]
            self.enter_proxy(words, limits, **streams)
            self.stack = self.stack.pop_all()

    def new_server(self, port=None):
        return Server(self.programs[1], port=port)

    def enter_proxy(self, words, limits, **streams):
        addresses = [server.address for server in self.servers]
        self.ring = Ring(addresses)
        streams = {"stderr": subprocess.PIPE, **streams}
        self.proxy = self.stack.enter_context(Proxy(self.programs[0], addresses, words, limits, **streams))

    def __getattr__(self, name):
        return getattr(self.proxy, name)

    def __enter__(self):
        return self

    def __exit__(self, *_):
        self.stack.close()

    def restart(self, place):
        """Starts a server again that was stopped."""
        server = self.servers[place]
        self.servers[place] = self.stack.enter_context(self.new_server(server.port))

    def holds(self, place, key):
        """The value that a server stores under a key, asked without the proxy."""
        with self.servers[place].connected() as direct:
            direct.sendall(b"get %s\r\nquit\r\n" % key)
            return received_to_the_end(direct)


class Played(Pool):
    """Servers that the check plays, and a proxy in front of them that has connected to each: `links` are their connections. Each has answered that
    it is there. The proxy waits for replies for ever, unless its words say otherwise: a check may take its time."""

    class Server:
        def __init__(self):
            self.port = free_port()
            self.address = f"{HOST}:{self.port}"
            self.listen()

        def listen(self):
            self.listener = socket.create_server((HOST, self.port))
            self.listener.settimeout(PATIENCE)

        def accept(self, answer=ANSWER):
            """The next connection, on which the proxy has asked whether the server is there, and has got this answer."""
            link, _ = self.listener.accept()
            link.setsockopt(socket.IPPROTO_TCP, socket.TCP_NODELAY, 1)
            link.settimeout(PATIENCE)
            want(received(link, len(ASKED)), ASKED)
            link.sendall(answer)
            return link

        def __enter__(self):
            return self

        def __exit__(self, *_):
            self.listener.close()

    def __init__(self, count=1, words=("--timeout", "0")):
        self.stack = contextlib.ExitStack()
        with self.stack:
            self.servers = [self.stack.enter_context(Played.Server()) for _ in range(count)]
            self.enter_proxy(words, ())
            self.links = [self.stack.enter_context(server.accept()) for server in self.servers]
            self.stack = self.stack.pop_all()

    def lost(self, place, client, was_reset=False):
        """Checks that a link was reset, if that was not checked yet, and takes the next one. A client that is served shows that the proxy
        has noticed it too."""
        if not was_reset:
            want(bytes_before_a_reset(self.links[place]), 0)
        self.links[place] = self.stack.enter_context(self.servers[place].accept())
        is_served(client)


def bytes_before_a_reset(link):
    """How many bytes arrive before a connection is reset. One that ends otherwise is wrong."""
    count = 0
    try:
        while piece := link.recv(1 << 20):
            count += len(piece)
    except ConnectionResetError:
        return count
    raise Wrong("the connection ended, and was not reset")


def nothing_comes(connection):
    want(select.select([connection], [], [], QUIET)[0], [])


def all_that_comes(connection):
    """All bytes that have arrived already."""
    came = bytearray()
    while select.select([connection], [], [], QUIET / 10)[0]:
        came += connection.recv(1 << 20)
    return bytes(came)


def answered_in_time(client, text, answer, seconds=SECONDS_TO_RETURN):
    """Sends a text until a line arrives other than that of a lost link, and checks that it is this one."""
    deadline = time.monotonic() + seconds
    while True:
        client.sendall(text)
        came = client.recv(4096)
        if came != LOST:
            return want(came, answer)
        if time.monotonic() > deadline:
            raise Wrong("the link stays lost")
        time.sleep(0.02)


def stored(key, value=b"x"):
    """A store of a value, and a get of it, each with its answer."""
    size = len(value)
    asks = b"set %s 0 0 %d\r\n%s\r\n" % (key, size, value), b"get %s\r\n" % key
    return asks[0], b"STORED\r\n", asks[1], b"VALUE %s 0 %d\r\n%s\r\nEND\r\n" % (key, size, value)


def data_segments(connection):
    """How many segments with bytes the system has received on a connection (`tcpi_data_segs_in`)."""
    return struct.unpack_from("I", connection.getsockopt(socket.IPPROTO_TCP, socket.TCP_INFO, 256), 152)[0]


def is_said(proxy, *lines):
    """Checks that these lines are next on the proxy's standard error."""
    stream, came, deadline = proxy.process.stderr, b"", time.monotonic() + PATIENCE
    wanted = b"".join(b"mc_proxyd: %s\n" % line.encode() for line in lines)
    while len(came) < len(wanted) and select.select([stream], [], [], max(0, deadline - time.monotonic()))[0]:
        piece = os.read(stream.fileno(), len(wanted) - len(came))
        if not piece:
            break
        came += piece
    want(came, wanted)


def is_lost_and_refused(proxy, server):
    """Checks that a server is reported as lost, and then as refusing. The server has answered before: a connection that its process has
    not taken yet is reset, and not ended. So is the next one, which its system may have taken while the process ended, or it ends unanswered."""
    line, said = b"", []
    while f"mc_proxyd: {server} refused: connection refused\n" not in said:
        stream = proxy.process.stderr
        if not select.select([stream], [], [], PATIENCE)[0]:
            break
        byte = os.read(stream.fileno(), 1)
        line += byte
        if byte in (b"\n", b""):
            said.append(line.decode())
            line = b""
    first, *more = said
    want(first, f"mc_proxyd: {server} lost: connection ended\n")
    reset = [f"mc_proxyd: {server} {what}\n" for what in ("lost: connection reset", "refused: connection reset", "refused: connection ended")]
    want([each for each in more if each not in reset], [f"mc_proxyd: {server} refused: connection refused\n"])


def nothing_is_said(proxy):
    want(select.select([proxy.process.stderr], [], [], QUIET)[0], [])


def is_asked_and_answers(link, client, key):
    """A get of a client reaches the server that the check plays, and its reply reaches the client."""
    _, _, get, shown = stored(key)
    client.sendall(get)
    want(received(link, len(get)), get)
    link.sendall(shown)
    want(received(client, len(shown)), shown)
