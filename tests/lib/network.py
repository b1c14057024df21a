"""Hosts in network namespaces, joined by one wire that a script controls packet by packet.

    with Network() as network:
        host = network.host()                            ..a namespace with an address of its own (host.address)
        Server(program, on=host, port=11211)             ..a server on it (servers.py)
        host.connected(other.address, port)              ..a connection from it
        network.wire(host, other, Wire(drops=True))      ..packets from one to the other are dropped

Each host has a TUN device. A process of the network reads each packet from the device of one host and writes it to that of another:
so packets are dropped, delayed, mixed up, sent twice or replaced by resets, each way by itself, and the systems of both hosts
see what a cable, a switch or a dead machine would show them. No netem, bridge, packet filter or service is needed, and nothing of
the machine's own network changes: the namespaces end with the script.

Linux, /dev/net/tun, and the right to make namespaces: root, or a system that lets every user make them.
"""

import collections
import contextlib
import ctypes
import dataclasses
import fcntl
import heapq
import itertools
import multiprocessing
import os
import pickle
import random
import selectors
import socket
import struct
import subprocess
import threading
import time

CLONE_NEWUSER, CLONE_NEWNET = 0x10000000, 0x40000000
TUNSETIFF, IFF_TUN, IFF_NO_PI = 0x400454CA, 0x0001, 0x1000
DEVICE = "wire"
PACKETS_WAITING = 10_000  # of a device; more are dropped, as by a switch that is full
PACKETS_A_TURN = 64
LONGEST_QUEUE = 0.3  # seconds of packets that wait for a slow wire; more are dropped, as by a router
SUBNET = "10.77.0."
RST, ACK, SYN = 0x04, 0x10, 0x02

libc = ctypes.CDLL(None, use_errno=True)


def called(name, *words):
    if getattr(libc, name)(*words) != 0:
        code = ctypes.get_errno()
        raise OSError(code, f"{name}: {os.strerror(code)}")


def in_a_thread(function, *words):
    """The result of a function in a thread of its own: a thread that enters a namespace takes none of the others with it."""
    given = []

    def run():
        try:
            given.extend((function(*words), None))
        except OSError as error:
            given.extend((None, error))

    thread = threading.Thread(target=run)
    thread.start()
    thread.join()
    value, error = given
    if error is not None:
        raise error
    return value


def unshare():
    """Leaves the machine's network; if that needs it, as root of a user namespace. It must be called before there are threads."""
    user, group = os.geteuid(), os.getegid()
    try:
        called("unshare", CLONE_NEWNET)
    except PermissionError:
        called("unshare", CLONE_NEWUSER | CLONE_NEWNET)
        for name, text in (("setgroups", "deny"), ("uid_map", f"0 {user} 1"), ("gid_map", f"0 {group} 1")):
            with open(f"/proc/self/{name}", "w") as file:
                file.write(text)


@dataclasses.dataclass(frozen=True)
class Wire:
    """What happens to the packets from one host to another."""

    drops: bool = False
    loses: float = 0  # the part of the packets that is dropped
    twice: float = 0  # the part that arrives twice
    delay: tuple = (0, 0)  # seconds, the least and the most
    mixes: bool = False  # whether a packet with a shorter delay overtakes
    rate: float = 0  # bytes a second; 0: any number


class Host:
    """A network namespace with one address."""

    def __init__(self, network, number):
        self.network, self.number, self.address = network, number, f"{SUBNET}{number}"
        self.namespace = None
        self.boot()

    def boot(self):
        """Makes the namespace, anew if there was one: its connections are gone, and nobody was notified."""
        before = self.namespace
        self.namespace, device = in_a_thread(self.made)
        for words in (f"addr add {self.address}/24 dev {DEVICE}", f"link set {DEVICE} txqueuelen {PACKETS_WAITING} up", "link set lo up"):
            subprocess.run([*self.entering(), "ip", *words.split()], pass_fds=[self.namespace], check=True)
        self.network.plug(self.number, device)
        os.close(device)
        if before is not None:
            os.close(before)

    @staticmethod
    def made():
        called("unshare", CLONE_NEWNET)
        device = os.open("/dev/net/tun", os.O_RDWR | os.O_NONBLOCK)
        fcntl.ioctl(device, TUNSETIFF, struct.pack("16sH22x", DEVICE.encode(), IFF_TUN | IFF_NO_PI))
        return os.open("/proc/thread-self/ns/net", os.O_RDONLY), device

    def entering(self):
        """The words before those of a program that will run on this host. It inherits `namespace`."""
        return ["nsenter", f"--net=/proc/self/fd/{self.namespace}"]

    def connected(self, address, port, timeout=10):
        """A connection from this host."""

        def connect():
            called("setns", self.namespace, CLONE_NEWNET)
            connection = socket.create_connection((address, port), timeout=timeout)
            connection.setsockopt(socket.IPPROTO_TCP, socket.TCP_NODELAY, 1)
            return connection

        return in_a_thread(connect)


class Network:
    """Hosts, and the process that carries their packets."""

    def __init__(self, seed=1):
        unshare()
        self.numbers = itertools.count(1)
        self.end, carriers = socket.socketpair(socket.AF_UNIX, socket.SOCK_SEQPACKET)
        self.process = multiprocessing.get_context("fork").Process(target=carry, args=(carriers, self.end, seed), daemon=True)
        self.process.start()
        carriers.close()

    def host(self):
        return Host(self, next(self.numbers))

    def tell(self, *words, files=()):
        """Sends the carrier a command, and returns its answer once it is done."""
        socket.send_fds(self.end, [pickle.dumps(words)], list(files))
        return pickle.loads(self.end.recv(1 << 16))

    def plug(self, number, device):
        self.tell("plug", number, files=[device])

    def wire(self, one, other, wire=None):
        """From now on packets from one host to another are carried by this wire; with no wire, all at once."""
        self.tell("wire", one.number, other.number, wire)

    def reset(self, one, other, with_bytes=False):
        """The next segment of a connection from one host to another, or the next that has bytes, arrives as a reset in its place. A
        segment with bytes is sent again, so that its sender meets a reset too."""
        self.tell("reset", one.number, other.number, with_bytes)

    def resets_left(self):
        """How many of those have not been made yet. They are forgotten."""
        return self.tell("resets left")

    def counts(self):
        """Packets by their outcome: carried, dropped, delayed, doubled, reset, strange (to no host)."""
        return self.tell("counts")

    def __enter__(self):
        return self

    def __exit__(self, *_):
        self.end.close()
        self.process.join(5)
        if self.process.is_alive():
            self.process.kill()


# The carrier.


def checksum(words):
    total = sum(struct.unpack(f"!{len(words) // 2}H", words))
    while total >> 16:
        total = (total & 0xFFFF) + (total >> 16)
    return ~total & 0xFFFF


def is_segment(packet, with_bytes):
    """Whether a packet is a segment of a connection that is made already, and has bytes if it should have some."""
    is_one = packet[0] == 0x45 and packet[9] == socket.IPPROTO_TCP and packet[33] & (SYN | RST | ACK) == ACK
    return is_one and (not with_bytes or len(packet) > 20 + (packet[32] >> 4) * 4)


def reset_of(packet):
    """A reset in place of a segment: with its addresses and its number, so that its receiver takes it."""
    tcp = packet[20:32] + struct.pack("!BBHHH", 5 << 4, RST | ACK, 0, 0, 0)
    pseudo = packet[12:20] + struct.pack("!BBH", 0, socket.IPPROTO_TCP, len(tcp))
    tcp = tcp[:16] + struct.pack("!H", checksum(pseudo + tcp)) + tcp[18:]
    head = packet[:2] + struct.pack("!H", 20 + len(tcp)) + packet[4:10] + b"\0\0" + packet[12:20]
    return head[:10] + struct.pack("!H", checksum(head)) + head[12:] + tcp


class Carrier:
    """Reads packets from the devices of all hosts, and writes them to those of others."""

    def __init__(self, control, seed):
        self.control, self.dice = control, random.Random(seed)
        self.devices, self.wires, self.resets = {}, {}, {}
        self.late, self.order = [], itertools.count()  # packets that wait: when, in which order, to whom
        self.last, self.counts = {}, collections.Counter()
        self.selector = selectors.DefaultSelector()
        self.selector.register(control, selectors.EVENT_READ)

    def run(self):
        while True:
            wait = max(self.late[0][0] - time.monotonic(), 0) if self.late else None
            for key, _ in self.selector.select(wait):
                if key.fileobj is not self.control:
                    self.take(key.data)
                elif not self.hear():
                    return
            now = time.monotonic()
            while self.late and self.late[0][0] <= now:
                self.put(*heapq.heappop(self.late)[2:])

    def hear(self):
        """Does what the script commands. False if the script has ended."""
        words, files, *_ = socket.recv_fds(self.control, 1 << 16, 1)
        if not words:
            return False
        name, *words = pickle.loads(words)
        answer = getattr(self, name.replace(" ", "_") + "_is_told")(*words, *files)
        self.control.send(pickle.dumps(answer))
        return True

    def plug_is_told(self, number, device):
        if number in self.devices:
            self.selector.unregister(self.devices[number])
            os.close(self.devices[number])
        self.devices[number] = device
        self.selector.register(device, selectors.EVENT_READ, number)

    def wire_is_told(self, one, other, wire):
        self.wires[one, other] = wire

    def reset_is_told(self, one, other, with_bytes):
        self.resets[one, other] = with_bytes

    def resets_left_is_told(self):
        left = len(self.resets)
        self.resets.clear()
        return left

    def counts_is_told(self):
        return self.counts

    def take(self, one):
        """Reads packets of a host."""
        for _ in range(PACKETS_A_TURN):
            try:
                packet = os.read(self.devices[one], 65_536)
            except BlockingIOError:
                return
            if packet[0] >> 4 == 4:  # The system asks for neighbours by IPv6 too.
                self.carry(one, packet[19], packet)

    def carry(self, one, other, packet):
        wire = self.wires.get((one, other))
        if wire is not None and (wire.drops or self.dice.random() < wire.loses):
            self.counts["dropped"] += 1
            return
        if (one, other) in self.resets and is_segment(packet, self.resets[one, other]):
            del self.resets[one, other]
            self.counts["reset"] += 1
            packet = reset_of(packet)
        if wire is None:
            self.put(other, packet)
            return
        for _ in range(1 + (self.dice.random() < wire.twice)):
            self.put_later(one, other, packet, wire)

    def put_later(self, one, other, packet, wire):
        now = time.monotonic()
        last = self.last.get((one, other), now)
        due = now + self.dice.uniform(*wire.delay)
        if wire.rate:
            due = max(due, last + len(packet) / wire.rate)
        if not wire.mixes:
            due = max(due, last)
        if wire.rate and due > now + LONGEST_QUEUE:
            self.counts["dropped"] += 1
            return
        self.last[one, other] = due
        if due <= now:
            self.put(other, packet)
            return
        self.counts["delayed"] += 1
        heapq.heappush(self.late, (due, next(self.order), other, packet))

    def put(self, other, packet):
        try:
            os.write(self.devices[other], packet)
            self.counts["carried"] += 1
        except (OSError, KeyError):
            self.counts["strange"] += 1


def carry(control, other_end, seed):
    other_end.close()
    with contextlib.suppress(KeyboardInterrupt):
        Carrier(control, seed).run()
