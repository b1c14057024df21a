#!/usr/bin/env python3
"""Tries which settings of nutcracker keep a site's keys where mc_proxyd looks for them (docs/RUNNING.md has the counts).

Usage: moving.py SERVER [PROXY]      (SERVER is the built mc_serverd, PROXY mc_proxyd; nutcracker is Debian's)

For each setting four servers are flushed, 1,000 keys are set through nutcracker, and then got through PROXY, in front of the same servers.
The line of a setting has the hits. Without PROXY each key is requested from the server that the plain model of the ring names
(tests/lib/rings.py). A setting that keeps the keys has 1,000 hits, and as many in the other direction: set through PROXY, got through
nutcracker. One that moves all keys has fewer than half, and unequal weights fewer than all. The servers of port 11211 listen at 127.77.0.1
to 127.77.0.4. The last line is 'N passed, M failed'.
"""

import contextlib
import os
import pathlib
import shutil
import socket
import subprocess
import sys
import tempfile

sys.path.insert(0, str(pathlib.Path(__file__).resolve().parents[1] / "lib"))

from rings import Ring
from servers import HOST, Listener, Proxy, free_port

NUTCRACKER = shutil.which("nutcracker", path=os.environ["PATH"] + ":/usr/sbin")
KEYS = [f"user:{number}".encode() for number in range(1000)]
TAGGED = [f"{{user:{number}}}:page".encode() for number in range(1000)]
HASHES = "one_at_a_time crc16 crc32 crc32a fnv1_64 fnv1a_64 fnv1_32 fnv1a_32 hsieh murmur jenkins".split()
NAMES = [f"cache-{letter}:1" for letter in "abcd"]
POOL = "pool:\n  listen: {listen}\n  preconnect: true\n{lines}  servers:\n{servers}"


def plain(address, place):
    return f"{address}:1"


def of_its_address(address, place):
    return f"{address}:1 {address}"


def of_a_name(address, place):
    return f"{address}:1 {NAMES[place]}"


# A setting: whether its keys stay (None: some do), the lines of its pool, how a server is written, and the keys that are set.
MD5 = "hash: md5, distribution: ketama"
SETTINGS = {
    "host:port:1": (True, MD5, plain, KEYS),
    "host:port:5 for each": (True, MD5, lambda address, place: f"{address}:5", KEYS),
    "host:port:1, in the reverse order": (True, MD5, plain, KEYS),
    "host:port:1 with the name host:port": (True, MD5, of_its_address, KEYS),
    "host:port:3 and 1 with the name host:port": (None, MD5, lambda address, place: f"{address}:{3 - 2 * (place > 0)} {address}", KEYS),
    "host:port:1 with a name cache-a:1, which mc_proxyd is given too": (True, MD5, of_a_name, KEYS),
    "host:port:1 with a name cache1": (False, MD5, lambda address, place: f"{address}:1 cache{place + 1}", KEYS),
    "weights 3, 1, 1, 1": (None, MD5, lambda address, place: f"{address}:{3 - 2 * (place > 0)}", KEYS),
    "hash_tag {}, keys without a tag": (True, f"{MD5}, hash_tag: \"{{}}\"", plain, KEYS),
    "hash_tag {}, keys with a tag": (False, f"{MD5}, hash_tag: \"{{}}\"", plain, TAGGED),
    "port 11211": (False, MD5, plain, KEYS),
    "port 11211, with the name host:port": (True, MD5, of_its_address, KEYS),
    "distribution: modula": (False, "hash: md5, distribution: modula", plain, KEYS),
    "distribution: random": (False, "hash: md5, distribution: random", plain, KEYS),
    "neither hash nor distribution": (False, "", plain, KEYS),
    **{f"hash: {name}": (False, f"hash: {name}, distribution: ketama", plain, KEYS) for name in HASHES},
}


class At(Listener):
    """A program that prints where it listens: at this address of the machine's own network."""

    def __init__(self, program, address, words):
        self.where = address
        super().__init__(program, ["--listen", address, *words], int(address.rpartition(":")[2]))

    def await_start(self):
        self.address = self.where
        super().await_start()


class Nutcracker(Listener):
    says_where = False

    def __init__(self, lines, servers):
        self.folder = tempfile.TemporaryDirectory()
        folder, port = pathlib.Path(self.folder.name), free_port()
        lines = "".join(f"  {line}\n" for line in lines.split(", ") if line)
        servers = "".join(f"   - {server}\n" for server in servers)
        (folder / "pool.yml").write_text(POOL.format(listen=f"{HOST}:{port}", lines=lines, servers=servers))
        words = f"-c {folder}/pool.yml -o {folder}/log -p {folder}/pid -a {HOST} -s {free_port()}".split()
        super().__init__(NUTCRACKER, words, port, stderr=subprocess.DEVNULL)

    def stop(self):
        super().stop()
        self.folder.cleanup()


def at_address(address):
    host, _, port = address.rpartition(":")
    return socket.create_connection((host, int(port)), timeout=10)


def stored(connection, keys):
    """How many of these keys a server or a proxy stores, each with itself as its value."""
    count = 0
    with connection, connection.makefile("rb") as answers:
        for key in keys:
            connection.sendall(b"set %b 0 0 %d\r\n%b\r\n" % (key, len(key), key))
            count += answers.readline() == b"STORED\r\n"
    return count


def hits(connection, keys):
    """How many of these keys it answers with their values."""
    count = 0
    with connection, connection.makefile("rb") as answers:
        for key in keys:
            connection.sendall(b"get %b\r\n" % key)
            line = answers.readline()
            if line == b"VALUE %b 0 %d\r\n" % (key, len(key)):
                count += answers.readline() == key + b"\r\n" and answers.readline() == b"END\r\n"
            elif line != b"END\r\n":
                raise RuntimeError(f"get {key!r} is answered {line!r}")
    return count


def asked(addresses, names, proxy, keys):
    """The connections on which the keys are requested, each with its keys: the proxy, or their owners by the model."""
    if proxy:
        return [(proxy.connected(), keys)]
    ring = Ring(names)
    owned = [[key for key in keys if ring.owner(key) == place] for place in range(len(addresses))]
    return [(at_address(address), own) for address, own in zip(addresses, owned)]


def empty(addresses):
    for address in addresses:
        with at_address(address) as server:
            server.sendall(b"flush_all\r\n")
            if server.recv(10) != b"OK\r\n":
                raise RuntimeError(f"{address} was not flushed")


def tried(addresses, names, proxy, stays, lines, text_of, keys, is_reversed):
    """The hits of a setting over empty servers, and whether they are as expected."""
    texts = [text_of(address, place) for place, address in enumerate(addresses)]
    with Nutcracker(lines, texts[::-1] if is_reversed else texts) as older:
        empty(addresses)
        if stored(older.connected(), keys) != len(keys):
            raise RuntimeError("nutcracker did not store all keys")
        found = sum(hits(*each) for each in asked(addresses, names, proxy, keys))
        if not stays:
            return found, found < (len(keys) if stays is None else len(keys) / 2)
        empty(addresses)
        back = sum(stored(*each) for each in asked(addresses, names, proxy, keys))
        return found, found == back == hits(older.connected(), keys) == len(keys)


def main(server, proxy_program=None):
    if NUTCRACKER is None:
        print("moving.py: nutcracker is not installed (Debian: nutcracker), so nothing was tried")
        return 1
    passed = failed = 0
    with contextlib.ExitStack() as stack:
        usual = [f"{HOST}:{free_port()}" for _ in range(4)]
        of_11211 = [f"127.77.0.{number}:11211" for number in range(1, 5)]
        pools = {}
        for addresses in (usual, of_11211):
            for address in addresses:
                stack.enter_context(At(server, address, []))
        named = [f"{name}={address}" for name, address in zip(NAMES, usual)]
        for words in (usual, of_11211, named):
            pools[words[0]] = stack.enter_context(Proxy(proxy_program, words)) if proxy_program else None
        for name, setting in SETTINGS.items():
            addresses = of_11211 if "11211" in name else usual
            names, words = (NAMES, named) if setting[2] is of_a_name else (addresses, addresses)
            found, right = tried(addresses, names, pools[words[0]], *setting, "reverse" in name)
            print(f"{name}: {found} hits of 1,000" + ("" if right else ": FAILED"))
            passed, failed = passed + right, failed + (not right)
    print(f"{passed} passed, {failed} failed")
    return 1 if failed else 0


if __name__ == "__main__":
    if len(sys.argv) not in (2, 3):
        sys.exit(__doc__)
    sys.exit(main(*sys.argv[1:]))
