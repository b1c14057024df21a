#!/usr/bin/env python3
"""Writes a script of random commands for mc_sim: several clients, few keys, a fixed seed.

Usage: random_script.py [COMMANDS [SEED [CLIENTS [PIECES]]]]      (10,000 commands, seed 1, 8 clients, `commands`)

Half of the commands are meta commands. Most name a key of the last few, so that one command meets what another left.
The script is played to the model (model.py) while it is written, which knows the numbers and deadlines of the stored
items: so numbers that are compared are often the right ones, and moments often those at which something ends. A key is
written plain and in base64.

Each command is sent by a random client, sometimes cut in two at a random place with a turn of another client between,
and is followed by a turn of its client; a run of quiet commands, ended by `mn`, is one piece, with as many turns as it
has commands. With `bytes` for the pieces each byte arrives by itself, with a turn of its client after it. Moments
mostly rise by 0 to 2 seconds, and now and then fall back.
"""

import base64
import random
import sys

from model import Server, escaped

KEYS = 50
BUDGET = 8192
ITEMS = 40
EXPTIMES = [0, 0, 0, 0, 0, 0, 0, 2, 3, 5, 8, 60, 60, -1, 2592001, 4000]


def value(dice):
    kind = dice.random()
    if kind < 0.6:
        return str(dice.choice([0, 1, 7, 99, 2**64 - 1, dice.randrange(2**64)])).encode()
    if kind < 0.9:
        return bytes(dice.randrange(256) for _ in range(dice.randrange(40)))
    if kind < 0.99:
        return bytes(dice.choice(b"\r\nxE") for _ in range(dice.randrange(400)))
    return b"y" * (BUDGET - dice.randrange(66, 72))  # An item of some bytes more or less than the budget.


class Scene:
    """The parts of a command: the dice, the moment, the keys named last, and the server as the model has it."""

    def __init__(self, seed, clients):
        self.dice = random.Random(seed)
        self.server = Server(clients, BUDGET, ITEMS)
        self.moment = 3000
        self.last = []

    def plain(self):
        """A key as a word: one of the last few named, or any."""
        any_key = f"key{self.dice.randrange(KEYS)}"
        key = self.dice.choice(self.last) if self.last and self.dice.random() < 0.75 else any_key
        self.last = [key] + self.last[:5]
        return key

    def coded(self):
        """A key in base64: of the plain ones, or of bytes that no plain key has."""
        key = self.plain().encode() if self.dice.random() < 0.9 else bytes([0, 32, 255, self.dice.randrange(4)])
        return base64.b64encode(key).decode()

    def held(self):
        """The item of the key named last, or none."""
        keys = [key.encode() for key in self.last[:1]]
        return next((item for item in self.server.items if item.key in keys), None)

    def number(self):
        """A number to compare: often the item's own."""
        held = self.held()
        return held.number if held and self.dice.random() < 0.5 else self.dice.randrange(1, 400)

    def seconds_left(self):
        """A token of flag R: often near the seconds that the item has left."""
        held = self.held()
        if held and held.deadline is not None and self.dice.random() < 0.7:
            return max(0, held.left(self.moment) + self.dice.choice([-1, 0, 1, 2]))
        return self.dice.choice([0, 1, 3, 61, 2**64 - 1])

    def pass_time(self):
        dice, held = self.dice, self.held()
        self.moment = max(0, self.moment + dice.choice([0, 0, 0, 1, 2] + [-3] * (dice.random() < 0.02)))
        if held and held.deadline is not None and 0 < held.deadline - self.moment < 10 and dice.random() < 0.3:
            self.moment = held.deadline - dice.randrange(2)


def classic_command(scene):
    dice, key = scene.dice, scene.plain

    def noreply():
        return dice.choice(["", "", "", " noreply"])

    exptime = dice.choice(EXPTIMES)
    name = dice.choice(
        "set set set add replace append prepend cas get get get gets gat gats touch delete incr decr"
        " flush_all odd".split()
    )
    if name in ("set", "add", "replace", "append", "prepend", "cas"):
        block = value(dice)
        named = key()
        cas = f" {scene.number()}" if name == "cas" else ""
        line = f"{name} {named} {dice.randrange(2**32)} {exptime} {len(block)}{cas}{noreply()}\r\n"
        return line.encode() + block + b"\r\n"
    if name in ("get", "gets"):
        return f"{name} {' '.join(key() for _ in range(dice.randrange(1, 6)))}\r\n".encode()
    if name in ("gat", "gats"):
        return f"{name} {exptime} {' '.join(key() for _ in range(dice.randrange(1, 4)))}\r\n".encode()
    if name == "touch":
        return f"touch {key()} {exptime}{noreply()}\r\n".encode()
    if name == "delete":
        return f"delete {key()}{dice.choice(['', ' 0'])}{noreply()}\r\n".encode()
    if name in ("incr", "decr"):
        return f"{name} {key()} {dice.choice([0, 1, 5, 2**64 - 1, dice.randrange(2**64)])}{noreply()}\r\n".encode()
    if name == "flush_all":
        if dice.random() < 0.9:
            return b"version\r\n"
        return f"flush_all{dice.choice(['', ' 0', ' 3', ' 30', ' -1'])}{noreply()}\r\n".encode()
    return dice.choice(
        [
            b"\r\n",
            b"get\r\n",
            b"stats\r\n",
            b"incr key1 x\r\n",
            b"set key1 0 0 x\r\n",
            b"set key1 z 0 3\r\nabc\r\n",
            b"set key1 0 0 1\r\nabc",
            b"cas key1 0 0 2\r\nab\r\n",
            b"touch key1\r\n",
            b"delete key1 1\r\n",
        ]
    )


def flags_of(scene, name):
    """Some of the flags that a command takes, in any order."""
    dice = scene.dice
    token = {
        "O": lambda: dice.choice(["", "7", "opaque", "x" * 32]),
        "T": lambda: dice.choice(EXPTIMES),
        "N": lambda: dice.choice([30, 1, 2, 3, 5, 0, -1]),
        "R": scene.seconds_left,
        "C": scene.number,
        "F": lambda: dice.randrange(2**32),
        "J": lambda: dice.choice([0, 1, 7, 2**64 - 1]),
        "D": lambda: dice.choice([0, 1, 5, 2**64 - 1]),
        "M": lambda: dice.choice("EAPRSeaprs" if name == "ms" else "ID+-id"),
    }
    chances = {
        "mg": {"v": 5, "t": 4, "c": 4, "f": 2, "s": 2, "k": 2, "O": 2, "q": 2, "T": 1, "N": 3, "R": 5},
        "ms": {"c": 4, "s": 2, "k": 2, "O": 2, "q": 2, "T": 5, "F": 3, "C": 2, "M": 6},
        "md": {"k": 2, "O": 2, "q": 2, "C": 3, "I": 8},
        "ma": {"v": 5, "t": 4, "c": 4, "k": 2, "O": 2, "q": 2, "T": 2, "C": 1, "N": 4, "J": 3, "D": 4, "M": 5},
    }[name]
    flags = [flag for flag in chances if dice.randrange(10) < chances[flag]]
    flags = [flag + str(token[flag]()) if flag in token else flag for flag in flags]
    dice.shuffle(flags)
    return flags


STRANGE = "z h l x E S I v b q k bb v1 qq O1 T1 T Tx T+1 N5 N R3 R Cx C-1 C M MX MII Mr J Jx D D-1 D1 F F4294967296".split()
STRANGE += ["O" + "x" * 32, "O" + "x" * 33, "T9223372036854775808", "C18446744073709551616", "\x80"]


def meta_command(scene, quiet=False):
    dice = scene.dice
    name = dice.choice("mg mg mg mg mg ms ms md md ma ma".split())
    coded = dice.random() < 0.3
    key = scene.coded() if coded else scene.plain()
    flags = flags_of(scene, name)
    if quiet and "q" not in flags:
        flags.append("q")
    if coded:
        flags.insert(dice.randrange(len(flags) + 1), "b")
    odd = dice.random()
    if odd < 0.06:
        for _ in range(dice.randrange(1, 3)):
            flags.insert(dice.randrange(len(flags) + 1), dice.choice(STRANGE))
    elif odd < 0.08 and flags:
        flags.append(dice.choice(flags))
    elif odd < 0.09:
        key = dice.choice("YQ YQ= YR== YQ== Y*== ==== eA==eA== k\x01 \x7f".split(" ") + ["k" * 250, "k" * 251])
    if name != "ms":
        return " ".join([name, key] + flags).encode("latin-1") + b"\r\n"
    block = value(dice)
    length, end = str(len(block)), b"\r\n"
    odd = dice.random()
    if odd < 0.02:
        length = dice.choice(["x", "-1", "S1", "2147483648", "00000000001"])
        block, end = b"", b""
    elif odd < 0.04:
        end = dice.choice([b"ab", b"\n\n", b"\r\r", b"\n\r"])
    elif odd < 0.05:
        length = "0" * 3 + length
    return " ".join([name, key, length] + flags).encode("latin-1") + b"\r\n" + block + end


def command(scene):
    """The bytes of a command or of a run of quiet ones, and how many turns they take."""
    dice = scene.dice
    kind = dice.random()
    if kind < 0.48:
        return classic_command(scene), 1
    if kind < 0.92:
        return meta_command(scene), 1
    if kind < 0.98:
        run = [meta_command(scene, True) for _ in range(dice.randrange(1, 6))]
        return b"".join(run) + b"mn\r\n", len(run) + 1
    odd = ["mg", "md", "ma", "ms", "ms key1", "mn x", "mn", "me key1", "MG key1", "md  key1 ", "ms key1  2 T0\r\nab"]
    return dice.choice(odd).encode() + b"\r\n", 1


class Script:
    def __init__(self, scene):
        self.scene = scene
        server = scene.server
        self.lines = [f"server {len(server.connections)} {server.budget} {server.limit}"]

    def feed(self, client, data):
        self.lines.append(f"bytes {client} {escaped(data)}")
        if not self.scene.server.connections[client].closed:
            self.scene.server.connections[client].unread += data

    def turn(self, client):
        self.lines.append(f"turn {client} {self.scene.moment}")
        self.scene.server.turn(self.scene.server.connections[client], self.scene.moment)


def main(words):
    words = words + ["10000", "1", "8", "commands"][len(words) :]
    commands, seed, clients = (int(word) for word in words[:3])
    in_bytes = words[3] == "bytes"
    scene = Scene(seed, clients)
    script = Script(scene)
    dice = scene.dice
    for _ in range(commands):
        client = dice.randrange(clients)
        scene.pass_time()
        text, turns = command(scene)
        if in_bytes:
            for at in range(len(text)):
                script.feed(client, text[at : at + 1])
                script.turn(client)
            continue
        if dice.random() < 0.2:
            cut = dice.randrange(len(text))
            script.feed(client, text[:cut])
            script.turn(dice.randrange(clients))
            text = text[cut:]
        script.feed(client, text)
        for _ in range(turns):
            script.turn(client)
    print("\n".join(script.lines))


if __name__ == "__main__":
    main(sys.argv[1:])
