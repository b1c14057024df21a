#!/usr/bin/env python3
"""A plain model of the server: reads a script on standard input and prints the output that mc_sim should have.

It is written from the protocol's rules alone, with none of the repository's definitions, so that both can be compared
over many random scripts (tests/gate/random.sh). It is slow and simple, and trusts its input to be a good script.
"""

import base64
import binascii
import sys

LINE_LIMIT = 65536
VALUE_LIMIT = 1048576
OPAQUE_LIMIT = 32
LAST_NUMBER = 2**64 - 1
STORAGE = ("set", "add", "replace", "append", "prepend", "cas")
META = ("mg", "ms", "md", "ma")


class Fault(Exception):
    pass


ERROR = "ERROR"
FORMAT = "CLIENT_ERROR bad command line format"
DELTA = "CLIENT_ERROR invalid numeric delta argument"
FLAG = "CLIENT_ERROR invalid flag"
TOKEN = "CLIENT_ERROR bad token in command line format"
CHUNK = "CLIENT_ERROR bad data chunk"
TOO_LONG = "CLIENT_ERROR line too long"
NOT_NUMERIC = "CLIENT_ERROR cannot increment or decrement non-numeric value"
TOO_LARGE = "SERVER_ERROR object too large for cache"
USED_UP = "SERVER_ERROR cas numbers used up"


def digits(word, most, bound):
    if 1 <= len(word) <= most and all(48 <= byte <= 57 for byte in word) and int(word) < bound:
        return int(word)
    return None


def u64(word):
    return digits(word, 20, 2**64)


def i64(word):
    if word[:1] == b"-":
        number = digits(word[1:], 20, 2**63 + 1)
        return None if number is None else -number
    return digits(word, 20, 2**63)


def client_flags(word):
    return digits(word, 20, 2**32)


def opaque(word):
    return word if len(word) <= OPAQUE_LIMIT else None


def must(part, fault=FORMAT):
    if part is None:
        raise Fault(fault)
    return part


def key_of(word):
    if not 1 <= len(word) <= 250 or any(byte <= 32 or byte == 127 for byte in word):
        raise Fault(FORMAT)
    return word


def coded_key_of(word):
    """The key that a word is in base64. A key has one such form: padded, and with no bits left over."""
    try:
        key = base64.b64decode(word, validate=True)
    except binascii.Error:
        raise Fault(FORMAT)
    if not 1 <= len(key) <= 250 or base64.b64encode(key) != word:
        raise Fault(FORMAT)
    return key


def is_noreply(words, allowed):
    """The words after a command's parameters: none, or `noreply`."""
    if len(words) > allowed:
        raise Fault(ERROR)
    if not words:
        return False
    if words != [b"noreply"]:
        raise Fault(FORMAT)
    return True


def store_mode(word):
    return {b"E": "add", b"A": "append", b"P": "prepend", b"R": "replace", b"S": "set"}.get(word.upper())


def count_mode(word):
    return {b"I": "incr", b"+": "incr", b"D": "decr", b"-": "decr"}.get(word.upper())


# For each meta command its flags of one letter, and its flags with a token, each with the function that reads the token.
LETTERS = {"mg": b"bcfkqstv", "ms": b"bckqs", "md": b"bkqI", "ma": b"bckqtv"}
TOKENS = {
    "mg": {b"O": opaque, b"T": i64, b"N": i64, b"R": u64},
    "ms": {b"O": opaque, b"T": i64, b"C": u64, b"F": client_flags, b"M": store_mode},
    "md": {b"O": opaque, b"C": u64},
    "ma": {b"O": opaque, b"T": i64, b"C": u64, b"M": count_mode, b"N": i64, b"J": u64, b"D": u64},
}

# The codes that flag q hides.
HIDDEN = {"mg": ("EN",), "ms": ("HD",), "md": ("HD", "NF"), "ma": ("HD", "NF")}


def meta_flags(name, words):
    """The flags of a meta command in the order of the line, each with its token, or with nothing."""
    asked = {}
    for word in words:
        flag, token = word[:1], word[1:]
        reads = TOKENS[name].get(flag)
        if reads is None and (flag not in LETTERS[name] or token) or flag in asked:
            raise Fault(FLAG)
        asked[flag] = must(reads(token), TOKEN) if reads else None
    return asked


class Item:
    def __init__(self, key, flags, deadline, number, value):
        self.key = key
        self.flags = flags
        self.deadline = deadline  # None: it never dies
        self.number = number
        self.value = value
        self.stale = False
        self.won = False

    def cost(self):
        return len(self.key) + len(self.value) + 64

    def left(self, moment):
        return -1 if self.deadline is None else max(0, self.deadline - moment)

    def shown(self, flag, moment):
        return {b"c": self.number, b"f": self.flags, b"s": len(self.value), b"t": self.left(moment)}[flag]


class Connection:
    def __init__(self):
        self.unread = b""
        self.output = b""
        self.closed = False


class Server:
    def __init__(self, connections, budget, limit):
        self.connections = [Connection() for _ in range(connections)]
        self.budget = budget
        self.limit = limit
        self.items = []  # most recent first
        self.counter = 0
        self.pending = None

    # Reading

    def turn(self, connection, moment):
        if connection.closed:
            return
        head = connection.unread[:LINE_LIMIT]
        end = head.find(b"\n")
        if end < 0:
            if len(head) == LINE_LIMIT:
                connection.closed = True
                connection.output += TOO_LONG.encode() + b"\r\n"
            return
        line = head[:end]
        line = line[:-1] if line.endswith(b"\r") else line
        words = [word for word in line.split(b" ") if word]
        size = end + 1
        name = words[0].decode("latin-1") if words else ""
        place = 4 if name in STORAGE else 2 if name == "ms" else None
        length = digits(words[place], 10, 2**31) if place is not None and len(words) > place else None
        if length is not None:
            if len(connection.unread) < size + length + 2:
                return
            block = connection.unread[size : size + length]
            chunk_end = connection.unread[size + length : size + length + 2]
            size += length + 2
        else:
            block = chunk_end = None
        connection.unread = connection.unread[size:]
        try:
            answer = self.command(connection, words, length, block, chunk_end, moment)
        except Fault as fault:
            answer = str(fault) + "\r\n"
        connection.output += answer if isinstance(answer, bytes) else answer.encode()

    def command(self, connection, words, length, block, chunk_end, moment):
        if not words:
            raise Fault(ERROR)
        name = words[0].decode("latin-1")
        rest = words[1:]
        if name in STORAGE:
            return self.storage(name, rest, length, block, chunk_end, moment)
        if name in META:
            return self.meta(name, rest, length, block, chunk_end, moment)
        if name == "mn" and not rest:
            return "MN\r\n"
        if name in ("get", "gets"):
            if not rest:
                raise Fault(ERROR)
            return self.retrieve([key_of(word) for word in rest], None, name == "gets", moment)
        if name in ("gat", "gats"):
            if len(rest) < 2:
                raise Fault(ERROR)
            exptime = must(i64(rest[0]))
            return self.retrieve([key_of(word) for word in rest[1:]], exptime, name == "gats", moment)
        if name == "touch":
            if len(rest) not in (2, 3):
                raise Fault(ERROR)
            quiet = is_noreply(rest[2:], 1)
            return self.hide(quiet, self.touch(key_of(rest[0]), must(i64(rest[1])), moment))
        if name == "delete":
            if not 1 <= len(rest) <= 3:
                raise Fault(ERROR)
            key = key_of(rest[0])
            behind = rest[1:]
            if len(behind) == 2 and behind[0] != b"0":
                raise Fault(FORMAT)
            if behind and behind[0] == b"0":
                behind = behind[1:]
            return self.hide(is_noreply(behind, 1), self.delete(key, moment))
        if name in ("incr", "decr"):
            if len(rest) not in (2, 3):
                raise Fault(ERROR)
            key = key_of(rest[0])
            delta = must(u64(rest[1]), DELTA)
            return self.hide(is_noreply(rest[2:], 1), self.count(name, key, delta, moment))
        if name == "flush_all":
            if len(rest) > 2:
                raise Fault(ERROR)
            if rest == [b"noreply"]:
                rest = [b"0", b"noreply"]
            quiet = is_noreply(rest[1:], 1)
            delay = must(i64(rest[0])) if rest else 0
            return self.hide(quiet, self.flush(delay, moment))
        if name == "version" and not rest:
            return "VERSION 1.6.0\r\n"
        if name == "quit" and not rest:
            connection.closed = True
            return ""
        raise Fault(ERROR)

    def storage(self, name, rest, length, block, chunk_end, moment):
        least = 5 if name == "cas" else 4
        if not least <= len(rest) <= least + 1:
            raise Fault(ERROR)
        quiet = is_noreply(rest[least:], 1)
        key = key_of(rest[0])
        flags = must(client_flags(rest[1]))
        exptime = must(i64(rest[2]))
        must(length)
        number = must(u64(rest[4])) if name == "cas" else None
        self.check_block(length, chunk_end)
        mode = "set" if name == "cas" else name
        return self.hide(quiet, self.store(mode, key, flags, exptime, block, number, moment))

    @staticmethod
    def check_block(length, chunk_end):
        if length > VALUE_LIMIT:
            raise Fault(TOO_LARGE)
        if chunk_end != b"\r\n":
            raise Fault(CHUNK)

    @staticmethod
    def hide(quiet, answer):
        return "" if quiet else answer + "\r\n"

    def meta(self, name, rest, length, block, chunk_end, moment):
        before_flags = 2 if name == "ms" else 1
        if len(rest) < before_flags:
            raise Fault(ERROR)
        if name == "ms":
            must(length)
        asked = meta_flags(name, rest[before_flags:])
        key = coded_key_of(rest[0]) if b"b" in asked else key_of(rest[0])
        if name == "ms":
            self.check_block(length, chunk_end)
            code, item, marks = self.meta_set(key, asked, block, moment)
        elif name == "mg":
            code, item, marks = self.meta_get(key, asked, moment)
        elif name == "md":
            code, item, marks = self.meta_delete(key, asked, moment)
        else:
            code, item, marks = self.meta_arithmetic(key, asked, moment)
        if item is not None and b"v" in asked:
            code = "VA"
        if b"q" in asked and code in HIDDEN[name]:
            return ""
        return self.meta_reply(key, asked, code, item, marks, moment)

    @staticmethod
    def meta_reply(key, asked, code, item, marks, moment):
        """EN is alone; otherwise O and k are shown with every code, and the rest if there is an item to show."""
        if code == "EN":
            return b"EN\r\n"
        line = b"VA %d" % len(item.value) if code == "VA" else code.encode()
        for flag, token in asked.items():
            if flag == b"O":
                line += b" O" + token
            elif flag == b"k":
                line += b" k" + (base64.b64encode(key) + b" b" if b"b" in asked else key)
            elif item is not None and flag in b"cfst":
                line += b" %s%d" % (flag, item.shown(flag, moment))
        line += marks + b"\r\n"
        return line + item.value + b"\r\n" if code == "VA" else line

    # The step

    @staticmethod
    def deadline(exptime, moment):
        if exptime == 0:
            return None
        if exptime < 0:
            return 0
        return moment + exptime if exptime <= 2592000 else exptime

    def settle(self, key, moment):
        if self.pending is not None and moment >= self.pending:
            self.items = []
            self.pending = None
        for item in self.items:
            if item.key == key:
                if item.deadline is not None and moment >= item.deadline:
                    self.items.remove(item)
                    return None
                return item
        return None

    def to_front(self, item):
        self.items.remove(item)
        self.items.insert(0, item)

    def next_number(self):
        if self.counter == LAST_NUMBER:
            raise Fault(USED_UP)
        self.counter += 1
        return self.counter

    def put(self, key, flags, deadline, value):
        item = Item(key, flags, deadline, None, value)
        if len(value) > VALUE_LIMIT or item.cost() > self.budget:
            raise Fault(TOO_LARGE)
        item.number = self.next_number()
        self.items = [item] + [other for other in self.items if other.key != key]
        while sum(each.cost() for each in self.items) > self.budget or len(self.items) > self.limit:
            self.items.pop()
        return item

    def store(self, mode, key, flags, exptime, block, compare, moment):
        held = self.settle(key, moment)
        deadline = self.deadline(exptime, moment)
        if compare is not None and held is None:
            return "NOT_FOUND"
        if compare is not None and held.number != compare:
            self.to_front(held)
            return "EXISTS"
        if mode == "add" and held is not None:
            self.to_front(held)
            return "NOT_STORED"
        if mode in ("replace", "append", "prepend") and held is None:
            return "NOT_STORED"
        if mode in ("append", "prepend"):
            block = held.value + block if mode == "append" else block + held.value
            flags, deadline = held.flags, held.deadline
        self.put(key, flags, deadline, block)
        return "STORED"

    def retrieve(self, keys, exptime, with_number, moment):
        out = b""
        for key in keys:
            held = self.settle(key, moment)
            if held is None:
                continue
            if exptime is not None:
                held.deadline = self.deadline(exptime, moment)
            self.to_front(held)
            number = b" %d" % held.number if with_number else b""
            out += b"VALUE %s %d %d%s\r\n%s\r\n" % (key, held.flags, len(held.value), number, held.value)
        return out + b"END\r\n"

    def touch(self, key, exptime, moment):
        held = self.settle(key, moment)
        if held is None:
            return "NOT_FOUND"
        held.deadline = self.deadline(exptime, moment)
        self.to_front(held)
        return "TOUCHED"

    def delete(self, key, moment):
        held = self.settle(key, moment)
        if held is None:
            return "NOT_FOUND"
        self.items.remove(held)
        return "DELETED"

    def count(self, name, key, delta, moment):
        held = self.settle(key, moment)
        if held is None:
            return "NOT_FOUND"
        return self.add_to(held, name, delta).value.decode()

    def add_to(self, held, name, delta):
        number = must(u64(held.value), NOT_NUMERIC)
        number = (number + delta) % 2**64 if name == "incr" else max(0, number - delta)
        return self.put(held.key, held.flags, held.deadline, b"%d" % number)

    def flush(self, delay, moment):
        self.settle(None, moment)
        if delay <= 0:
            self.items = []
            self.pending = None
        else:
            self.pending = self.deadline(delay, moment)
        return "OK"

    # The step of a meta command gives its code, the item to show or none, and the marks after the flags.

    def meta_get(self, key, asked, moment):
        item = self.settle(key, moment)
        if item is None:
            if b"N" not in asked:
                return "EN", None, b""
            item = self.put(key, 0, self.deadline(asked[b"N"], moment), b"")
            item.won = True
            marks = b" W"
        else:
            runs_out = b"R" in asked and item.deadline is not None and item.left(moment) < asked[b"R"]
            wins = (item.stale or runs_out) and not item.won
            marks = (b" W" if wins else b"") + (b" X" if item.stale else b"") + (b" Z" if item.won else b"")
            item.won = item.won or wins
            self.to_front(item)
        if b"T" in asked:
            item.deadline = self.deadline(asked[b"T"], moment)
        return "HD", item, marks

    def meta_set(self, key, asked, block, moment):
        mode = asked.get(b"M", "set")
        flags, exptime = asked.get(b"F", 0), asked.get(b"T", 0)
        outcome = self.store(mode, key, flags, exptime, block, asked.get(b"C"), moment)
        if outcome == "STORED":
            return "HD", self.items[0], b""
        return {"NOT_STORED": "NS", "EXISTS": "EX", "NOT_FOUND": "NF"}[outcome], None, b""

    def meta_delete(self, key, asked, moment):
        item = self.settle(key, moment)
        if item is None:
            return "NF", None, b""
        if b"C" in asked and asked[b"C"] != item.number:
            self.to_front(item)
            return "EX", None, b""
        if b"I" in asked:
            item.number = self.next_number()
            item.stale, item.won = True, False
            self.to_front(item)
        else:
            self.items.remove(item)
        return "HD", None, b""

    def meta_arithmetic(self, key, asked, moment):
        item = self.settle(key, moment)
        if item is None:
            if b"N" not in asked:
                return "NF", None, b""
            return "HD", self.put(key, 0, self.deadline(asked[b"N"], moment), b"%d" % asked.get(b"J", 0)), b""
        if b"C" in asked and asked[b"C"] != item.number:
            self.to_front(item)
            return "EX", None, b""
        item = self.add_to(item, asked.get(b"M", "incr"), asked.get(b"D", 1))
        if b"T" in asked:
            item.deadline = self.deadline(asked[b"T"], moment)
        return "HD", item, b""


def unescaped(text):
    out = bytearray()
    at = 0
    while at < len(text):
        if text[at] != "\\":
            out.append(ord(text[at]))
            at += 1
        elif text[at + 1] == "x":
            out.append(int(text[at + 2 : at + 4], 16))
            at += 4
        else:
            out.append({"r": 13, "n": 10, "\\": 92}[text[at + 1]])
            at += 2
    return bytes(out)


def escaped(data):
    special = {92: "\\\\", 13: "\\r", 10: "\\n"}
    return "".join(
        special.get(byte) or (chr(byte) if 32 <= byte <= 126 else f"\\x{byte:02x}") for byte in data
    )


def lines_of(script):
    """The lines of a script's bytes."""
    return [line for line in script.decode("latin-1").split("\n") if line]


def is_of_pool(script):
    """Whether a script's bytes are those of a pool script."""
    return script.startswith(b"pool ")


def printed(lines, server):
    """The output for a script, played to a server as its first line says."""
    for line in lines[1:]:
        name, number, rest = line.split(" ", 2)
        connection = server.connections[int(number)]
        if name == "bytes":
            if not connection.closed:
                connection.unread += unescaped(rest)
        else:
            server.turn(connection, int(rest))
    outputs = enumerate(connection.output for connection in server.connections)
    return "".join(f"client {number}: {escaped(output)}\n" for number, output in outputs)


def settings(lines):
    """The connections, the budget and the item limit in a script's first line."""
    return [int(word) for word in lines[0].split(" ")[1:]]


def main():
    lines = lines_of(sys.stdin.buffer.read())
    print(printed(lines, Server(*settings(lines))), end="")


if __name__ == "__main__":
    main()
