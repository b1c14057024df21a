"""Requests of clients, as a proxy reads them: the commands that each is for servers, and its answer by their replies. Written from the rules
of the protocol, as the caches of model.py are.
"""

import base64
import collections

from model import HIDDEN, Connection, Server

LINK_LOST = b"SERVER_ERROR link lost\r\n"
MODES = {"set": "S", "add": "E", "append": "A", "prepend": "P", "replace": "R", "incr": "I", "decr": "D"}

Atom = collections.namedtuple("Atom", "key line")  # a flush has no key


class Request:
    """A request or fault: its commands, and its answer by their replies. For a retrieval `miss` is the reply of a server that does
    not have the item; `quiet` is whether a request hides its reply, by `noreply` or `q`."""

    def __init__(self, atoms, answer, size, closes, miss, quiet):
        self.atoms = atoms
        self.answer = answer
        self.size = size
        self.closes = closes
        self.miss = miss
        self.quiet = quiet


def is_error(reply):
    return reply.startswith((b"SERVER_ERROR", b"CLIENT_ERROR"))


def with_end(replies):
    return b"".join(reply[: -len(b"END\r\n")] for reply in replies) + b"END\r\n"


def meta_answer(name, key, asked, reply):
    """The reply to a meta command in the form that its client asked for."""
    if is_error(reply):
        return reply
    line, rest = reply.split(b"\r\n", 1)
    code, *shown = line.split(b" ")
    if b"q" in asked and code.decode() in HIDDEN[name]:
        return b""
    if code == b"EN":
        return reply
    size = [shown.pop(0)] if code == b"VA" else []
    fields = {word[:1]: word for word in shown if word[:1] in b"cfst"}
    marks = [word for word in shown if word[:1] not in fields]
    words = [code] + size
    for flag, token in asked.items():
        if flag == b"O":
            words.append(b"O" + token)
        elif flag == b"k":
            words += [b"k" + base64.b64encode(key), b"b"] if b"b" in asked else [b"k" + key]
        elif flag in fields:
            words.append(fields[flag])
    return b" ".join(words + marks) + b"\r\n" + rest


class Reader(Server):
    """Reads requests: a server whose steps do nothing but note the command, in its one spelling."""

    def __init__(self):
        super().__init__(0, 1, 1)

    def read(self, unread):
        """The first request or fault of a text, or nothing if it has not arrived whole."""
        connection = Connection()
        connection.unread = bytes(unread)
        self.atoms, self.quiet, self.answer, self.miss = [], False, None, None
        self.turn(connection, 0)
        if len(connection.unread) == len(unread) and not connection.closed:
            return None
        size = len(unread) - len(connection.unread)
        fixed = connection.output
        answer = self.answer if self.atoms else lambda replies: fixed
        return Request(self.atoms, answer, size, connection.closed, self.miss, self.quiet)

    def note(self, key, *words, block=None):
        line = b" ".join(word if isinstance(word, bytes) else str(word).encode() for word in words) + b"\r\n"
        self.atoms.append(Atom(key, line + (b"" if block is None else block + b"\r\n")))

    def hide(self, quiet, answer):
        self.quiet = quiet
        self.answer = lambda replies: b"" if quiet and not is_error(replies[0]) else replies[0]
        return ""

    def retrieve(self, keys, exptime, with_number, moment):
        for key in keys:
            if exptime is None:
                self.note(key, "gets" if with_number else "get", key)
            else:
                self.note(key, "gats" if with_number else "gat", exptime, key)
        self.answer, self.miss = with_end, b"END\r\n"
        return ""

    def touch(self, key, exptime, moment):
        self.note(key, "touch", key, exptime)

    def delete(self, key, moment):
        self.note(key, "delete", key)

    def count(self, name, key, delta, moment):
        self.note(key, name, key, delta)

    def flush(self, delay, moment):
        self.note(None, "flush_all", delay)

    def store(self, mode, key, flags, exptime, block, compare, moment):
        if compare is None:
            self.note(key, mode, key, flags, exptime, len(block), block=block)
        else:
            self.note(key, "cas", key, flags, exptime, len(block), compare, block=block)

    def meta_note(self, name, key, asked, order, tokens, block=None):
        words = [name, base64.b64encode(key)] + ([] if block is None else [len(block)]) + ["b"]
        words += [letter for letter in order if letter.encode() in asked]
        words += [b"%s%s" % (flag.encode(), str(token).encode()) for flag, token in tokens if token is not None]
        self.note(key, *words, block=block)
        self.quiet, self.miss = b"q" in asked, b"EN\r\n" if name == "mg" else None
        self.answer = lambda replies: meta_answer(name, key, asked, replies[0])
        return "EN", None, b""

    def meta_get(self, key, asked, moment):
        return self.meta_note("mg", key, asked, "cfstv", [(flag, asked.get(flag.encode())) for flag in "TNR"])

    def meta_set(self, key, asked, block, moment):
        tokens = [("T", asked.get(b"T", 0)), ("F", asked.get(b"F", 0)), ("C", asked.get(b"C"))]
        tokens.append(("M", MODES[asked.get(b"M", "set")]))
        return self.meta_note("ms", key, asked, "cs", tokens, block=block)

    def meta_delete(self, key, asked, moment):
        return self.meta_note("md", key, asked, "", [("C", asked.get(b"C")), ("I", "" if b"I" in asked else None)])

    def meta_arithmetic(self, key, asked, moment):
        tokens = [(flag, asked.get(flag.encode())) for flag in "TCN"]
        tokens.append(("J", asked.get(b"J", 0) if b"N" in asked else 0))
        tokens += [("D", asked.get(b"D", 1)), ("M", MODES[asked.get(b"M", "incr")])]
        return self.meta_note("ma", key, asked, "ctv", tokens)


READER = Reader()


def requests_of(text):
    """The requests and faults of a text, as far as they have arrived whole; none follows one that closes."""
    requests, at = [], 0
    while True:
        request = READER.read(text[at:])
        if request is None:
            return requests
        requests.append(request)
        at += request.size
        if request.closes:
            return requests


def answered(request, outcomes, losses):
    """The answer to a request, by the choice for lost commands: an outcome is a reply, or nothing if the command is lost."""
    if None not in outcomes:
        return request.answer(outcomes)
    if losses == "missed" and request.miss:
        return request.answer([request.miss if reply is None else reply for reply in outcomes])
    return b"" if losses == "missed" and request.quiet else LINK_LOST


def routed(request, ring):
    """A request's commands, each with the place of its server: a flush goes to all servers of the ring."""
    for key, line in request.atoms:
        for place in range(ring.servers) if key is None else [ring.owner(key)]:
            yield place, line
