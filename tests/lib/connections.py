"""What a program does with connections, as far as a server and a proxy do the same: checks of both.

`start(words, limits, says)` starts the program that is tried, with these words, limits of its resources, and a standard output that takes its
lines, or none. It has the methods of `Listener` (servers.py).
"""

import json
import os
import re
import resource
import select
import socket
import struct
import subprocess
import threading
import time

from checks import FORMS, KILOBYTE, PATIENCE, Wrong, asked, is_served, plain, received, received_to_the_end, want, want_at_most
from servers import HOST, Listener, free_port

LARGE = 1_000_000  # bytes of a large value

# Requests without answers that take a server longer than they take a client: each copies a value of 10,000 bytes and more.
APPENDS = b"set k 0 0 10000 noreply\r\n%s\r\n" % bytes(10_000) + b"append k 0 0 1 noreply\r\nx\r\n" * 2_000
MOST_SENT = 256 * KILOBYTE * KILOBYTE  # the most that a client sends which sends without end

# Dialogues: the bytes that a client of a new cache sends, and the answers.
DIALOGUES = {
    "set_then_get": (b"set a 0 0 1\r\nx\r\nget a\r\n", b"STORED\r\nVALUE a 0 1\r\nx\r\nEND\r\n"),
    "block_of_line_ends": (
        b"set a 0 0 7\r\n\r\nEND\r\n\r\ngets a\r\n",
        b"STORED\r\nVALUE a 0 7 1\r\n\r\nEND\r\n\r\nEND\r\n",
    ),
    "key_in_base64": (
        b"ms YWJj 1 b\r\nx\r\nmg abc v k\r\nmg YWJj k b\r\n",
        b"HD\r\nVA 1 kabc\r\nx\r\nHD kYWJj b\r\n",
    ),
    "storage_and_deletion": (
        b"add a 0 0 1\r\nx\r\nadd a 0 0 1\r\ny\r\nappend a 9 9 1\r\nz\r\nreplace b 0 0 1\r\ny\r\nget a\r\n"
        b"delete a 0\r\ndelete a\r\n",
        b"STORED\r\nNOT_STORED\r\nSTORED\r\nNOT_STORED\r\nVALUE a 0 2\r\nxz\r\nEND\r\nDELETED\r\nNOT_FOUND\r\n",
    ),
}


def a_dialogue_is_answered(start, sent, answers):
    """Whole, and then by a client that half-closes; the program ends with its one connection."""
    for last in (b"quit\r\n", b""):
        with start("--accept 1") as program:
            with program.connected() as client:
                client.sendall(sent + last)
                if not last:
                    client.shutdown(socket.SHUT_WR)
                want(received_to_the_end(client), answers)
            want(program.ended(), (0, b""))


def a_dialogue_comes_in_bytes(start, sent, answers):
    with start() as program, program.connected() as client:
        for at in range(len(sent)):
            client.sendall(sent[at : at + 1])
        want(received(client, len(answers)), answers)


def a_second_is_served_beside_half_a_line(start):
    with start() as program, program.connected() as first:
        first.sendall(b"set a 0 0 5\r\nxy")
        with program.connected() as second:
            asked(second, b"get a\r\nset a 0 0 1\r\nz\r\n", b"END\r\nSTORED\r\n")
        asked(first, b"zzz\r\nget a\r\n", b"STORED\r\nVALUE a 0 5\r\nxyzzz\r\nEND\r\n")


def two_are_accepted_and_no_more(start):
    with start("--accept 2") as program:
        first, second = program.connected(), program.connected()
        is_served(second)
        second.shutdown(socket.SHUT_WR)
        want(received_to_the_end(second), b"")
        second.close()
        is_served(first)
        with program.connected() as third:
            third.sendall(b"version\r\n")
            is_served(first)
            want(program.process.poll(), None)
            first.close()
            want(program.ended(), (0, b""))
            try:
                want(third.recv(100), b"")
            except ConnectionResetError:
                pass  # Nobody has accepted it.


def whom_no_line_reaches_is_served(start):
    with start("--accept 1", says=False) as program:
        with program.connected_in_time() as client:
            is_served(client)
        want(program.ended(), (0, b""))


# How a shell closes standard streams, and their numbers.
CLOSED = {"<&-": (0,), ">&-": (1,), "2>&-": (2,), "<&- >&- 2>&-": (0, 1, 2)}


def no_client_gets_a_standard_stream(program):
    """For each of descriptors 0, 1 and 2 that is closed at the start it opens /dev/null, so that no line is sent to a client. It still
    reports that the output of --check is lost."""
    for closed, numbers in CLOSED.items():
        port = free_port()
        words = closing(program, closed, "--listen", f"{HOST}:{port}", "--report", "1")
        with open("/dev/full", "wb") as full, Listener(words[0], words[1:], port, stdout=full, stderr=full) as server:
            clients = [server.connected_in_time(), *(server.connected() for _ in range(3))]
            try:
                want(answered_to(clients.pop(), [b"\x80"]), b"")
                for client in clients:
                    is_served(client)
                want({os.readlink(f"/proc/{server.process.pid}/fd/{number}") for number in numbers}, {"/dev/null"})
                want(select.select(clients, [], [], 2.5)[0], [])
                for client in clients:
                    is_served(client)
            finally:
                for client in clients:
                    client.close()
    for closed, status, said in (("<&-", 0, b""), (">&-", 1, f"{program.name}: output failed\n".encode()), (">&- 2>&-", 1, b"")):
        ended = subprocess.run(closing(program, closed, "--check"), stdin=subprocess.DEVNULL, capture_output=True, timeout=PATIENCE)
        want((ended.returncode, ended.stderr), (status, said))


def closing(program, closed, *words):
    """The words that start a program with some of its streams closed, as a shell writes that."""
    return ["/bin/sh", "-c", f'exec "$@" {closed}', "sh", program.path, *program.words, *words]


def half_a_request_and_the_end_are_no_answer(start):
    with start("--accept 1") as program:
        with program.connected() as client:
            client.sendall(b"get a\r\nset a 0 0 5\r\nxy")
            client.shutdown(socket.SHUT_WR)
            want(received_to_the_end(client), b"END\r\n")
        want(program.ended(), (0, b""))


def a_reset_ends_one_connection(start):
    """The answers to requests before a reset cannot be written, and the other clients continue."""
    with start() as program, program.connected() as other:
        for _ in range(20):
            broken = program.connected()
            broken.sendall(b"version\r\n" * 1_000)
            broken.setsockopt(socket.SOL_SOCKET, socket.SO_LINGER, struct.pack("ii", 1, 0))
            broken.close()
            is_served(other)


def the_1025th_is_closed_at_once(start):
    with start(limits=[(resource.RLIMIT_NOFILE, 2_000)]) as program:
        clients = [program.connected() for _ in range(1_024)]
        try:
            is_served(clients[1_023])
            with program.connected() as more:
                want(more.recv(100), b"")
            for client in clients:
                is_served(client)
            clients.pop().close()
            clients.append(served_in_time(program))
        finally:
            for client in clients:
                client.close()


def served_in_time(program):
    """A connection that is served, once there is a place for it."""
    deadline = time.monotonic() + PATIENCE
    while True:
        client = program.connected()
        try:
            is_served(client)
            return client
        except (Wrong, ConnectionError):
            client.close()
            if time.monotonic() > deadline:
                raise


def no_descriptors_are_waited_for(start, name, own, why):
    """A client that cannot be accepted, since the system gives no more descriptors, is served once another has gone. The reason is
    reported, once."""
    with start(limits=[(resource.RLIMIT_NOFILE, 16)]) as program:
        clients = [program.connected() for _ in range(20)]
        try:
            last = clients[-1]
            last.sendall(b"version\r\n")
            is_served(clients[0])
            want(select.select([last], [], [], 0.2)[0], [])
            told = f"{name}: 16 open files: {16 - own} connections can be served at a time"
            want(lines_said(program, 2), [told, f"{name}: no more clients: {why}"])
            want(select.select([program.process.stderr], [], [], 1.2)[0], [])
            for client in clients[:-1]:
                client.close()
            want(received(last, 15), b"VERSION 1.6.0\r\n")
        finally:
            for client in clients:
                client.close()


class Sender(threading.Thread):
    """Sends requests without answers on a connection, as fast as they are taken, until it is stopped. It gives up at its most."""

    def __init__(self, connection):
        super().__init__(daemon=True)
        self.connection, self.told, self.sent = connection, threading.Event(), 0
        connection.settimeout(0.1)

    def run(self):
        requests = memoryview(APPENDS * 16)
        while not self.told.is_set() and self.sent < MOST_SENT:
            try:
                self.sent += self.connection.send(requests[self.sent % len(APPENDS) :])
            except TimeoutError:
                pass

    def __enter__(self):
        self.start()
        return self

    def __exit__(self, *_):
        self.told.set()
        self.join()


def who_sends_without_end_holds_nobody_up(start):
    """While a client sends more than is served, another is answered repeatedly."""
    with start() as program, program.connected() as first, program.connected() as second:
        with Sender(first) as sender:
            for _ in range(20):
                before = sender.sent
                is_served(second)
                while sender.is_alive() and sender.sent == before:
                    time.sleep(0.001)
            want_at_most(sender.sent, MOST_SENT - 1)
            want(sender.is_alive(), True)


# Lines on standard error.


def lines_said(program, count=1):
    """The next lines on standard error, as far as they arrive. It is wrong if none does."""
    stream, came, deadline = program.process.stderr, b"", time.monotonic() + PATIENCE
    while came.count(b"\n") < count and select.select([stream], [], [], max(0, deadline - time.monotonic()))[0]:
        byte = os.read(stream.fileno(), 1)
        if not byte:
            break
        came += byte
    if not came:
        raise Wrong("nothing is said")
    return came.decode().splitlines()


def fields_of(line, name):
    """The words `<key>=<value>` of a line of a program of this name."""
    want(line.startswith(f"{name}: "), True)
    return dict(word.split("=") for word in line.removeprefix(f"{name}: ").split())


def few_open_files_are_told(start, name, own):
    """If fewer may be open than all connections and the program's own files may need, and only then."""
    told = f"{name}: {1_024 + own} open files: 1024 connections can be served at a time"
    for files, lines in ((1_024 + own, [told]), (1_025 + own, [])):
        with start(limits=[(resource.RLIMIT_NOFILE, files)]) as program, program.connected() as client:
            is_served(client)
            if lines:
                want(lines_said(program), lines)
            want(select.select([program.process.stderr], [], [], 0)[0], [])


def lines_have_their_form(start, name, own):
    """Few open files, no more clients, a stranger and a report: as they are without --log, and with it each with its time, or in JSON."""
    for form in FORMS:
        with start(f"--report 1 {form}", limits=[(resource.RLIMIT_NOFILE, 16)]) as program:
            clients = [program.connected() for _ in range(20)]
            try:
                is_served(clients[0])
                clients[1].sendall(b"\x80")
                lines = []
                while not ("uptime=" in "".join(lines) and "refused:" in "".join(lines) and "no more" in "".join(lines)):
                    lines += [plain(line, form) for line in lines_said(program)]
            finally:
                for client in clients:
                    client.close()
        want([line for line in lines if not line.startswith(f"{name}: ")], [])
        want(f"{name}: 16 open files: {16 - own} connections can be served at a time" in lines, True)
        want(any(line.endswith(f" refused: {BINARY}") for line in lines), True)


def a_report_is_said_though_nobody_connects(start, name):
    """After its second, without an event."""
    with start("--report 1") as program:
        fields = fields_of(lines_said(program)[0], name)
        want((fields["uptime"] in ("1", "2"), fields["accepted"], fields["requests"]), (True, "0", "0"))


# Strangers.

HTTP, BINARY, TLS = (
    "HTTP: set the client to memcached's text protocol",
    "binary protocol: set the client to text",
    "TLS: set the client to connect without TLS",
)

# The first bytes of a stranger, and the line about it. After them follows a command that must not be executed.
STRANGERS = {
    **{f"{method.lower()} of a path": (method.encode() + b" /a HTTP/1.1\r\nHost: a\r\n\r\n", HTTP) for method in (
        "GET", "POST", "PUT", "HEAD", "DELETE", "PATCH", "OPTIONS",
    )},
    "post of an address": (b"POST http://a:11211/ HTTP/1.1\r\nContent-Length: 25\r\n\r\n", HTTP),
    "options of all": (b"OPTIONS * HTTP/1.1\r\n\r\n", HTTP),
    "binary get": (b"\x80\x00\x00\x01" + bytes(19) + b"k", BINARY),
    "tls hello": (b"\x16\x03\x01\x02\x00\x01\x00\x01\xfc\x03\x03\r\n", TLS),
}  # fmt: skip

# Bytes that are text nevertheless, and their answer.
TEXTS = {
    "get in capitals": (b"GET a\r\n", b"ERROR\r\n"),
    "a name alone": (b"POST\r\n", b"ERROR\r\n"),
    "no target": (b"GET \r\n", b"ERROR\r\n"),
    "a star": (b"GET *\r\n", b"ERROR\r\n"),
    "half an address": (b"PUT htt\r\n", b"ERROR\r\n"),
    "options of none": (b"OPTIONS\r\n", b"ERROR\r\n"),
    "a path in small letters": (b"get /a\r\n", b"END\r\n"),
    "http as a key": (b"get http\r\n", b"END\r\n"),
    "an empty line": (b"\n", b"ERROR\r\n"),
    "a command that ends in a version": (b"get / HTTP/1.1\r\n", b"END\r\n"),
    "another method": (b"PURGE / HTTP/1.1\r\nmn\r\n", b"ERROR\r\nMN\r\n"),
    "an answer of HTTP": (b"HTTP/1.1 200 OK\r\n", b"ERROR\r\n"),
    "a request without a host": (b"PURGE / HTTP/1.0\r\nContent-Length: 4\r\n\r\nmn\r\n", b"ERROR\r\n" * 3 + b"MN\r\n"),
    "a host without a colon": (b"host a\r\nHosts: a\r\n", b"ERROR\r\n" * 2),
    "a host as a key": (b"get Host:\r\n", b"END\r\n"),
    "a host in a data block": (b"set a 0 0 9\r\nHost: a\r\n\r\nget a\r\n", b"STORED\r\nVALUE a 0 9\r\nHost: a\r\n\r\nEND\r\n"),
}

# Lines in front of one that begins with `Host:`, and that line.
HOSTS = {
    **{f"{line.decode()}": (line + b"\r\n", b"Host: a\r\n") for line in (
        b"touch / HTTP/1.1", b"gets / HTTP/1.1", b"get / HTTP/1.1", b"version / HTTP/1.1", b"mn / HTTP/1.1", b"delete / HTTP/1.1",
        b"PURGE / HTTP/1.1", b"PRI * HTTP/2.0", b"TRACE *  HTTP/1.0  ", b"GET * HTTP/1.1",
    )},
    "a host on the first line": (b"", b"Host: a\r\n"),
    "a host in small letters": (b"PURGE / HTTP/1.1\n", b"host: a\n"),
    "a host in capitals": (b"PURGE / HTTP/1.1\r\n", b"HOST:a\r\n"),
    "a host behind spaces": (b"mn\r\n", b"  Host: a\r\n"),
    "a host behind other headers": (b"mn / HTTP/1.1\r\nAccept: */*\r\nUser-Agent: a b\r\n", b"Host: a\r\n"),
    "a host behind empty lines": (b"\r\n\n  \r\nPURGE / HTTP/1.1\r\n", b"Host: a\r\n"),
    "a host behind a data block": (b"set b 0 0 4\r\nHost\r\n", b"Host: a\r\n"),
}  # fmt: skip


def answered_to(client, pieces):
    """The answer to these pieces up to its end, each sent by itself, as far as they are taken."""
    came = b""
    try:
        for piece in pieces:
            client.sendall(piece)
            if len(pieces) > 1:
                time.sleep(0.002)
        came = received_to_the_end(client)
    except ConnectionError:
        pass
    return came


def a_stranger_is_turned_away(start, name, sent, told):
    """Whole and in bytes: nothing is answered or done, its address is reported, and others are served."""
    sent += b"set pwn 0 0 4\r\nhack\r\n"
    for pieces in ([sent], [sent[at : at + 1] for at in range(len(sent))]):
        with start("--accept 2") as program, program.connected() as other:
            is_served(other)
            with program.connected() as stranger:
                port = stranger.getsockname()[1]
                want(answered_to(stranger, pieces), b"")
            want(lines_said(program), [f"{name}: {HOST}:{port} refused: {told}"])
            asked(other, b"get pwn\r\nquit\r\n", b"END\r\n")
            want(received_to_the_end(other), b"")
            want(program.ended(), (0, b""))


def a_host_ends_a_connection(start, name, before, host):
    """Whole and in bytes: neither its line nor anything after it is executed, its address is reported, and others are served. What is
    answered is the beginning of the answers to the lines in front of it."""
    sent = before + host + b"Content-Length: 25\r\n\r\nset pwn 0 0 4\r\nhack\r\n"
    for pieces in ([sent], [sent[at : at + 1] for at in range(len(sent))]):
        with start("--accept 3") as program, program.connected() as other:
            is_served(other)
            with program.connected() as usual:
                usual.sendall(before)
                usual.shutdown(socket.SHUT_WR)
                answers = received_to_the_end(usual)
            with program.connected() as stranger:
                port = stranger.getsockname()[1]
                came = answered_to(stranger, pieces)
                want(answers[: len(came)], came)
            want(lines_said(program), [f"{name}: {HOST}:{port} refused: {HTTP}"])
            asked(other, b"get pwn\r\nquit\r\n", b"END\r\n")
            want(received_to_the_end(other), b"")
            want(program.ended(), (0, b""))


def a_text_is_none_of_a_stranger(start, sent, answer):
    """Whole, and each byte by itself."""
    with start() as program:
        for pieces in ([sent], [sent[at : at + 1] for at in range(len(sent))]):
            with program.connected() as client:
                for piece in pieces:
                    client.sendall(piece)
                    time.sleep(0.002)
                want(received(client, len(answer)), answer)
                is_served(client)


def who_may_be_a_stranger_is_waited_for(start):
    """A client that sends the first letter alone, and later the rest; others that end after it, or send no more."""
    with start() as program, program.connected() as other:
        with program.connected() as slow:
            slow.sendall(b"G")
            want(select.select([slow], [], [], 0.3)[0], [])
            is_served(other)
            asked(slow, b"ET a\r\nversion\r\n", b"ERROR\r\nVERSION 1.6.0\r\n")
        with program.connected() as slow:
            slow.sendall(b"\r\nHost")
            want(received(slow, 7), b"ERROR\r\n")
            want(select.select([slow], [], [], 0.3)[0], [])
            is_served(other)
            asked(slow, b" a\r\nversion\r\n", b"ERROR\r\nVERSION 1.6.0\r\n")
        for sent in (b"", b"G", b"GET ", b"OPTIONS", b"Host: a"):
            with program.connected() as ended:
                ended.sendall(sent)
                time.sleep(0.05)
                ended.shutdown(socket.SHUT_WR)
                want(received_to_the_end(ended), b"")
            is_served(other)
        with start("--idle 1") as closing, closing.connected() as silent:
            want(answered_to(silent, [b"GET "]), b"")


def bytes_behind_an_urgent_one_are_read(start):
    """A read ends in front of an urgent byte, and the bytes behind it are read nevertheless, whole and later ones."""
    with start() as program, program.connected() as client:
        for _ in range(20):
            client.sendall(b"mn\r\nmn")
            client.send(b"!", socket.MSG_OOB)
            client.sendall(b"\r\nmn\r\n")
            want(received(client, 12), b"MN\r\n" * 3)
            is_served(client)


def strangers_are_told_once_in_a_second(start, name):
    """Many in a short time have few lines, and a report counts each as refused."""
    with start("--report 2") as program:
        begun = time.monotonic()
        for _ in range(50):
            with program.connected() as stranger:
                want(answered_to(stranger, [b"\x80"]), b"")
        refused, told = None, 0
        while refused != "50" and time.monotonic() < begun + PATIENCE:
            line = lines_said(program)[0]
            if BINARY in line:
                told += 1
            elif "uptime=" in line:
                refused = fields_of(line, name)["refused"]
        want(refused, "50")
        want_at_most(told, int(time.monotonic() - begun) + 2)
        want(told > 0, True)


def suppressed_of(line, form):
    """How many lines were suppressed before one, by its text or by its field, and that line without it as it is without a form."""
    if form == "--log=json":
        said = json.loads(line)
        count = said.pop("suppressed", 0)
        return count, plain(json.dumps(said), form)
    line, count = re.fullmatch(r"(.*?)(?: \(([1-9][0-9]*) suppressed\))?", plain(line, form)).groups()
    return int(count or 0), line


def suppressed_lines_are_counted(start, name):
    """Few of many strangers in a short time are reported, the first as ever, and each line says how many were suppressed before it: with
    those of a later second each was reported, or counted once."""
    for form in FORMS:
        with start(form) as program:
            lines = []
            for count in (30, 1):
                for _ in range(count):
                    with program.connected() as stranger:
                        want(answered_to(stranger, [b"\x80"]), b"")
                time.sleep(1.1)
            while sum(1 + count for count, _ in lines) < 31:
                lines += [suppressed_of(line, form) for line in lines_said(program) if BINARY in line]
            want(sum(1 + count for count, _ in lines), 31)
            want(lines[0][0], 0)
            want(max(count for count, _ in lines) > 0, True)
            want([line for _, line in lines if not (line.startswith(f"{name}: ") and line.endswith(f" refused: {BINARY}"))], [])


# Clients without requests.


def idle_clients_are_closed(start):
    """One that has sent half a request as well; not one that sends a request now and then, and not one whose answers are pending."""
    with start("--idle 1") as program:
        idle, half, slow, busy = clients = [program.connected() for _ in range(4)]
        try:
            stored = b"set k 0 0 %d\r\n%s\r\n" % (LARGE, b"v" * LARGE)
            shown = b"VALUE k 0 %d\r\n%s\r\nEND\r\n" % (LARGE, b"v" * LARGE)
            asked(slow, stored, b"STORED\r\n")
            slow.sendall(b"get k\r\n" * 20)
            half.sendall(b"set a 0 0 5\r\nxy")
            is_served(idle)
            begun = time.monotonic()
            while len(select.select([idle, half], [], [], 0.2)[0]) < 2 and time.monotonic() < begun + PATIENCE:
                is_served(busy)
            want([client.recv(100) for client in (idle, half)], [b"", b""])
            want(1 <= time.monotonic() - begun + 0.01 < 3.5, True)
            is_served(busy)
            want(received(slow, 20 * len(shown)) == shown * 20, True)
        finally:
            for client in clients:
                client.close()


def checks_of_connections(start, program, own, more_dialogues={}, full="too many open files"):
    """Each of them by its name, with all dialogues, of a program of a name that has this many files open itself, and reports this if 16
    files may be open and it accepts no more clients."""
    for name, (sent, answers) in {**DIALOGUES, **more_dialogues}.items():
        yield f"{name}, whole", a_dialogue_is_answered, (start, sent, answers)
        yield f"{name}, in bytes", a_dialogue_comes_in_bytes, (start, sent, answers)
    for check in (
        a_second_is_served_beside_half_a_line,
        two_are_accepted_and_no_more,
        whom_no_line_reaches_is_served,
        half_a_request_and_the_end_are_no_answer,
        a_reset_ends_one_connection,
        the_1025th_is_closed_at_once,
        who_sends_without_end_holds_nobody_up,
        idle_clients_are_closed,
        who_may_be_a_stranger_is_waited_for,
        bytes_behind_an_urgent_one_are_read,
    ):
        yield check.__name__, check, (start,)
    for stranger, (sent, told) in STRANGERS.items():
        yield f"stranger, {stranger}", a_stranger_is_turned_away, (start, program, sent, told)
    for text, (before, host) in HOSTS.items():
        yield f"host, {text}", a_host_ends_a_connection, (start, program, before, host)
    for text, (sent, answer) in TEXTS.items():
        yield f"no stranger, {text}", a_text_is_none_of_a_stranger, (start, sent, answer)
    yield strangers_are_told_once_in_a_second.__name__, strangers_are_told_once_in_a_second, (start, program)
    yield suppressed_lines_are_counted.__name__, suppressed_lines_are_counted, (start, program)
    yield a_report_is_said_though_nobody_connects.__name__, a_report_is_said_though_nobody_connects, (start, program)
    yield few_open_files_are_told.__name__, few_open_files_are_told, (start, program, own)
    yield lines_have_their_form.__name__, lines_have_their_form, (start, program, own)
    yield no_descriptors_are_waited_for.__name__, no_descriptors_are_waited_for, (start, program, own, full)
