"""What a proxy does with a file that lists its servers (--servers), at its start and while it runs. `checks_of_lists` has each check by
its name; proxyd.py makes them. `Pool.programs` are the programs that are tried.
"""

import contextlib
import os
import pathlib
import resource
import subprocess
import tempfile
import time

from checks import PATIENCE, Program, Wrong, asked, is_served, received, want, want_at_most
from live_pool import LOST, Played, Pool, is_said, nothing_comes, nothing_is_said, stored
from rings import Ring
from servers import HOST, Proxy, Server

SECONDS_TO_TAKE = 1.25  # a look each second, and another after a quarter
LOOKS = 2.6  # seconds in which the proxy looks at a file at least twice
MOST_BYTES = 65536  # of a file

GOOD = {
    "one": "127.0.0.1:1\n",
    "comments_and_blank_lines": "# all\n\n127.0.0.1:1 # the first\n   \n\t127.0.0.1:2\t#\n#",
    "carriage_returns": "127.0.0.1:1\r\n\r\n# x\r\n127.0.0.1:2\r\n",
    "names": "a:1=127.0.0.1:1\nb:1=127.0.0.1:1\n",
    "no_text_in_a_comment": b"127.0.0.1:1 # \xff\n",
    "the_most": "".join(f"10.0.0.{number}:1\n" for number in range(64)),
    "the_longest": "127.0.0.1:1\n".ljust(MOST_BYTES, "#"),
}

BAD = {
    "none": ("", "no server"),
    "comments_alone": ("# 127.0.0.1:1\n", "no server"),
    "a_bad_line": ("a:1\n\nb\n", "line 3 is no [<name>:<port>=]<host>:<port>"),
    "two_on_a_line": ("a:1 b:1\n", "line 1 is no [<name>:<port>=]<host>:<port>"),
    "no_text": (b"a:1\n\xff:1\n", "line 2 is no [<name>:<port>=]<host>:<port>"),
    "a_zero_byte": (b"a:1\n\0\n", "line 2 is no [<name>:<port>=]<host>:<port>"),
    "one_twice": ("a:1\n# b\na:1\n", "line 3 has the name of an earlier one"),
    "a_name_twice": ("a:1=b:1\na:1=c:1\n", "line 2 has the name of an earlier one"),
    "no_line_end": ("a:1\nb:1", "line 2 has no line end"),
    "65": ("".join(f"10.0.0.{number}:1\n" for number in range(65)), "line 65 is one too many: at most 64 servers"),
    "too_long": ("a:1\n" + "#" * MOST_BYTES, f"longer than {MOST_BYTES} bytes"),
}


class Listed:
    """Servers, a file that lists them, and a proxy with that file. They may have names of their own."""

    def __init__(self, count=2, words=(), first=(), named=False, **limits):
        self.stack = contextlib.ExitStack()
        with self.stack:
            self.file = pathlib.Path(self.stack.enter_context(tempfile.TemporaryDirectory())) / "servers"
            self.servers = [self.new_server() for _ in range(count)]
            self.names = [*first, *(f"s:{place + 1}={server.address}" if named else server.address for place, server in enumerate(self.servers))]
            self.write(self.text())
            self.proxy = self.enter_proxy(words, **limits)
            self.stack = self.stack.pop_all()

    def new_server(self):
        return self.stack.enter_context(Server(Pool.programs[1]))

    def enter_proxy(self, words=(), **limits):
        words = ["--servers", str(self.file), *words]
        return self.stack.enter_context(Proxy(Pool.programs[0], [], words, stderr=subprocess.PIPE, **limits))

    def text(self):
        return "".join(f"{name}\n" for name in self.names)

    def write(self, text):
        """In one step, as an editor that renames does."""
        new = self.file.with_name("new")
        new.write_text(text)
        new.rename(self.file)

    def append(self, text):
        with self.file.open("a") as file:
            file.write(text)

    def __enter__(self):
        return self

    def __exit__(self, *_):
        self.stack.close()

    def is_said(self, line):
        is_said(self.proxy, line)

    def is_not_taken(self, mistake):
        self.is_said(f"{self.file} not taken: {mistake}")

    def is_taken_again(self):
        self.is_said(f"{self.file} taken again")


def keys_are_at_owners(listed, client, servers, names):
    """By the ring of these names: each server has its own key, checked without the proxy."""
    ring = Ring(names)
    for place, server in enumerate(servers):
        put, told, get, shown = stored(ring.key(place), b"of %d" % place)
        answered(client, put, told)
        with server.connected() as direct:
            asked(direct, get, shown)


def answered(client, text, answer):
    """An answer, or that of a link which is not up yet."""
    deadline = time.monotonic() + PATIENCE
    while True:
        client.sendall(text)
        came = received(client, min(len(answer), len(LOST)))
        if not LOST.startswith(came[:12]):
            return want(came + received(client, len(answer) - len(came)), answer)
        received(client, len(LOST) - len(came))
        if time.monotonic() > deadline:
            raise Wrong("the link stays lost")
        time.sleep(0.02)


# At the start.


def a_list_is_read(text):
    count = len([line for line in (text if isinstance(text, bytes) else text.encode()).split(b"\n") if line.strip() and line.strip()[:1] != b"#"])
    with tempfile.NamedTemporaryFile() as file:
        file.write(text if isinstance(text, bytes) else text.encode())
        file.flush()
        want(Program(Pool.programs[0]).run("--servers", file.name, "--check"), (0, f"servers {count} points {160 * count}\n", ""))


def a_list_is_refused(text, mistake):
    with tempfile.NamedTemporaryFile() as file:
        file.write(text if isinstance(text, bytes) else text.encode())
        file.flush()
        told = f"mc_proxyd: {file.name}: {mistake}\nmc_proxyd: bad server list\n"
        for check in ([], ["--check"]):
            want(Program(Pool.programs[0]).run("--servers", file.name, *check), (2, "", told))


def what_is_no_file_is_refused():
    """With the system's cause, in short words: /proc/self/mem fails as it is read, with EIO."""
    with tempfile.TemporaryDirectory() as folder:
        pipe, loop = os.path.join(folder, "pipe"), os.path.join(folder, "loop")
        os.mkfifo(pipe)
        os.symlink(loop, loop)
        for path, mistake in (
            (folder, "not a file"), (pipe, "not a file"), (pipe + "x", "no such file"), (pipe + "/x", "not a directory"),
            (loop, "too many levels of symbolic links"), (pipe + "x" * 255, "file name too long"), ("/proc/self/mem", "errno 5"),
        ):  # fmt: skip
            told = f"mc_proxyd: {path}: {mistake}\nmc_proxyd: bad server list\n"
            want(Program(Pool.programs[0]).run("--servers", path), (2, "", told))


def a_list_and_words_are_refused():
    for words, other in ((["a:1"], "[server]..."), (["--join", "a:1"], "--join <host:port>")):
        status, _, said = Program(Pool.programs[0]).run("--servers", "/dev/null", *words)
        want((status, said.split("\n")[0]), (2, f"error: the argument '--servers <file>' cannot be used with '{other}'"))


# While it runs.


def a_line_that_is_appended_joins():
    """Within a second or so, while a client sends requests all the time: no answer is wrong, and then each key is at its owner in the
    wider ring."""
    with Listed() as listed, listed.proxy.connected() as client:
        third = listed.new_server()
        wider = Ring([*listed.names, third.address])
        keys = [key for place in range(2) for key in Ring(listed.names).keys(place, 20)]
        moved = {key for key in keys if wider.owner(key) == 2}
        want(0 < len(moved) < len(keys), True)
        for key in keys:
            asked(client, *stored(key)[:2])
        listed.append(f"{third.address} # the third\n")
        begun, missed = time.monotonic(), set()
        while not moved <= missed and time.monotonic() < begun + PATIENCE:
            for key in keys:
                _, _, get, shown = stored(key)
                client.sendall(get)
                came = received(client, 5)
                if came == shown[:5]:
                    want(came + received(client, len(shown) - 5), shown)
                    want(key in missed, False)
                else:
                    want(key in moved, True)
                    rest = LOST[5:] if came == LOST[:5] else b""
                    want(came + received(client, len(rest)) in (b"END\r\n", LOST), True)
                    missed.add(key)
        want_at_most(time.monotonic() - begun, SECONDS_TO_TAKE + 1)
        listed.is_said(f"{third.address} joined")
        keys_are_at_owners(listed, client, [*listed.servers, third], [*listed.names, third.address])
        nothing_is_said(listed.proxy)


def who_waits_for_a_slow_server_is_served_by_one_that_joins():
    """A client waits, since its key's server reads nothing, and much is unsent on its link. Once another server has joined that owns the
    key, it is served."""
    with contextlib.ExitStack() as stack:
        slow = stack.enter_context(Played.Server())
        listed = stack.enter_context(Listed(0, ["--timeout", "0"], first=[slow.address]))
        stack.enter_context(slow.accept())
        third = listed.new_server()
        wider = Ring([slow.address, third.address])
        put = stored(wider.key(0), b"v" * 1_000_000)[0]
        moved = wider.key(1)
        greedy, client = (stack.enter_context(listed.proxy.connected()) for _ in range(2))
        greedy.settimeout(1)
        with contextlib.suppress(TimeoutError):
            while True:
                greedy.sendall(put)
        client.sendall(b"get %s\r\n" % moved)
        nothing_comes(client)
        listed.append(f"{third.address}\n")
        want(received(client, 5), b"END\r\n")


def two_lines_join_at_a_time():
    with Listed(1) as listed, listed.proxy.connected() as client:
        more = [listed.new_server() for _ in range(2)]
        names = [*listed.names, "b:1", "c:1"]
        listed.append("".join(f"{name}={server.address}\n" for name, server in zip(names[1:], more)))
        for name in names[1:]:
            listed.is_said(f"{name} joined")
        keys_are_at_owners(listed, client, [*listed.servers, *more], names)


def an_address_is_taken_over():
    """No key moves: the server of that name is replaced. That the old one is lost is not reported as well."""
    with Listed() as listed, listed.proxy.connected() as client:
        is_served(client)
        one, two = listed.names
        other = listed.new_server()
        listed.write(f"{one}={other.address}\n{two}\n")
        listed.is_said(f"{one} now at {other.address}")
        keys_are_at_owners(listed, client, [other, listed.servers[1]], listed.names)
        listed.is_said(f"{one} back")
        listed.write(listed.text())
        listed.is_said(f"{one} now at {one}")
        keys_are_at_owners(listed, client, listed.servers, listed.names)
        listed.is_said(f"{one} back")


def an_address_that_refuses_likewise_is_said():
    """No server is at the old address, nor at the new one."""
    with Listed() as listed, listed.proxy.connected() as client:
        listed.append(f"c:1={HOST}:1\n")
        is_said(listed.proxy, "c:1 joined", "c:1 refused: connection refused")
        is_served(client)
        for port in (2, 3):
            listed.write(listed.text() + f"c:1={HOST}:{port}\n")
            is_said(listed.proxy, f"c:1 now at {HOST}:{port}", "c:1 refused: connection refused")
        time.sleep(LOOKS)
        nothing_is_said(listed.proxy)


def an_address_that_was_wrong_is_mended():
    """A server joined at an address without a server."""
    with Listed() as listed, listed.proxy.connected() as client:
        third = listed.new_server()
        listed.append(f"c:1={HOST}:1\n")
        listed.is_said("c:1 joined")
        listed.is_said("c:1 refused: connection refused")
        key = Ring([*listed.names, "c:1"]).key(2)
        asked(client, b"get %s\r\n" % key, LOST)
        listed.write(listed.text() + f"c:1={third.address}\n")
        listed.is_said(f"c:1 now at {third.address}")
        keys_are_at_owners(listed, client, [*listed.servers, third], [*listed.names, "c:1"])
        listed.is_said("c:1 back")


CHANGES_THAT_ARE_REFUSED = {  # the place of the first server that is missing, the list, and its entry at that place
    "one_is_taken_out": lambda names: (1, f"{names[0]}\n{names[2]}\n", names[2]),
    "the_last_is_taken_out": lambda names: (2, f"{names[0]}\n{names[1]}\n# ", None),
    "one_has_another_name": lambda names: (0, f"a:1={names[0]}\n{names[1]}\n{names[2]}\n", "a:1"),
    "two_change_places": lambda names: (1, f"{names[0]}\n{names[2]}\n{names[1]}\n", names[2]),
    "one_is_put_in_front": lambda names: (0, f"{HOST}:2\n" + "".join(f"{name}\n" for name in names), f"{HOST}:2"),
}


def servers_stay():
    """A list that does not have them at their places changes nothing: the servers that it appends do not join. It is reported once for
    each change, and once that the list is taken again."""
    with Listed(3) as listed, listed.proxy.connected() as client:
        for text_of in CHANGES_THAT_ARE_REFUSED.values():
            place, text, other = text_of(listed.names)
            listed.write(text + f"{HOST}:1\n")
            listed.is_not_taken(f"server {place + 1} is {listed.names[place]}, the list has {other or f'no server {place + 1}'}")
            keys_are_at_owners(listed, client, listed.servers, listed.names)
        time.sleep(LOOKS)
        nothing_is_said(listed.proxy)
        listed.write(listed.text())
        listed.is_taken_again()
        time.sleep(LOOKS)
        nothing_is_said(listed.proxy)


def a_mistake_changes_nothing():
    with Listed() as listed, listed.proxy.connected() as client:
        third = listed.new_server()
        for line, mistake in (("x\n", "line 4 is no [<name>:<port>=]<host>:<port>"), (f"{listed.names[0]}\n", "line 4 has the name of an earlier one")):
            listed.write(listed.text() + f"{third.address}\n" + line)
            listed.is_not_taken(mistake)
        time.sleep(LOOKS)
        nothing_is_said(listed.proxy)  # It was reported once, and is not at each look.
        keys_are_at_owners(listed, client, listed.servers, listed.names)
        listed.write(listed.text() + f"{third.address}\n")
        listed.is_said(f"{third.address} joined")
        listed.is_taken_again()
        keys_are_at_owners(listed, client, [*listed.servers, third], [*listed.names, third.address])


def half_a_line_is_not_taken():
    """Nor are the lines before it."""
    with Listed() as listed, listed.proxy.connected() as client:
        third = listed.new_server()
        listed.append(third.address[:-1])
        listed.is_not_taken("line 3 has no line end")
        keys_are_at_owners(listed, client, listed.servers, listed.names)
        listed.append(third.address[-1:] + "\n")
        listed.is_said(f"{third.address} joined")
        listed.is_taken_again()
        keys_are_at_owners(listed, client, [*listed.servers, third], [*listed.names, third.address])


def a_file_that_is_away_changes_nothing():
    with Listed() as listed, listed.proxy.connected() as client:
        third = listed.new_server()
        listed.file.unlink()
        listed.is_not_taken("no such file")
        time.sleep(LOOKS)
        nothing_is_said(listed.proxy)
        listed.file.mkdir()
        listed.is_not_taken("not a file")
        keys_are_at_owners(listed, client, listed.servers, listed.names)
        listed.file.rmdir()
        listed.write(listed.text() + f"{third.address}\n")
        listed.is_said(f"{third.address} joined")
        listed.is_taken_again()
        keys_are_at_owners(listed, client, [*listed.servers, third], [*listed.names, third.address])


def what_cannot_be_read_changes_nothing():
    """A pipe without a writer delays nobody, and of 100 MB no more is read than a list may have."""
    with Listed() as listed, listed.proxy.connected() as client:
        text = listed.text()
        listed.file.unlink()
        os.mkfifo(listed.file)
        listed.is_not_taken("not a file")
        is_served(client)
        listed.file.unlink()
        with listed.file.open("w") as file:
            file.write(text)
            file.truncate(100_000_000)
        listed.is_not_taken(f"longer than {MOST_BYTES} bytes")
        before = listed.proxy.processor_time()
        time.sleep(LOOKS)
        want_at_most(listed.proxy.processor_time() - before, 0.02)
        want_at_most(listed.proxy.memory("VmHWM"), 20_000_000)
        nothing_is_said(listed.proxy)
        listed.write(text)
        listed.is_taken_again()
        time.sleep(LOOKS)
        nothing_is_said(listed.proxy)
        keys_are_at_owners(listed, client, listed.servers, listed.names)


def carriage_returns_and_order_of_writes_are_ignored():
    """The file of an editor of another system, and one that arrives in pieces."""
    with Listed() as listed, listed.proxy.connected() as client:
        third = listed.new_server()
        text = (listed.text() + f"{third.address}\n").replace("\n", "\r\n")
        with listed.file.open("w", newline="") as file:
            for piece in range(0, len(text), 5):
                file.write(text[piece : piece + 5])
                file.flush()
                time.sleep(0.01)
        listed.is_said(f"{third.address} joined")
        keys_are_at_owners(listed, client, [*listed.servers, third], [*listed.names, third.address])
        nothing_is_said(listed.proxy)


def nothing_is_taken_of_a_file_that_is_being_written():
    """It is emptied, and written again at once: nothing is reported. Its servers are where it says, by their names."""
    with Listed(named=True) as listed, listed.proxy.connected() as client:
        keys_are_at_owners(listed, client, listed.servers, ["s:1", "s:2"])
        for _ in range(20):
            listed.file.write_text("")
            time.sleep(0.05)
            listed.file.write_text(listed.text())
            time.sleep(0.1)
        time.sleep(LOOKS)
        nothing_is_said(listed.proxy)


def two_proxies_follow_one_file():
    with Listed() as listed:
        proxies = [listed.proxy, listed.enter_proxy()]
        third = listed.new_server()
        listed.append(f"{third.address}\n")
        for proxy in proxies:
            is_said(proxy, f"{third.address} joined")
            with proxy.connected() as client:
                keys_are_at_owners(listed, client, [*listed.servers, third], [*listed.names, third.address])


def descriptors_of_servers_that_join_are_reserved():
    """For 64 servers, however many there are."""
    most, own = 3, 7 + 4 * 64  # its own files and the one of look-ups, the list, and a link and a look-up for each server
    with Listed(limits=[(resource.RLIMIT_NOFILE, own + most)]) as listed, contextlib.ExitStack() as stack:
        listed.is_said(f"{own + most} open files: {most} connections can be served at a time")
        clients = [stack.enter_context(listed.proxy.connected()) for _ in range(most + 1)]
        for client in clients[:most]:
            is_served(client)
        listed.is_said(f"no more clients: {own + most} open files allow {most}")
        third = listed.new_server()
        listed.append(f"{third.address}\n")
        listed.is_said(f"{third.address} joined")
        keys_are_at_owners(listed, clients[0], [*listed.servers, third], [*listed.names, third.address])


def a_look_without_a_descriptor_is_said():
    """New entries are taken once there is a descriptor again."""
    with Listed() as listed, listed.proxy.connected() as client:
        is_served(client)
        third, pid = listed.new_server(), listed.proxy.process.pid
        soft, hard = resource.prlimit(pid, resource.RLIMIT_NOFILE)
        resource.prlimit(pid, resource.RLIMIT_NOFILE, (3, hard))
        listed.is_not_taken("too many open files")
        listed.append(f"{third.address}\n")
        resource.prlimit(pid, resource.RLIMIT_NOFILE, (soft, hard))
        listed.is_said(f"{third.address} joined")
        listed.is_taken_again()
        keys_are_at_owners(listed, client, [*listed.servers, third], [*listed.names, third.address])


def a_file_that_stays_costs_little():
    with Listed() as listed:
        before = listed.proxy.processor_time()
        time.sleep(3)
        want_at_most(listed.proxy.processor_time() - before, 0.01)


def checks_of_lists():
    """Each of them by its name."""
    for name, text in GOOD.items():
        yield f"a list, {name}", a_list_is_read, (text,)
    for name, (text, mistake) in BAD.items():
        yield f"a bad list, {name}", a_list_is_refused, (text, mistake)
    for check in (
        what_is_no_file_is_refused,
        a_list_and_words_are_refused,
        a_line_that_is_appended_joins,
        who_waits_for_a_slow_server_is_served_by_one_that_joins,
        two_lines_join_at_a_time,
        an_address_is_taken_over,
        an_address_that_refuses_likewise_is_said,
        an_address_that_was_wrong_is_mended,
        servers_stay,
        a_mistake_changes_nothing,
        half_a_line_is_not_taken,
        a_file_that_is_away_changes_nothing,
        what_cannot_be_read_changes_nothing,
        carriage_returns_and_order_of_writes_are_ignored,
        nothing_is_taken_of_a_file_that_is_being_written,
        two_proxies_follow_one_file,
        descriptors_of_servers_that_join_are_reserved,
        a_look_without_a_descriptor_is_said,
        a_file_that_stays_costs_little,
    ):
        yield check.__name__, check, ()
