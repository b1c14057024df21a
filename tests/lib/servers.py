"""Starts the programs that scripts try: mc_serverd and mc_proxyd, or Debian's memcached and nutcracker if a program has that name.

    with Server(program) as server, Proxy(proxy_program, [server.address]) as proxy:
        ..proxy.port, server.process.pid..

The port is one that was free a moment ago, on 127.0.0.1 unless a host of a network of the script's own is given (`on`, network.py). A
program takes connections from the first line of the block on, and is ended at the end of it.
"""

import ctypes
import os
import pathlib
import random
import resource
import selectors
import socket
import subprocess
import tempfile
import time

# With it the programs write more on standard error, as for systemd's journal.
os.environ.pop("JOURNAL_STREAM", None)

HOST = "127.0.0.1"
PIDFD_GETFD = 438  # pidfd_getfd(2), for which Python has no call
SECONDS_TO_START = 20
SECONDS_TO_END = 10
EPHEMERAL = pathlib.Path("/proc/sys/net/ipv4/ip_local_port_range")

# Of nutcracker's pool, if no others are given.
SETTINGS = {
    "hash": "md5",
    "distribution": "ketama",
    "timeout": 5000,
    "server_retry_timeout": 100,
    "backlog": 1024,
    "preconnect": "true",
}


def free_port():
    """A port that nobody listens at, and that the system gives to no connection. While a server is gone, a client that connects to
    its port repeatedly could otherwise be given that port for its own side one day, and so connect to itself."""
    first_given = int(EPHEMERAL.read_text().split()[0])
    while True:
        port = random.randrange(first_given // 2, first_given)
        with socket.socket() as free:
            try:
                free.bind((HOST, port))
                return port
            except OSError:
                continue


def is_memcached(program):
    return pathlib.Path(program).name == "memcached"


def is_nutcracker(program):
    return pathlib.Path(program).name == "nutcracker"


def connected(port, timeout=10):
    """A connection to a program of this machine that sends each piece at once."""
    connection = socket.create_connection((HOST, port), timeout=timeout)
    connection.setsockopt(socket.IPPROTO_TCP, socket.TCP_NODELAY, 1)
    return connection


def statistics(port):
    """The numbers and words that a port answers to `stats`, by their names: that of --admin, or memcached's own."""
    with connected(port) as asking:
        asking.sendall(b"stats\r\nquit\r\n")
        lines = b"".join(iter(lambda: asking.recv(65_536), b"")).decode().splitlines()
    return dict(line.split(" ", 2)[1:] for line in lines if line.startswith("STAT "))


def address_on(on, port):
    """The address of a port of a host, or of this machine."""
    return f"{on.address if on else HOST}:{port}"


def limit(limits):
    """Sets limits of this process. Their upper limits stay: a program that reports one of these reports another number."""
    for name, most in limits:
        resource.setrlimit(name, (most, resource.getrlimit(name)[1]))


class Listener:
    """A program that was started with these words, and listens at a port.

    `limits` are kinds of resources with the most of each, `environment` is added to this process's own environment. If its standard
    output is no pipe nobody waits for it to start. `on` is the host that it runs on, if that is not this machine.
    """

    says_where = True  # whether it prints where it listens; otherwise it is tried

    def __init__(self, program, words, port, limits=(), stdout=subprocess.PIPE, stderr=None, on=None, environment=None):
        self.program, self.port, self.on = str(program), port, on
        self.address = address_on(on, port)
        limiting = (lambda: limit(limits)) if limits else None
        before, files = (on.entering(), [on.namespace]) if on else ([], [])
        self.process = subprocess.Popen(
            [*before, self.program, *words],
            stdout=stdout,
            stderr=stderr,
            preexec_fn=limiting,
            pass_fds=files,
            env={**os.environ, **(environment or {})},
        )
        try:
            self.await_start()
        except BaseException:
            self.stop()
            raise

    def await_start(self):
        if self.process.stdout is None:
            return
        if self.says_where:
            with selectors.DefaultSelector() as selector:
                selector.register(self.process.stdout, selectors.EVENT_READ)
                line = self.process.stdout.readline() if selector.select(SECONDS_TO_START) else b""
            if line != f"listening {self.address}\n".encode():
                raise RuntimeError(f"{self.program}: did not say where it listens, but {line!r}")
        else:
            self.connected_in_time().close()

    def connected(self):
        return self.on.connected(self.on.address, self.port) if self.on else connected(self.port)

    def connected_in_time(self):
        """A connection to a program that may not listen yet."""
        deadline = time.monotonic() + SECONDS_TO_START
        while self.process.poll() is None and time.monotonic() < deadline:
            try:
                return self.connected()
            except ConnectionRefusedError:
                time.sleep(0.02)
        raise RuntimeError(f"{self.program}: did not start")

    def stop(self):
        self.process.kill()
        self.process.wait()
        for stream in (self.process.stdout, self.process.stderr):
            if stream:
                stream.close()

    def __enter__(self):
        return self

    def __exit__(self, *_):
        self.stop()

    def ended(self):
        """Its status and its text on standard error, once it has ended by itself."""
        return self.process.wait(SECONDS_TO_END), self.process.stderr.read()

    def memory(self, what="VmRSS"):
        """Bytes of memory: VmRSS is its resident memory, VmHWM the most that it ever had."""
        for line in pathlib.Path(f"/proc/{self.process.pid}/status").read_text().splitlines():
            if line.startswith(what + ":"):
                return int(line.split()[1]) * 1024
        raise RuntimeError(f"{self.program}: it has ended")

    def descriptors(self):
        """How many files and sockets it has open."""
        return len(os.listdir(f"/proc/{self.process.pid}/fd"))

    def connections(self):
        """Its connected sockets, each opened once more for this process."""
        process, found = os.pidfd_open(self.process.pid), []
        for name in os.listdir(f"/proc/{self.process.pid}/fd"):
            if os.readlink(f"/proc/{self.process.pid}/fd/{name}").startswith("socket:"):
                copy = socket.socket(fileno=ctypes.CDLL(None).syscall(PIDFD_GETFD, process, int(name), 0))
                try:
                    copy.getpeername()
                    found.append(copy)
                except OSError:
                    copy.close()  # It listens.
        os.close(process)
        return found

    def processor_time(self):
        """Seconds of processor time of all its threads, to the nanosecond, by its own clock (clock_getcpuclockid)."""
        return time.clock_gettime(~self.process.pid << 3 | 2)

    def user_and_system(self):
        """Likewise as seconds in its own code and in the kernel, by the kernel's ticks (10 milliseconds each)."""
        fields = pathlib.Path(f"/proc/{self.process.pid}/stat").read_text().rpartition(")")[2].split()
        ticks = os.sysconf("SC_CLK_TCK")
        return int(fields[11]) / ticks, int(fields[12]) / ticks


class Server(Listener):
    """A server, with a budget of bytes and a limit of items, and further words.

    memcached treats both in its own way: it gets 64 MiB and twice the budget, so that it evicts nothing, or `megabytes`.
    """

    def __init__(self, program, budget=67108864, items=65536, port=None, words=(), on=None, megabytes=None, environment=None, **streams):
        port = port or free_port()
        self.says_where = not is_memcached(program)
        if self.says_where:
            words = [*f"--listen {address_on(on, port)} --budget {budget} --items {items}".split(), *words]
            super().__init__(program, words, port, on=on, environment=environment, **streams)
        else:
            megabytes = megabytes or 64 + 2 * budget // 2**20
            words = f"-l {HOST} -p {port} -U 0 -t 1 -u nobody -m {megabytes} -c 2000".split()
            # It reports each connection that broke.
            super().__init__(program, words, port, stderr=subprocess.DEVNULL, environment=environment)

    def version(self):
        """Its answer to `version`, with the version of its own that memcached has there."""
        with self.connected() as connection:
            connection.sendall(b"version\r\n")
            return connection.recv(100).decode().strip()


class Proxy(Listener):
    """A proxy in front of the servers of some addresses (`<host>:<port>`), all alike. `settings` are nutcracker's, beside SETTINGS."""

    def __init__(self, program, addresses, words=(), limits=(), port=None, on=None, settings=None, **streams):
        port = port or free_port()
        self.folder = tempfile.TemporaryDirectory()
        self.says_where = not is_nutcracker(program)
        if self.says_where:
            words = ["--listen", address_on(on, port), *words, *addresses]
        else:
            pool = pathlib.Path(self.folder.name) / "pool.yml"
            lines = [f"{name}: {value}" for name, value in {"listen": f"{HOST}:{port}", **SETTINGS, **(settings or {})}.items()]
            servers = [f" - {each}:1" for each in addresses]
            pool.write_text("pool:\n" + "".join(f"  {line}\n" for line in [*lines, "servers:", *servers]))
            words = ["-c", str(pool), "-o", os.devnull, "-a", HOST, "-s", str(free_port())]  # Debian's log is root's alone.
            streams = {"stderr": subprocess.DEVNULL, **streams}
        super().__init__(program, words, port, limits, on=on, **streams)

    def stop(self):
        super().stop()
        self.folder.cleanup()
