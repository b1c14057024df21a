"""What scripts share that try a built program on sockets: the comparison of results, the bytes of a connection, the output of a
program for its words, and the count of the checks.

A check is a function that raises an error if it fails: `Wrong`, if a result is not the expected one.
"""

import datetime
import json
import os
import pathlib
import re
import resource
import select
import socket
import subprocess
import sys
import time

from servers import HOST, free_port, limit
from suite import CRATES, NAME, counted

PATIENCE = 10  # seconds until a check gives up
KILOBYTE = 1024
MARK = 4_194_304  # unsent bytes that stop a connection's turns
VERSION = re.search(r'VERSION: &str = "(.*)"', (CRATES / "mc_program/src/version.rt").read_text())[1]
FAILURES = (OSError, RuntimeError, ValueError, subprocess.SubprocessError)


class Wrong(Exception):
    """A result is not the expected one."""


def want(got, wanted):
    if got != wanted:
        raise Wrong(f"{shortened(got)} came for {shortened(wanted)}")


def want_at_most(got, most):
    if got > most:
        raise Wrong(f"{got} is more than {most}")


def shortened(value):
    text = repr(value)
    return text if len(text) < 200 else f"{text[:150]}.. ({len(value)} long)"


# Connections.


def received(connection, count):
    """This many bytes, or those that arrived before the end."""
    came = bytearray()
    while len(came) < count:
        piece = connection.recv(min(count - len(came), 1 << 20))
        if not piece:
            break
        came += piece
    return bytes(came)


def received_to_the_end(connection):
    return received(connection, sys.maxsize)


def asked(connection, text, answer):
    """Sends a text and checks that its answer arrives."""
    connection.sendall(text)
    want(received(connection, len(answer)), answer)


def is_served(connection):
    asked(connection, b"version\r\n", b"VERSION 1.6.0\r\n")


def settles(number):
    """A number, once it stays the same for a fifth of a second."""
    before, same = number(), 0
    for _ in range(200):
        time.sleep(0.05)
        now = number()
        same = same + 1 if now == before else 0
        if same == 4:
            return now
        before = now
    raise Wrong("it does not settle")


# Lines on standard error.

FORMS = ("", "--log", "--log=text", "--log=json")  # the words that ask for them


def plain(line, form):
    """A line that was written in a form, without that form. Its time is that of now, in UTC."""
    if not form:
        return line
    if form == "--log=json":
        said = json.loads(line)
        want(list(said), ["time", "program", "text"])
        told, line = said["time"], f"{said['program']}: {said['text']}"
    else:
        told, _, line = line.partition(" ")
    want(re.fullmatch(r"[0-9]{4}(-[0-9]{2}){2}T[0-9]{2}(:[0-9]{2}){2}Z", told) is not None, True)
    ago = datetime.datetime.now(datetime.timezone.utc) - datetime.datetime.fromisoformat(told.replace("Z", "+00:00"))
    want(-1 < ago.total_seconds() < 60, True)
    return line


def plain_lines(text, form):
    """Likewise for all lines of a text."""
    return "".join(plain(line, form) + "\n" for line in text.splitlines())


# Words and statuses.


class Program:
    """A built program, and the words that each of its runs begins with."""

    def __init__(self, path, words=()):
        self.path, self.words = str(pathlib.Path(path).resolve()), list(words)
        self.name = pathlib.Path(path).name

    def run(self, *words, limits=(), **streams):
        """The status and the output of a run that ends by itself."""
        streams = {"stdout": subprocess.PIPE, **streams}
        ended = subprocess.run(
            [self.path, *self.words, *words],
            stderr=subprocess.PIPE,
            timeout=PATIENCE,
            preexec_fn=lambda: limit(limits),
            **streams,
        )
        return ended.returncode, (ended.stdout or b"").decode(), ended.stderr.decode()


def settings_are_printed(program, words, line):
    want(program.run(*words.split(), "--check"), (0, line + "\n", ""))


def words_are_refused(program, words, why):
    want(program.run(*words), (2, "", f"error: {why}\n\nFor more information, try '--help'.\n"))


def help_is_printed(program, word, text):
    """Help is on standard output; its status is that of refused words."""
    want(program.run(word), (2, text, ""))


def version_is_printed(program, word):
    want(program.run(word), (0, f"{program.name} {VERSION}\n", ""))


def no_text_is_refused(program):
    want(program.run(b"--listen", b"\xff:1"), (2, "", f"{program.name}: a word is no text in UTF-8\n"))


def output_that_fails_is_told(program):
    with open("/dev/full", "wb") as full:
        want(program.run("--check", stdout=full), (1, "", f"{program.name}: output failed\n"))


# Words that are no number of bytes from 1 to 1,099,511,627,776. 64 bits cannot hold the last two.
NO_SIZES = [
    "", "0", "0G", "1025G", "1073741825k", "1099511627777", "1T", "1GB", "1KiB", "G", "1.5G", "1,024", "+1", "-1", "1 G", " 1", "G1", "K2K",
    "17179869185G", "18446744073709551616",
]  # fmt: skip


def wrong_sizes_are_refused(program, option, least, words=(), most=1024):
    """A word that is no number of bytes, with K, M or G or without, or one outside the limits, whose upper one is given in G."""
    sizes = f"from {least >> 20}M to {most}G" if least >> 20 else f"up to {most}G"
    why = f"invalid value for '--{option} <bytes>': neither in {least}..={most << 30} nor a number of K, M or G {sizes}"
    for word in (*NO_SIZES, *words):
        if least == 0 and word in ("0", "0G"):
            continue
        want((word, program.run("--check", f"--{option}={word}")), (word, (2, "", f"{program.name}: {why}\n")))


def it_cannot_listen(program, listen):
    want(program.run(f"--listen={listen}"), (3, "", f"{program.name}: cannot listen\n"))


def a_port_in_use_is_told(program):
    with socket.create_server((HOST, 0)) as other:
        it_cannot_listen(program, f"{HOST}:{other.getsockname()[1]}")


# Words that are no address to listen at.
NO_ADDRESSES = ["", "a", ":1", "127.0.0.1:0", "127.0.0.1:65536", "127.0.0.1:01", "[::1]:1", "192.0.2.1:1"]
UNKNOWN_HOSTS = ["a" * 64 + ":1", "unknown.invalid:1"]


# Why a program cannot listen there.
CAUSES = {
    **dict.fromkeys(NO_ADDRESSES, "not <host>:<port>"),
    **dict.fromkeys(UNKNOWN_HOSTS, "no such host with an IPv4 address"),
    "192.0.2.1:1": "address not available",
}


def why_it_cannot_listen_is_told(program):
    """By a second line, with the words that were given: at a terminal, for the journal, or if --log asks for it, which has its forms
    elsewhere."""
    with socket.create_server((HOST, 0)) as other:
        for listen, cause in (*CAUSES.items(), (f"{HOST}:{other.getsockname()[1]}", "address in use")):
            told = f"{program.name}: cannot listen\n{program.name}: {listen}: {cause}\n"
            for form in FORMS[1:]:
                status, output, said = program.run(f"--listen={listen}", form)
                want((status, output, plain_lines(said, form)), (3, "", told))
    told = f"{program.name}: cannot listen\n{program.name}: a: not <host>:<port>\n"
    journal = {**os.environ, "JOURNAL_STREAM": "8:1"}
    for words in ([], ["--log"]):
        want(program.run("--listen=a", *words, env=journal), (3, "", told))
        want(said_at_a_terminal(program, "--listen=a", *words), told)
    status, _, said = program.run("--listen=a", "--log=json", env=journal)
    want((status, plain_lines(said, "--log=json")), (3, told))
    want(plain_lines(said_at_a_terminal(program, "--listen=a", "--log=json"), "--log=json"), told)
    # Characters that JSON does not show as they are.
    for listen in ('a"b:1', "a\\b:1", "\ta\n:1", "\x01\x1f:1", "\u00e4\U0001f600:1"):
        status, _, said = program.run(f"--listen={listen}", "--log=json")
        lines = [json.loads(line)["text"] for line in said.splitlines()]
        want((status, lines), (3, ["cannot listen", f"{listen}: not <host>:<port>"]))
    # With one file beside its streams it has a listener, and no poll of its sockets.
    listen = f"{HOST}:{free_port()}"
    told = f"{program.name}: cannot listen\n{program.name}: {listen}: too many open files\n"
    status, output, said = program.run(f"--listen={listen}", "--log", limits=[(resource.RLIMIT_NOFILE, 4)])
    want((status, output, plain_lines(said, "--log")[-len(told) :]), (3, "", told))


def said_at_a_terminal(program, *words):
    """The lines on standard error of a program that ends by itself, if that is a terminal."""
    ours, terminal = os.openpty()
    with open(ours, "rb", buffering=0) as screen:
        with open(terminal, "wb") as stderr:
            subprocess.run([program.path, *program.words, *words], stdout=subprocess.PIPE, stderr=stderr, timeout=PATIENCE)
            said = b""
            while select.select([screen], [], [], 0.3)[0]:
                said += screen.read(KILOBYTE)
    return said.decode().replace("\r\n", "\n")


def checks_of_words(program, settings, refused, text_of_help):
    """Each check of the output of a program for its words, by its name."""
    for name, (words, line) in settings.items():
        yield f"--check, {name}", settings_are_printed, (program, words, line)
    for name, (words, why) in refused.items():
        yield f"refused, {name}", words_are_refused, (program, words, why)
    for word in ("--help", "-h"):
        yield word, help_is_printed, (program, word, text_of_help)
    for word in ("--version", "-V"):
        yield word, version_is_printed, (program, word)
    for listen in NO_ADDRESSES + UNKNOWN_HOSTS:
        yield f"cannot listen at {listen!r}", it_cannot_listen, (program, listen)
    for check in (no_text_is_refused, output_that_fails_is_told, a_port_in_use_is_told, why_it_cannot_listen_is_told):
        yield check.__name__, check, (program,)


# The count.


def allow_many_files():
    """Lets this process have as many files open as the system allows: the clients' ends of 1,025 connections are open at once."""
    _, most = resource.getrlimit(resource.RLIMIT_NOFILE)
    limit([(resource.RLIMIT_NOFILE, most)])


def passes(name, check, arguments):
    """Makes a check, and prints a line if it fails."""
    try:
        check(*arguments)
    except (Wrong, *FAILURES) as error:
        print(f"{NAME}: {name}: {type(error).__name__}: {error}")
        return False
    return True


def tally(checks):
    """Makes checks (names, functions, arguments), and prints the count. Returns the exit status."""
    allow_many_files()
    return counted(passes(*each) for each in checks)
