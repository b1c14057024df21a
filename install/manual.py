#!/usr/bin/env python3
"""Writes the manual page of a built program, with the options that its --help lists.

Usage: manual.py PROGRAM > PAGE
"""

import pathlib
import re
import subprocess
import sys

# The parts of a page beside the options: what the program is, its description, its exit statuses, and its other pages.
SERVES = {
    0: "after --check or --version, or after as many connections as --accept says",
    1: "the line of --check cannot be written",
    2: "the words are refused, or ask for help",
    3: "it cannot listen",
    4: "there is no memory to start with",
}
PAGES = {
    "mc_serverd": (
        "a memcached server whose every function is proved",
        "Serves clients of memcached's text protocol over one cache in memory. It prints one line, 'listening <host>:<port>', "
        "and serves until it is ended. On standard error it says at the start how many connections it can serve, where the "
        "system allows fewer open files than 1,024 connections need, that a request was refused whose answer may be larger "
        "than --answer allows, that a client was closed which kept what others waited for, and how many were refused memory. At a terminal, or for systemd's journal, it also says at the start "
        "how much memory it may take.",
        {**SERVES, 4: "there is no memory to start with, or was none for as long as --memory-exit says"},
        "mc_proxyd(1), mc_sim(1)",
    ),
    "mc_proxyd": (
        "a memcached proxy that makes one pool of several servers",
        "Serves clients of memcached's text protocol over up to 64 servers, each key by the server that libketama's ring names. "
        "It prints one line, 'listening <host>:<port>', and serves until it is ended. On standard error it says which servers "
        "are refused, lost and back, that open files allow no more clients, that a request was refused whose answer may be larger than --answer "
        "allows, and that a client was closed since it kept the memory of --buffers. If a server is lost, requests for its keys get an error "
        "line, or with --lost missed they miss. A server may have a name, by which keys are spread and "
        "it is told: <name>:<port>=<host>:<port>. With --servers they are lines of a file, which is looked at once a second: a line that is "
        "appended joins, and another address behind a name is taken over. '#' begins a comment. No server is taken out while it runs.",
        SERVES,
        "mc_serverd(1), mc_sim(1)",
    ),
    "mc_sim": (
        "plays a script to a memcached server or to a whole pool",
        "Reads a script from standard input, plays it without a socket, and prints what each client was sent.",
        {
            0: "the script was played to its end, or the words ask for the version",
            2: "a line of the script is bad, which is named; or the words are refused, or ask for help",
            3: "a read or a write failed, or the input did not end",
            4: "there was no memory",
        },
        "mc_serverd(1), mc_proxyd(1)",
    ),
}


def escaped(text):
    """A text escaped for troff."""
    text = text.replace("\\", "\\e").replace("-", "\\-").replace("'", "\\(aq")
    return re.sub(r"^([.'])", r"\\&\1", text, flags=re.M)


def options_of(help_text):
    """The options and arguments of a text of help, each with its explanation."""
    for line in help_text.splitlines():
        words = re.fullmatch(r"\s{2,}(\S.*?)\s{2,}(\S.*)", line)
        if words:
            yield words[1], words[2]


def page_of(name, help_text):
    what, description, statuses, others = PAGES[name]
    usage = re.search(r"^Usage: \S+ ?(.*)$", help_text, flags=re.M)[1]
    yield f'.TH {name.upper()} 1 "" "Wiersbol" "User Commands"'
    yield f".SH NAME\n{name} \\- {escaped(what)}"
    yield f".SH SYNOPSIS\n.B {name}\n{escaped(usage)}"
    yield f".SH DESCRIPTION\n{escaped(description)}"
    yield ".SH OPTIONS"
    for option, text in options_of(help_text):
        yield f".TP\n.B {escaped(option)}\n{escaped(text)}"
    yield ".SH EXIT STATUS"
    for status, text in statuses.items():
        yield f".TP\n.B {status}\n{escaped(text)}"
    yield f".SH SEE ALSO\n{escaped(others)}"


def main():
    if len(sys.argv) != 2:
        sys.exit(__doc__.strip().split("\n\n")[1])
    program = pathlib.Path(sys.argv[1])
    told = subprocess.run([str(program.resolve()), "--help"], stdout=subprocess.PIPE, text=True, timeout=10)
    print("\n".join(page_of(program.name, told.stdout)))


if __name__ == "__main__":
    main()
