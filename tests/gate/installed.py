#!/usr/bin/env python3
"""Checks what install/ says of the programs: the words of units and of settings, and the libraries of the copyright file.

Usage: installed.py

The words of a unit's ExecStart are taken by its program: with its Environment, and with each setting in its comments and in its file of
install/default. They are options, each with a value if and only if it takes one, and no other words except servers of a proxy. `--help` says
which: tests/gate/serverd.help and tests/gate/proxyd.help, which the gate compares with the programs. All other options that these comments
name are in there too. The first setting of a name in a file of install/default is the one that the unit has without the file. Some wrong
words are tried too.

The first heading of CHANGELOG.md has the version that programs print. Each third-party library that a program of the package uses, by crates.txt, is named in install/debian/libraries. The last line is 'N passed,
M failed'.
"""

import pathlib
import re
import shlex
import sys

sys.path.insert(0, str(pathlib.Path(__file__).resolve().parents[1] / "lib"))

from checks import VERSION, Wrong, tally
from suite import TESTS, TOP

INSTALL = TOP / "install"
FILES = (  # the unit of a program, its settings, and the text of its --help
    (INSTALL / "mc_serverd@.service", INSTALL / "default/mc_serverd-11211", TESTS / "gate/serverd.help"),
    (INSTALL / "mc_proxyd.service", INSTALL / "default/mc_proxyd", TESTS / "gate/proxyd.help"),
)
PROGRAMS = ("mc_serverd", "mc_proxyd", "mc_sim")
LIBRARIES = INSTALL / "debian/libraries"
HELP = re.compile(r"^ +(?:-\w, )?(--[a-z-]+)( <)?(.*)$", re.MULTILINE)
CHOICES = re.compile(r"\[possible values: ([^]]*)\]")
NAMED = re.compile(r"--[a-z][a-z-]*")
SETTING = re.compile(r"^#? ?([A-Z]+)=(.*?)\.?$", re.MULTILINE)
SERVER = re.compile(r"([^\s=]+:\d+=)?[^\s:=]+:\d+")
WRONG = (  # of each unit: a setting that its program does not take
    (("OPTIONS", "64M"), ("OPTIONS", "--check=5"), ("OPTIONS", "--items auto auto"), ("OPTIONS", "--budget 900M 5"), ("OPTIONS", "--budget"),
     ("OPTIONS", "--budget --check"), ("OPTIONS", "--store list"), ("OPTIONS", "--timeout 5")),
    (("OPTIONS", "64M"), ("OPTIONS", "--check=5"), ("OPTIONS", "--held 5 5"), ("OPTIONS", "--lost never"), ("SERVERS", "--servers"),
     ("SERVERS", "127.0.0.1"), ("SERVERS", "a=127.0.0.1:11211")),
)  # fmt: skip


def options(help_text):
    """The options of a text of --help: for each whether its value is a word of its own, and the values that it may have, if these are
    few."""
    found = {}
    for name, value, rest in HELP.findall(help_text):
        choices = CHOICES.search(rest)
        found[name] = bool(value), choices[1].split(", ") if choices else None
    return found


def may_have_value(name, help_text):
    """Whether an option may have a value after `=`, though it takes no word of its own."""
    return f"{name}[=" in help_text


def words_are_taken(words, help_text):
    """Whether a program takes these words, as far as its --help says."""
    taken, words = options(help_text), list(words)
    while words:
        word = words.pop(0)
        name, has_sign, value = word.partition("=")
        if not word.startswith("-"):
            word_is_taken(word, help_text)
            continue
        if name not in taken:
            raise Wrong(f"no option {name}")
        has_value, choices = taken[name]
        if has_value and not has_sign:
            value = words.pop(0) if words else ""
        if has_value and (not value or value.startswith("-")) or choices and value and value not in choices:
            raise Wrong(f"{name} with {value or 'no value'}")
        if has_sign and not has_value and not may_have_value(name, help_text):
            raise Wrong(f"{name} takes no value")


def word_is_taken(word, help_text):
    """Whether a program takes a word that is no option: a server, if it has such words."""
    if "[server]..." not in help_text or not SERVER.fullmatch(word):
        raise Wrong(f"{word} is no option")


def command(unit_text, changes=()):
    """The words of a unit's ExecStart, with its settings and these in place of them. The value of `${NAME}` is a part of a word."""
    settings = {**environment(unit_text), **dict(changes)}
    words = []
    for word in line_of(unit_text, "ExecStart").split()[1:]:
        if word[0] == "$" and word[1:] in settings:
            words += shlex.split(settings[word[1:]])
        else:
            words.append(re.sub(r"\$\{([A-Z]+)\}", lambda name: settings[name[1]], word).replace("%i", "11211"))
    return words


def is_refused(words, help_text):
    try:
        words_are_taken(words, help_text)
    except Wrong:
        return
    raise Wrong("they are taken")


def is_option(name, help_text):
    if name not in options(help_text):
        raise Wrong("--help does not list it")


def line_of(unit_text, key):
    return re.search(rf"^{key}=(.*)$", unit_text, re.MULTILINE)[1]


def environment(unit_text):
    """What a unit sets without a file of settings."""
    return dict(each.split("=", 1) for each in shlex.split(line_of(unit_text, "Environment")))


def is_default(name, value, unit_text):
    if environment(unit_text).get(name) != value:
        raise Wrong(f"the unit has {environment(unit_text).get(name)!r}")


def is_started_again(unit_text):
    """A program that failed is started again, however often it did."""
    for key, value in (("Restart", "on-failure"), ("StartLimitIntervalSec", "0")):
        if line_of(unit_text, key) != value:
            raise Wrong(f"the unit has {key}={line_of(unit_text, key)}")


def checks_of(unit, settings, help_file, wrong):
    unit_text, settings_text, help_text = (file.read_text() for file in (unit, settings, help_file))
    yield f"{unit.name} starts again", is_started_again, (unit_text,)
    yield f"words of {unit.name}", words_are_taken, (command(unit_text), help_text)
    for name, value in reversed(SETTING.findall(settings_text)):
        yield f"{name}={value} of {settings.name}", words_are_taken, (command(unit_text, [(name, value)]), help_text)
    for name, value in dict(reversed(SETTING.findall(settings_text))).items():
        yield f"{name} of {settings.name}", is_default, (name, value, unit_text)
    for name, value in SETTING.findall(unit_text):
        yield f"{name}={value} of a comment of {unit.name}", words_are_taken, (command(unit_text, [(name, value)]), help_text)
    for name, value in wrong:
        yield f"{name}={value} for {unit.name}, which is wrong", is_refused, (command(unit_text, [(name, value)]), help_text)
    for file in (unit, settings):
        for name in sorted(set(NAMED.findall(file.read_text()))):
            yield f"{name} of {file.name}", is_option, (name, help_text)


def below(name, uses):
    """The third-party libraries that a crate uses, also by the crates that it uses."""
    return set().union(*(below(each, uses) if each in uses else {each} for each in uses[name]))


def used():
    """The third-party libraries that a program of the package uses."""
    lines = re.findall(r"^(mc_\w+)[^:\n]*:(.*)$", (TOP / "crates.txt").read_text(), re.MULTILINE)
    uses = {name: rest.split() for name, rest in lines}
    return sorted(set().union(*(below(name, uses) for name in PROGRAMS)))


def is_named(library):
    head = LIBRARIES.read_text().partition("The Expat licence:")[0].replace("md-5", "md5")
    if not re.search(rf"\b{library}\b", head):
        raise Wrong("install/debian/libraries does not name it")


def version_is_that_of_the_changes():
    """The first heading of CHANGELOG is about the version that programs print."""
    said = VERSION.partition(" ")[0]
    if not (TOP / "CHANGELOG.md").read_text().startswith(f"# Changes\n\n## {said}"):
        raise Wrong(f"CHANGELOG.md does not begin with {said}")


def checks():
    yield "version", version_is_that_of_the_changes, ()
    for files, wrong in zip(FILES, WRONG):
        yield from checks_of(*files, wrong)
    for library in used():
        yield f"{library} of the copyright file", is_named, (library,)


if __name__ == "__main__":
    if len(sys.argv) != 1:
        sys.exit(__doc__)
    sys.exit(tally(checks()))
