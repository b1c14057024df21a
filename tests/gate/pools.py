#!/usr/bin/env python3
"""Checks the output of a world over random worlds: proxies, servers, links and clients, with all that can happen to them.

Usage: pools.py [--worlds N] [--seed S] [--losses told|missed] [--program PROGRAM]      (200 worlds from seed 1 on; mc_sim as it was built)
       pools.py --write SEED [--losses told|missed]                                     (writes the script of a seed)

tests/lib/pool_model.py can take the place of the program: then the account alone is checked, of the model itself.

The program plays the script of a random world (random_world.py) with `--account`, and then two things are checked. Each event was done if
and only if a plain model of a pool does it, and left the same texts, answers and histories (pool_model.py). And the account holds
of the output, by the events that were done alone (pool_account.py), those that the model does in each drain among them. After a drain each
whole request of each client that has not gone is answered, and nothing that a pool does by itself applies. What clients are answered about
losses is the world's own choice, or with --losses the same in all. At the first world that differs the script is made shorter while it
still does, and is printed with its faults; the exit status is then 1. Of each world one line is changed too: the program must refuse that
line if and only if pool_script.py does. The last line is 'N passed, M failed', in worlds.
"""

import argparse
import collections
import itertools
import pathlib
import random
import re
import subprocess
import sys

sys.path.insert(0, str(pathlib.Path(__file__).resolve().parents[1] / "lib"))

from model import unescaped
from pool_account import faults_of
from pool_model import Entry, Told, played
from pool_requests import answered, requests_of
from pool_script import LOSSES, WORDS, BadLine, Script
from random_world import lines_of_world
from suite import are_built, built


# The output of a program.


class Failed(Exception):
    """A program that did not play a script."""


def run_of(program, lines):
    script = "\n".join([*lines, ""]).encode("latin-1")
    return subprocess.run([program, "--account"], input=script, capture_output=True)


def told_by(program, lines):
    run = run_of(program, lines)
    if run.returncode:
        raise Failed(f"status {run.returncode}, {run.stderr.decode()}")
    return read_told(run.stdout.decode("latin-1"))


ENTRY = re.compile(r"server (\d+), client (\d+), request (\d+), command (\d+)(, refused)?, moment (\d+)")
DONE = {"done": True, "nothing": False}


def read_told(text):
    told, histories = {"client": [], "event": [], "text": [], "history": []}, []
    for line in text.split("\n")[:-1]:
        what, _, said = line.partition(": ")
        name, _, number = what.partition(" ")
        if ENTRY.fullmatch(what):
            server, client, request, atom, refused, moment = ENTRY.fullmatch(what).groups()
            entry = Entry(int(client), int(request), int(atom), int(moment), int(bool(refused)), unescaped(said))
            if int(server) != len(histories) - 1:
                raise Failed(f"an entry of another server: {line}")
            histories[-1].append(entry)
            continue
        if name not in told or number != str(len(told[name])):
            raise Failed(f"a line that is not known, or out of order: {line}")
        told[name].append(said)
        histories += [[]] if name == "history" else []
    if [int(count) for count in told["history"]] != [len(history) for history in histories]:
        raise Failed("a history has not as many commands as are told")
    texts, outs = ([unescaped(said) for said in told[name]] for name in ("text", "client"))
    return Told([DONE[word] for word in told["event"]], texts, outs, histories, None)


def differences(script, told):
    """The differences between the output and the model's."""
    model = played(script)
    for number, (got, wanted) in enumerate(zip(told.done, model.done)):
        if got != wanted:
            return [f"event {number}, {script.events[number]}: {'done' if got else 'nothing'}, and the model says otherwise"]
    told = told._replace(drains=model.drains)
    wrong = [f"the {what} are other than the model's" for what in Told._fields if getattr(told, what) != getattr(model, what)]
    return wrong + faults_of(script, told) + left_after_drain(script, told)


INNER = ("turn", "toserver", "serve", "toproxy", "reply", "emit", "takes", "end")


def left_after_drain(script, told):
    """The faults after the last drain of a script, if only events follow that a pool does by itself: none may apply, and each client
    that has not gone was sent an answer to each of its whole requests."""
    names = [event[0] for event in script.events]
    last = max((at for at, name in enumerate(names) if name == "drain"), default=len(names))
    if any(name not in INNER for name in names[last + 1 :]):
        return []
    wrong = [f"event {at}, {script.events[at]}: done after a drain" for at in range(last + 1, len(names)) if told.done[at]]
    there = [] if last == len(names) else clients_left(script, told)
    return wrong + [f"client {client} is not answered in full" for client in there if not is_answered(client, script.losses, told)]


def clients_left(script, told):
    """The clients that have not gone, and whose proxy has not restarted."""
    left = set(script.all_clients())
    for event, done in zip(script.events, told.done):
        if event[0] in ("gone", "proxyrestart") and done:
            left -= {event[1]} if event[0] == "gone" else {*script.clients_of(event[1])}
    return left


def is_answered(client, losses, told):
    """Whether a client was sent an answer to each request of its text, and no more. The histories alone show it here: a command that
    has an entry was answered or lost, and one that has none was lost."""
    replies = collections.defaultdict(dict)
    for history in told.histories:
        for entry in history:
            if entry.client == client:
                replies[entry.request][entry.atom] = entry.reply
    out, ends = told.outs[client], {0}
    for number, request in enumerate(requests_of(told.texts[client])):
        answers = answers_to(request, replies[number], losses)
        ends = {at + len(answer) for at in ends for answer in answers if out.startswith(answer, at)}
    return len(out) in ends


def answers_to(request, replies, losses):
    """The possible answers to a request whose commands have these replies."""
    if not request.atoms:
        return {request.answer([])}
    count = max([len(request.atoms), *(atom + 1 for atom in replies)])
    known = [{None, replies.get(atom)} for atom in range(count)]
    return {answered(request, outcomes, losses) for outcomes in itertools.product(*known)}


def wrong_in(lines, program):
    """The faults when a program plays a script; none if that is no script."""
    try:
        script = Script(lines)
    except BadLine:
        return []
    try:
        return differences(script, told_by(program, lines))
    except Failed as failed:
        return [str(failed)]


NUMBERS = [0, 1, 2, 3, 4, 63, 64, 65, 1024, 1025, 2**63 - 1, 2**63, 2**64 - 1, 2**64]


def changed(dice, line):
    """A line with a word changed, left out or doubled."""
    words = line.split(" ")
    at = dice.randrange(len(words))
    word, name = words[at], dice.choice(["point", "losses", "join", "pool", *WORDS])
    others = [[], [word, word], [f"1:{word}"], [f"0:{word}"], [f"{word}:0"], [f":{word}"], [f"{word}:"], ["0" * 19 + word], ["all"], [""], [name]]
    words[at : at + 1] = dice.choice([[str(number)] for number in dice.sample(NUMBERS, 4)] + others)
    return " ".join(words)


def refusal_of(lines):
    """The exit status for a script, and what is said of its bad line, if it has one."""
    try:
        Script(lines)
    except BadLine as bad:
        return 2, f"mc_sim: {bad}\n"
    return 0, ""


def wrong_if_changed(seed, lines, program):
    """The fault if the program does not refuse a script with a changed line as the model does."""
    dice = random.Random(f"changed {seed}")
    at = 0 if dice.random() < 0.1 else dice.randrange(len(lines))
    lines = [*lines[:at], changed(dice, lines[at])]
    run = run_of(program, lines)
    got, wanted = (run.returncode, run.stderr.decode()), refusal_of(lines)
    return [] if got == wanted else [f"pools.py --seed {seed}, a line changed: {wanted}, and not {got}:", *lines]


def shortened(lines, program):
    """A script that still differs, from which no line can be removed."""
    size = len(lines) // 2
    while size:
        at = 1
        while at < len(lines):
            fewer = lines[:at] + lines[at + size :]
            if wrong_in(fewer, program):
                lines = fewer
            else:
                at += size
        size //= 2
    return lines


def main():
    words = argparse.ArgumentParser(description=__doc__.split("\n")[0])
    words.add_argument("--worlds", type=int, default=200)
    words.add_argument("--seed", type=int, default=1)
    words.add_argument("--program", default=built("mc_sim"))
    words.add_argument("--losses", choices=LOSSES)
    words.add_argument("--write", type=int)
    words = words.parse_args()
    if words.write is not None:
        print("\n".join(lines_of_world(words.write, words.losses)))
        return 0
    if not are_built(words.program):
        return 1
    events = 0
    for passed, seed in enumerate(range(words.seed, words.seed + words.worlds)):
        lines = lines_of_world(seed, words.losses)
        wrong = wrong_in(lines, words.program)
        if wrong:
            lines = shortened(lines, words.program)
            print("\n".join([f"pools.py --seed {seed}:", *lines, *wrong_in(lines, words.program)]))
            print(f"{passed} passed, 1 failed")
            return 1
        wrong = wrong_if_changed(seed, lines, words.program)
        if wrong:
            print("\n".join([*wrong, f"{passed} passed, 1 failed"]))
            return 1
        events += len(Script(lines).events)
    print(f"{words.worlds} worlds of {events} events are as they should be\n{words.worlds} passed, 0 failed")
    return 0


if __name__ == "__main__":
    sys.exit(main())
