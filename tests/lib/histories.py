"""Histories on which the search of registers.py is tried: `checks_of_histories` gives each check's name, whether it passed, and why not.

- Faulty histories of a register, from the literature (Lamport 1986, Herlihy and Wing 1990), written from what they show and not copied from a
  figure, and right ones beside them; then those of a register that may forget, of numbers and of restarts. Lamport's are of his Part II (On
  interprocess communication, Part II: Algorithms), which distinguishes safe registers from regular ones, and these from atomic ones.
- Random histories of a few calls, in half of which answers are changed: the search says the same as the definition tried in each order.
- A history of 200,000 calls on one key by eight clients, with a fault at its end.
"""

import random
import time

from registers import COUNTS, DELETED, EXISTS, MISS, NEVER, NOT_FOUND, NOT_STORED, RESTARTED, STORED, Call, Search, done, is_linearizable

RANDOM, CALLS = 4_000, 6  # histories, and calls of each
LONG, CLIENTS, SECONDS = 200_000, 8, 60


def hit(value, number=None):
    return "hit", value, number


def sets(sent, came, value, answer=STORED):
    return Call(sent, came, ("set", value), answer)


def gets(sent, came, value, number=None):
    """A get that shows a value, or None."""
    return Call(sent, came, ("gets" if number else "get",), MISS if value is None else hit(value, number))


def lost(sent, command):
    return Call(sent, NEVER, command, None)


def restarts(sent, came):
    return Call(sent, came, ("restart",), RESTARTED)


FIRST = sets(1, 2, 0)  # the value 0, before all others
RIGHT = {
    "a get that overlaps a set shows the older value": [FIRST, sets(3, 8, 1), gets(4, 5, 0)],
    "a get that overlaps a set shows the newer value": [FIRST, sets(3, 8, 1), gets(4, 5, 1), gets(6, 7, 1)],
    "either of two sets that overlap may be last": [sets(1, 5, 1), sets(2, 6, 2), gets(7, 8, 1)],
    "a set that has no answer may be done": [FIRST, lost(3, ("set", 1)), gets(4, 5, 1)],
    "a set that has no answer may be done late": [FIRST, lost(3, ("set", 1)), gets(4, 5, 0), sets(6, 7, 2), gets(8, 9, 1)],
    "a set that has no answer may not be done": [FIRST, lost(3, ("set", 1)), gets(4, 5, 0)],
    "a count that has no answer may be done": [sets(1, 2, 5), lost(3, ("incr", 2)), gets(4, 5, 7)],
    "two lost calls in a row, each of which the next needs": [lost(1, ("set", 5)), lost(2, ("incr", 2)), gets(4, 5, 7)],
    "an item is forgotten": [FIRST, gets(3, 4, None), gets(5, 6, None)],
    "an item is forgotten, and an add stores": [FIRST, Call(3, 4, ("add", 1), STORED), gets(5, 6, 1)],
    "an item of an earlier life has a number that fits": [
        FIRST, gets(3, 4, 0, 1), restarts(5, 6), sets(7, 8, 2), Call(9, 10, ("cas", 3, 1), STORED), gets(11, 12, 3),
    ],
}  # fmt: skip
WRONG = {
    "a value is shown before its set is sent": [gets(1, 2, 1), sets(3, 4, 1)],
    "a value that nobody stored is shown": [FIRST, gets(3, 4, 7)],
    "safe and not regular (Lamport 1986, Part II): a get that overlaps a set shows neither value": [FIRST, sets(3, 8, 1), gets(4, 5, 7)],
    "an older value is shown after a newer one was stored": [FIRST, sets(3, 4, 1), gets(5, 6, 0)],
    "regular and not atomic (Lamport 1986, Part II): a newer value is shown, and then the older, within one set": [
        FIRST, sets(3, 12, 1), gets(4, 5, 1), gets(6, 7, 0),
    ],
    "two clients see two sets in two orders": [sets(1, 9, 1), sets(2, 10, 2), gets(3, 4, 1), gets(5, 6, 2), gets(7, 8, 1)],
    "after two sets each is shown": [sets(1, 5, 1), sets(2, 6, 2), gets(7, 8, 1), gets(9, 10, 2)],
    "an older set is shown after a newer one was seen and all have ended": [sets(1, 6, 1), sets(2, 3, 2), gets(4, 5, 1), gets(7, 8, 2)],
    "one count is answered twice": [sets(1, 2, 5), Call(3, 6, ("incr", 1), ("number", 6)), Call(4, 7, ("incr", 1), ("number", 6))],
    "a set that has no answer is done twice": [lost(1, ("set", 1)), gets(2, 3, 1), sets(4, 5, 2), gets(6, 7, 1)],
    "a count that has no answer is done twice": [sets(1, 2, 5), lost(3, ("incr", 2)), gets(4, 5, 9)],
    "a set that was seen is undone": [FIRST, lost(3, ("set", 1)), gets(4, 5, 1), gets(6, 7, 0)],
    "an item is missed, and comes back": [FIRST, gets(3, 4, None), gets(5, 6, 0)],
    "an item is deleted, and comes back": [FIRST, Call(3, 4, ("delete",), DELETED), gets(5, 6, 0)],
    "an item is there after a restart": [FIRST, restarts(3, 4), gets(5, 6, 0)],
    "nothing is there, and an add stores nothing": [Call(1, 2, ("add", 1), NOT_STORED)],
    "nothing is there, and is replaced": [FIRST, Call(3, 4, ("delete",), DELETED), Call(5, 6, ("replace", 1), STORED)],
    "two values have one number": [FIRST, gets(3, 4, 0, 7), sets(5, 6, 1), gets(7, 8, 1, 7)],
    "a newer value has a lesser number": [FIRST, gets(3, 4, 0, 7), sets(5, 6, 1), gets(7, 8, 1, 5)],
    "two cas of one number store": [FIRST, gets(3, 4, 0, 7), Call(5, 8, ("cas", 1, 7), STORED), Call(6, 9, ("cas", 2, 7), STORED)],
    "a cas of an older number stores": [FIRST, gets(3, 4, 0, 7), sets(5, 6, 1), Call(7, 8, ("cas", 2, 7), STORED)],
    "a cas of the item's number finds another": [FIRST, gets(3, 4, 0, 7), Call(5, 6, ("cas", 1, 7), EXISTS), gets(7, 8, 0)],
    "a cas that found another number finds it": [FIRST, Call(3, 4, ("cas", 1, 7), EXISTS), gets(5, 6, 0, 7)],
}  # fmt: skip


# Random histories.


def random_command(dice, counts, value):
    """A command on a key of counters, or of values; what it stores is this."""
    if counts:
        name = dice.choice(("get", "add", "set", "incr", "incr", "decr", "delete"))
        return (name, dice.randrange(1, 4)) if name in COUNTS else (name,) if name in ("get", "delete") else (name, dice.randrange(3))
    name = dice.choice(("get", "gets", "gets", "set", "ms", "add", "replace", "cas", "cas", "delete", "restart"))
    if name == "cas":
        return name, value, dice.randrange(1, 5)
    return (name, value) if name in ("set", "ms", "add", "replace") else (name,)


def right_history(dice, count, counts=False, reach=25, loses=0.2):
    """Calls of a register that forgets now and then. Each is done at a moment of its own, and is sent and answered up to some calls before
    and after it."""
    item, last, calls = None, 0, []
    for at in range(count):
        command, moment = random_command(dice, counts, at), (at + 10) * 1_000_000
        sent, came = (moment + way * (dice.randrange(1, reach) * 100_000 + at) for way in (-1, 1))
        is_lost = command[0] != "restart" and dice.random() < loses
        if is_lost and dice.random() < 0.5:
            calls.append(lost(sent, command))
            continue
        number = last + dice.randrange(1, 3)
        item, answer = done(None if dice.random() < 0.05 else item, command, number)
        last = 0 if answer == RESTARTED else item.number if item else last
        calls.append(lost(sent, command) if is_lost else Call(sent, came, command, answer))
    return calls


def changed(dice, calls):
    """The calls, with an answer that is changed, or replaced by another's."""
    at = dice.randrange(len(calls))
    call, other = calls[at], dice.choice(calls)
    if call.answer is None or call.answer == RESTARTED:
        return calls
    answers = {"set": [STORED], "ms": [("stored", dice.randrange(1, 6))], "delete": [DELETED, NOT_FOUND], "cas": [STORED, EXISTS, NOT_FOUND]}
    answers |= dict.fromkeys(("add", "replace"), [STORED, NOT_STORED])
    answers |= dict.fromkeys(COUNTS, [NOT_FOUND, ("number", dice.randrange(6))])
    value = other.command[1] if len(other.command) > 1 else dice.randrange(6)
    answers |= {"get": [MISS, hit(value)], "gets": [MISS, hit(value, dice.randrange(1, 6))]}
    return [*calls[:at], call._replace(answer=dice.choice(answers[call.command[0]])), *calls[at + 1 :]]


def check_of_random_histories():
    """The search and the definition say the same of each."""
    said = [0, 0]
    for seed in range(RANDOM):
        dice = random.Random(seed)
        calls = right_history(dice, CALLS, counts=seed % 3 == 0)
        for _ in range(seed % 4 // 2 * dice.randrange(1, 3)):
            calls = changed(dice, calls)
        is_right = is_linearizable(calls)
        said[is_right] += 1
        if (Search(calls).failure() is None) != is_right:
            return f"seed {seed}: by the definition it is {'right' if is_right else 'wrong'}: {calls}", said
    return None if min(said) > RANDOM // 10 else f"{said[0]} wrong ones and {said[1]} right ones are too few of one kind", said


# A long history.


def long_history(dice):
    """A right history of many calls on one key, of clients that each wait for an answer; the last call shows a value that was replaced."""
    calls, free = [], [0] * CLIENTS
    item, last = None, 0
    for at in range(LONG):
        moment, client = (at + 10) * 100, dice.randrange(CLIENTS)
        sent = max(free[client] + 1, moment - dice.randrange(1, 200)) if dice.random() < 0.9 else moment - 1
        if free[client] >= moment:
            continue
        came = moment + dice.randrange(1, 200)
        command = random_command(dice, False, at)
        command = ("get",) if command[0] == "restart" else command
        if command[0] == "cas" and item:
            command = command[0], at, item.number
        item, answer = done(None if dice.random() < 0.01 else item, command, last + 1)
        last = item.number if item else last
        free[client] = came
        calls.append(lost(sent, command) if dice.random() < 0.0001 else Call(sent, came, command, answer))
    end = (LONG + 20) * 100
    return [*distinct(calls), sets(end, end + 1, -1), sets(end + 2, end + 3, -2), gets(end + 4, end + 5, -1)]


def distinct(calls):
    """The calls, at moments no two of which are equal."""
    taken = sorted((moment, at) for at, call in enumerate(calls) for moment in (call.sent, call.came) if moment != NEVER)
    moved = {}
    for place, (_, at) in enumerate(taken):
        moved.setdefault(at, []).append(place)
    return [Call(moved[at][0], moved[at][1] if call.came != NEVER else NEVER, call.command, call.answer) for at, call in enumerate(calls)]


def check_of_a_long_history():
    calls = long_history(random.Random(1))
    search, begun = Search(calls, most=20_000_000), time.perf_counter()
    failed = search.failure()
    seconds = time.perf_counter() - begun
    name = f"a history of {len(calls):,} calls, at most {search.widest} open at once, searched in {seconds:.1f} seconds and {search.tried:,} steps"
    return name, failed == len(calls) - 1 and seconds < SECONDS, None if failed == len(calls) - 1 else f"call {failed} failed"


def checks_of_histories():
    for is_right, histories in ((True, RIGHT), (False, WRONG)):
        for name, calls in histories.items():
            told = is_linearizable(calls), Search(calls).failure() is None
            yield name, told == (is_right, is_right), f"the definition says {told[0]}, the search {told[1]}" if told != (is_right, is_right) else None
    why, (wrong, right) = check_of_random_histories()
    yield f"{RANDOM:,} random histories, {wrong:,} of them wrong: the search agrees with the definition", why is None, why
    yield check_of_a_long_history()
