"""One key as a register that may forget, and whether what clients saw of the key can be a history of it.

The register is that of crates/mc_registers/specs/Registers.antt, written again in Python, without flags, expiry, marks and refused stores.
It holds one item or none, and may forget the item before any command. Each command does and answers what protocol.txt says of that item.
What is stored gets a number above all that were given before. A restart of the server forgets the item, and numbers begin again. `done` is
the definition.

A history is a list of `Call`s. It is linearizable (Herlihy and Wing 1990) if its calls have one order in which

- the register answers each call as it was answered;
- a call that was answered before another was sent comes first;
- a call without an answer is at any place after it was sent, or nowhere.

`is_linearizable` is this definition, for histories of a few calls. It tries each order, all that may be forgotten, and each number that
may be given (Wing and Gong 1993). `Search` is for long histories, and says which answer no order explains.

`Search` goes through the moments of a history, in time. It keeps each `Way` in which calls may have been done so far: the open calls that
were done, and the state of the register. A call is done as late as possible (Lowe 2017): just before an answer arrives, the open calls are
tried in each order up to the answered one. If no call is open, ways differ only by their states and by the unanswered calls that they have
used. So a history is split wherever its key is quiet, and the possible states are carried on. Ways are memoized, and a way is dropped if
another is as good in all respects (`Ways`).

A call without an answer stays open for ever. It is tried only if an answered call cannot be done next without it. That loses nothing, if
numbers are shown only under keys of which no value is stored twice. Say that an answered call can be done at once. If its answer says what
is held after it, then an unanswered call just before it changes nothing. If it leaves what is held as it was, then an unanswered call just
before it can be done just after it.
"""

import collections
import functools
import math
from typing import Any, NamedTuple

NEVER = math.inf
UNSEEN = "unseen"  # a value that no call shows
COUNTS = ("incr", "decr")
STORED, NOT_STORED, EXISTS, NOT_FOUND = ("stored", None), ("not stored",), ("exists",), ("not found",)
DELETED, MISS, RESTARTED = ("deleted",), ("miss",), ("restarted",)


class Call(NamedTuple):
    """A command on a key, and its answer, or None. `sent` and `came` are moments: no two of a history are the same. Without an answer
    `came` is NEVER.

    A command is its name and its words: ("get",), ("gets",), ("delete",), ("set", value), ("ms", value), ("add", value), ("replace", value),
    ("cas", value, number), ("incr", amount), ("decr", amount), ("restart",). `ms` is a set that shows its number. An answer is one of those
    above, ("stored", number), ("hit", value, number or None) or ("number", number).
    """

    sent: float
    came: float
    command: tuple
    answer: tuple | None


class Item(NamedTuple):
    value: Any
    number: int


# The definition


def done(item, command, number):
    """The item after a command, and its answer, if this item is stored, or none. The item that it stores has the number."""
    name, *words = command
    if name == "restart":
        return None, RESTARTED
    if name in ("get", "gets"):
        return item, MISS if item is None else ("hit", item.value, item.number if name == "gets" else None)
    if name == "delete":
        return None, NOT_FOUND if item is None else DELETED
    refusal = refused(item, command)
    if refusal is not None:
        return item, refusal
    if name in COUNTS:
        value = counted(item.value, *command)
        return Item(value, number), ("number", value)
    return Item(words[0], number), ("stored", number if name == "ms" else None)


def refused(item, command):
    """Why a command stores nothing, if it does not."""
    name = command[0]
    if name == "add":
        return None if item is None else NOT_STORED
    if name == "replace":
        return NOT_STORED if item is None else None
    if name in ("cas", *COUNTS) and item is None:
        return NOT_FOUND
    return EXISTS if name == "cas" and item.number != command[2] else None


def counted(value, name, amount):
    return (value + amount) % 2**64 if name == "incr" else max(0, value - amount)


# The question as it stands


def is_linearizable(calls):
    """Whether a history of a few calls can be one of the register."""
    most = max([number for call in calls for number in numbers_of(call)], default=0) + len(calls)

    @functools.cache
    def goes_on(left, item, last):
        ends = [calls[at].came for at in left if calls[at].answer is not None]
        if not ends:
            return True
        first = [at for at in left if calls[at].sent < min(ends)]
        return any(goes_on(left - {at}, *after) for at in first for after in outcomes(calls[at], item, last, most))

    return goes_on(frozenset(range(len(calls))), None, 0)


def numbers_of(call):
    """The numbers of items that a call names or shows."""
    numbers = [call.command[2]] if call.command[0] == "cas" else []
    if call.answer is not None and call.answer[0] in ("hit", "stored"):
        numbers.append(call.answer[-1])
    return [number for number in numbers if number is not None]


def outcomes(call, item, last, most):
    """The possible items after a call, with the last number that was given then; the last one before is `last`."""
    for held in {item, None}:
        for number in range(last + 1, most + 1):
            after, answer = done(held, call.command, number)
            if call.answer in (None, answer):
                yield after, 0 if answer == RESTARTED else last if after is None else after.number


# The search


class State(NamedTuple):
    """What is known of the register: the value that is stored, or None. If something is stored and its number is known, `number` is it, and the
    last one that was given. Otherwise the last number is any from `least` on, except `others`.
    """

    value: Any = None
    number: int | None = None
    least: int = 0
    others: frozenset = frozenset()


def forgotten(state):
    return State(least=state.least)


def stored(state, value, number=None):
    """The state after a store, that gave this number if it is known. None if the number is too small."""
    if number is None:
        return State(value, None, state.least + 1)
    return State(value, number, number) if number > state.least else None


def numbered(state, number):
    """The state, if the stored item has this number; None otherwise."""
    if state.number is not None:
        return state if state.number == number else None
    return State(state.value, number, number) if number >= state.least and number not in state.others else None


def numbered_otherwise(state, number):
    """The state, if the stored item has another number; None otherwise."""
    if state.number is not None:
        return None if state.number == number else state
    others, least = state.others | {number}, state.least
    while least in others:
        least += 1
    return State(state.value, None, least, frozenset(each for each in others if each > least))


def after(state, command, answer):
    """The state after a command that was answered so, or None if the register cannot answer so. A command without an answer is taken to have
    stored.
    """
    name, *words = command
    if name == "restart":
        return State()
    if answer in (MISS, NOT_FOUND) or (name == "replace" and answer == NOT_STORED):
        return forgotten(state)
    if name in ("set", "ms", "add") and answer != NOT_STORED:
        return stored(state, words[0], answer[1] if answer else None)
    return None if state.value is None else after_held(state, name, words, answer)


def after_held(state, name, words, answer):
    """Likewise, if an item is stored and the answer shows it."""
    if name in ("get", "gets"):
        _, value, number = answer
        if value != state.value:
            return None
        return state if number is None else numbered(state, number)
    if name == "delete":
        return forgotten(state)
    if name == "add":
        return state
    if name == "cas" and answer == EXISTS:
        return numbered_otherwise(state, words[1])
    if name in COUNTS:
        value = counted(state.value, name, *words)
        return stored(state, value) if answer in (None, ("number", value)) else None
    compared = state if name == "replace" else numbered(state, words[1])
    return compared and stored(compared, words[0])


class Way(NamedTuple):
    """A way in which calls may have been done: the open ones that were, the unanswered ones that were, and the state after it."""

    done: frozenset
    used: frozenset
    state: State


class Ways:
    """Ways, without each that has another as good: one with the same open calls done and the same item held, that used no other unanswered
    calls, and gave no greater number.
    """

    def __init__(self, ways=()):
        self.kept = {}
        for way in ways:
            self.adds(way)

    def adds(self, way):
        """Adds a way, if no other is as good. Returns whether it did."""
        state = way.state
        alike = self.kept.setdefault((way.done, state.value, state.number, state.others), [])
        if any(used <= way.used and least <= state.least for used, least in alike):
            return False
        alike[:] = [(used, least) for used, least in alike if not (way.used <= used and state.least <= least)]
        alike.append((way.used, state.least))
        return True

    def __iter__(self):
        for (done_, value, number, others), alike in self.kept.items():
            for used, least in alike:
                yield Way(done_, used, State(value, number, least, others))


class Undecided(Exception):
    """A search takes too many steps."""


class Search:
    """Whether a history can be one of the register. `tried` counts the steps of the register that were tried, at most `most`."""

    def __init__(self, calls, most=5_000_000):
        self.calls, self.most, self.tried = with_unseen_values(calls), most, 0
        self.open = []  # calls that were sent by now, and are not answered yet
        self.unanswered = collections.defaultdict(list)  # those that never are, by command
        self.ways = [Way(frozenset(), frozenset(), State())]
        self.widest = 0  # how many answered calls were open at once

    def failure(self):
        """The place of the first answer that no order of the calls explains, or None."""
        for at, is_answer in moments(self.calls):
            if not is_answer:
                call = self.calls[at]
                (self.unanswered[call.command] if call.answer is None else self.open).append(at)
                self.widest = max(self.widest, len(self.open))
                continue
            self.ways = list(self.answered(at))
            self.open.remove(at)
            if not self.ways:
                return at
        return None

    def used(self):
        """After a search: how many unanswered calls were done, at least."""
        return min(len(way.used) for way in self.ways)

    def answered(self, at):
        """The ways in which a call is done by now, without it."""
        found, seen, todo = Ways(), Ways(self.ways), collections.deque(self.ways)
        while todo:
            way = todo.popleft()
            if at in way.done:
                found.adds(way._replace(done=way.done - {at}))
                continue
            for other in self.open:
                if other not in way.done:
                    todo.extend(each for each in self.does(way, other) if seen.adds(each))
        return found

    def does(self, way, at):
        """The ways to do a call next."""
        state = self.tries(way.state, at)
        if state is not None:
            return [Way(way.done | {at}, way.used, state)]
        return list(self.does_after_others(way, at)) if self.unanswered else []

    def does_after_others(self, way, at):
        """The ways to do a call that cannot be done next: after unanswered ones."""
        seen, todo = Ways(), collections.deque([way])
        while todo:
            each = todo.popleft()
            for one in self.left(each) if self.may_help(each, self.calls[at]) else ():
                state = self.tries(each.state, one)
                more = state and Way(each.done, each.used | {one}, state)
                if more is None or not seen.adds(more):
                    continue
                state = self.tries(state, at)
                if state is None:
                    todo.append(more)
                else:
                    yield Way(more.done | {at}, more.used, state)

    def may_help(self, way, call):
        """Whether unanswered calls may bring about what a call was answered. What they store has a greater number than was given before, and a
        value that is shown was stored or counted.
        """
        if call.answer != EXISTS and any(number <= way.state.least for number in numbers_of(call)):
            return False
        left = (self.calls[one].command for one in self.left(way))
        return any(call.answer[0] != "hit" or command[0] in COUNTS or command[1] == call.answer[1] for command in left)

    def left(self, way):
        """The unanswered calls that a way has not used. Of those with the same command it is the first: it does not matter which of them was
        done."""
        for ones in self.unanswered.values():
            one = next((one for one in ones if one not in way.used), None)
            if one is not None:
                yield one

    def tries(self, state, at):
        self.tried += 1
        if self.tried > self.most:
            raise Undecided
        call = self.calls[at]
        return after(state, call.command, call.answer)


def with_unseen_values(calls):
    """The calls. Those without an answer whose value is never shown have one value, UNSEEN. If there are counts, none has, since a value may be
    shown by a sum.
    """
    if any(call.command[0] in COUNTS for call in calls):
        return calls
    seen = {call.answer[1] for call in calls if call.answer is not None and call.answer[0] == "hit"}
    return [call if call.answer or len(call.command) < 2 or call.command[1] in seen else with_value(call, UNSEEN) for call in calls]


def with_value(call, value):
    name, _, *number = call.command
    return call._replace(command=(name, value, *number))


def moments(calls):
    """The moments of a history, in order: for each the place of a call, and whether it was answered then, or sent."""
    sent = [(call.sent, at, False) for at, call in enumerate(calls) if call.answer is not None or may_store(call.command)]
    came = [(call.came, at, True) for at, call in enumerate(calls) if call.answer is not None]
    return [(at, is_answer) for _, at, is_answer in sorted(sent + came)]


def may_store(command):
    """Whether a command can store. A lost command that cannot does not count: a get does nothing, and a deletion no more than forgetting."""
    return command[0] not in ("get", "gets", "delete")


def shown(calls, at, before=12):
    """Lines that show a history up to a call: the last calls that were answered before it was sent, those that overlap it, and the last that
    have no answer.
    """
    call = calls[at]
    begun = sorted(each for each in calls if each.sent < call.came and (each.answer is not None or may_store(each.command)))
    overlap = [each for each in begun if each.came > call.sent and each.answer is not None]
    ended = sorted((each for each in begun if each.came < call.sent), key=lambda each: each.came)[-before:]
    lost = [each for each in begun if each.answer is None][-before:]
    for each in sorted({*overlap, *ended, *lost}):
        answer = " ".join(str(word) for word in each.answer if word is not None) if each.answer else "no answer"
        mark = "  <- no order explains this" if each is call else ""
        yield f"  {each.sent:>9} to {each.came:>9}: {' '.join(map(str, each.command))}: {answer}{mark}"
