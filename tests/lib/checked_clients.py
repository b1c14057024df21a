"""Clients that know which answers are right while servers are lost: for each of their keys what it may hold.

A client sends batches of requests on keys of its own. A value has its key and the number of the request that stored it, and an opaque the
number of the request that it answers. `Wrong` is raised if anything arrives except the answer of the next request:

- another's value, one that was never stored under its key, or one that a newer command has replaced;
- no value, if one was stored, its server was not killed since, and no deletion of it may still be done;
- a command that is reported lost, while nothing happened to its server;
- a missing answer, or one too many.

A store or a deletion that was reported lost, or was never answered, is done at most once: before, later, or never. An answer that shows
that it was done after a newer command is right, and counted as late.
"""

import collections
import contextlib
import random
import threading
import time

from checks import Wrong, shortened
from live_pool import LOST


class Closed(Wrong):
    """The connection was closed."""


class Trouble:
    """What happens to a server, as clients of one proxy may notice it: it continues while `count` is odd."""

    def __init__(self, count=0):
        self.count = count

    def begins(self):
        self.count += 1

    def ends(self):
        self.count += 1

    def was_since(self, count):
        """Whether it continues, or did so since it had this count."""
        return count % 2 == 1 or self.count != count


class Lives:
    """How often a server was killed, after which it is empty: `count` is increased before that, and once more after it, so that no
    command of the time between seems to be of the next life."""

    def __init__(self):
        self.count = 0

    @contextlib.contextmanager
    def end(self):
        """A block in which the server is killed."""
        self.count += 1
        yield
        self.count += 1


class Pause:
    """The place at which clients rest between batches while they have no leave."""

    def __init__(self, patience):
        self.leave, self.lock, self.resting, self.patience = threading.Event(), threading.Lock(), 0, patience

    def wait(self):
        """Called by a client."""
        if not self.leave.is_set():
            with self.lock:
                self.resting += 1
            self.leave.wait()
            with self.lock:
                self.resting -= 1

    @contextlib.contextmanager
    def all_rest(self, count, look):
        """A block in which this many clients, all of them, rest. While they are waited for, they are checked."""
        self.leave.clear()
        deadline = time.monotonic() + self.patience
        while self.resting < count:
            look()
            if time.monotonic() > deadline:
                raise Wrong("the clients do not come to rest")
            time.sleep(0.01)
        yield
        self.leave.set()


class Key:
    """What a client knows of a key of its own. `server` is the place of its owner, and `lives` are the owner's."""

    def __init__(self, name, server, lives, may_be_late):
        self.name, self.server, self.lives, self.may_be_late = name, server, lives, may_be_late
        self.held = None  # the number of the request that stored its item
        self.known = 0  # the number of the command whose answer showed that
        self.life = 0  # of its server, when that command was sent
        self.stores, self.deletions = set(), set()  # the numbers of those that may still be done

    def value(self, number):
        return b"%s of %d " % (self.name, number) * (1 + number * 7919 % (10_000 if number % 50 == 0 else 20))

    def shows(self, number, life, value):
        """A command of this number, sent in this life of its server, was shown this value, or none. Returns whether that shows that a
        command was late."""
        if value is None:
            return self.is_none(number, life)
        shown = self.number_in(value)
        if shown is None or shown >= number or value != self.value(shown):
            raise Wrong(f"to request {number}: no value of {self.name.decode()}, but {shortened(value)}")
        if shown != self.held and shown not in self.stores:
            raise Wrong(f"to request {number}: request {shown} stored what is shown of {self.name.decode()}, not {self.held}")
        is_late = shown != self.held and shown < self.known
        self.is_known(shown, number, life)
        return is_late

    def number_in(self, value):
        beginning = b"%s of " % self.name
        digits = value[len(beginning) :].partition(b" ")[0]
        return int(digits) if value.startswith(beginning) and digits.isdigit() else None

    def is_none(self, number, life):
        """A command was shown that there is no value."""
        is_lost = self.held is not None and self.lives.count == self.life
        if is_lost and not self.deletions:
            raise Wrong(f"to request {number}: nothing is shown of {self.name.decode()}, which request {self.held} stored")
        is_late = is_lost and max(self.deletions) < self.known
        self.is_known(None, number, life)
        return is_late

    def is_deleted(self, number, life):
        """A command deleted a value."""
        if self.held is None and not self.stores:
            raise Wrong(f"request {number} deleted a value of {self.name.decode()}, which nobody stored")
        is_late = self.held is None and max(self.stores) < self.known
        self.is_known(None, number, life)
        return is_late

    def is_known(self, held, number, life):
        """Its state is known now, by the answer of a command of this number."""
        self.held, self.known, self.life = held, number, life
        self.stores.discard(held)
        if not self.may_be_late:
            self.stores.clear()
            self.deletions.clear()


class Request:
    """The bytes of a request, and the check of its answer. With no answer it enters the doubts, those of its key."""

    def __init__(self, number, text, look, doubts=None):
        self.number, self.text, self.look, self.doubts = number, text, look, doubts

    def is_in_doubt(self):
        if self.doubts is not None:
            self.doubts.add(self.number)


def is_answer(line, answer):
    if line != answer:
        raise Wrong(f"{line!r} came for {answer!r}")


class Answers:
    """The answers on a connection, as they arrive."""

    def __init__(self, connection):
        self.file = connection.makefile("rb")

    def line(self):
        line = self.file.readline()
        if not line.endswith(b"\r\n"):
            raise Closed(f"the proxy closed the connection after {line!r}")
        return line

    def block(self, size):
        block = self.file.read(size + 2)
        if len(block) < size + 2:
            raise Closed(f"the proxy closed the connection after {shortened(block)}")
        if not block.endswith(b"\r\n"):
            raise Wrong(f"a value does not end where its line says: {shortened(block)}")
        return block[:-2]


class Client:
    """A client of a pool, with keys of each of its servers. `troubles` are those of its servers, as its proxy sees them, and `told`
    counts its answers by their kind."""

    def __init__(self, name, seed, ring, lives, keys_at_a_server, may_be_late):
        self.dice = random.Random(seed)
        names = [ring.keys(place, keys_at_a_server, f"{name}-") for place in range(len(lives))]
        self.keys = [Key(each, place, lives[place], may_be_late) for place in range(len(lives)) for each in names[place]]
        self.none = ring.keys(0, 1, f"none-{name}-")[0]
        self.connection, self.answers, self.troubles = None, None, []
        self.number, self.told = 0, collections.Counter()

    def uses(self, connection, troubles):
        self.connection, self.answers, self.troubles = connection, Answers(connection), troubles

    def leaves(self):
        """Closes its connection."""
        self.answers.file.close()
        self.connection.close()

    def batch(self):
        """Sends requests, and checks their answers. Those that get none are in doubt."""
        requests = collections.deque(self.request() for _ in range(self.dice.randrange(1, 30)))
        known, is_known = self.known()
        try:
            self.connection.sendall(b"".join(each.text for each in requests) + known)
            while requests:
                requests[0].look()
                requests.popleft()
            is_known(self.answers.line())
        except Wrong as wrong:
            text = requests[0].text if requests else known
            raise type(wrong)(f"{wrong}; the request was {shortened(text)}") from None
        finally:
            for each in requests:
                each.is_in_doubt()
            self.told["unanswered"] += len(requests)

    def request(self):
        """A request of any kind."""
        self.number += 1
        kind = self.dice.choice((self.set, self.set, self.get, self.get, self.meta_set, self.meta_get, self.delete, self.silent))
        return kind(self.dice.choice(self.keys), self.number)

    def watched(self, *keys):
        """The check that a line later reports a command on these keys as lost, as it may if something happened to their servers. A store
        or a deletion is in doubt then."""
        places = {key.server for key in keys}
        counts = [(self.troubles[place], self.troubles[place].count) for place in places]

        def is_lost(line, request=None):
            lost = line == LOST and any(trouble.was_since(count) for trouble, count in counts)
            self.told["link lost" if lost else "answered"] += 1
            if lost and request is not None:
                request.is_in_doubt()
            return lost

        return is_lost

    def known(self):
        """A request whose answer is known: its text, and the check of a line. Its opaque identifies it."""
        self.number += 1
        answer = b"NF O%d\r\n" % self.number
        return b"md %s O%d\r\n" % (self.none, self.number), lambda line: is_answer(line, answer)

    def stores(self, key, number, text, answer):
        """A request that stores a value, with its data block, and is answered so."""
        value, life, is_lost = key.value(number), key.lives.count, self.watched(key)

        def look():
            line = self.answers.line()
            if not is_lost(line, request):
                is_answer(line, answer)
                key.is_known(number, number, life)

        request = Request(number, b"%s\r\n%s\r\n" % (text % (key.name, len(value)), value), look, key.stores)
        return request

    def set(self, key, number):
        return self.stores(key, number, b"set %s 0 0 %d", b"STORED\r\n")

    def meta_set(self, key, number):
        return self.stores(key, number, b"ms %%s %%d O%d" % number, b"HD O%d\r\n" % number)

    def silent(self, key, number):
        """A store that is answered only if it was lost, and after it a request whose answer is known."""
        text = self.set(key, number).text.replace(b"\r\n", b" noreply\r\n", 1)
        life, is_lost = key.lives.count, self.watched(key)
        known, is_known = self.known()

        def look():
            line = self.answers.line()
            if is_lost(line, request):
                line = self.answers.line()
            else:
                key.is_known(number, number, life)
            is_known(line)

        request = Request(number, text + known, look, key.stores)
        return request

    def delete(self, key, number):
        life, is_lost = key.lives.count, self.watched(key)

        def look():
            line = self.answers.line()
            if is_lost(line, request):
                return
            if line == b"HD O%d\r\n" % number:
                self.told["late"] += key.is_deleted(number, life)
            else:
                is_answer(line, b"NF O%d\r\n" % number)
                self.told["late"] += key.is_none(number, life)

        request = Request(number, b"md %s O%d\r\n" % (key.name, number), look, key.deletions)
        return request

    def meta_get(self, key, number):
        life, is_lost = key.lives.count, self.watched(key)

        def look():
            line = self.answers.line()
            if is_lost(line):
                return
            words = line.split()
            if line == b"EN\r\n":
                value = None
            elif len(words) == 4 and words[0] == b"VA" and words[2:] == [b"k" + key.name, b"O%d" % number]:
                value = self.answers.block(int(words[1]))
            else:
                raise Wrong(f"{line!r} came")
            self.told["late"] += key.shows(number, life, value)

        return Request(number, b"mg %s v k O%d\r\n" % (key.name, number), look)

    def get(self, key, number):
        """Of one key, or of several of all servers."""
        keys = [key] if self.dice.random() < 0.5 else self.dice.sample(self.keys, self.dice.randrange(2, 9))
        lives, is_lost = [each.lives.count for each in keys], self.watched(*keys)

        def look():
            line = self.answers.line()
            if is_lost(line):
                return
            seen = {}
            while line != b"END\r\n":
                words = line.split()
                if len(words) != 4 or words[0] != b"VALUE" or words[1] in seen:
                    raise Wrong(f"{line!r} came")
                seen[words[1]] = self.answers.block(int(words[3]))
                line = self.answers.line()
            if list(seen) != [each.name for each in keys if each.name in seen]:
                raise Wrong(f"{list(seen)} were shown")
            for each, before in zip(keys, lives):
                self.told["late"] += each.shows(number, before, seen.get(each.name))

        return Request(number, b"get %s\r\n" % b" ".join(each.name for each in keys), look)
