"""The streams that bench/shares.py plays: what one client, or some, may send in order to take more than their share.

    STREAMS[1].makes(0.5)    what each attacker sends, with this part of its keys if the stream takes much memory
"""

import base64
from typing import Callable, NamedTuple

from share_clients import NOTHING, Play

MEGABYTE = b"v" * 1_000_000
LARGE = b"v" * 480_000
VALUE = b"v" * 100
LETTERS = [b"%c" % code for code in range(33, 127)]  # all keys of one byte
CODED = base64.b64encode(b"c" * 186)  # 248 bytes; a key has 250 at most
SMALL_ITEMS, COST_OF_A_SMALL_ITEM = 200_000, 72
SMALL_ITEMS_FOR_A_LARGE = 14_000  # these cost as much as one of a megabyte
KEYS_OF_A_LONG_LINE = 32_000
SERVER, PROXY = "server", "proxy"
BOTH = (SERVER, PROXY)


class Stream(NamedTuple):
    """A stream: its attackers, what is stored before it, and where it is played. `makes` makes the play of an attacker from the part of
    its keys that is asked for; a stream without it has a measure of its own."""

    name: str
    words: str
    clients: tuple
    makes: Callable | None = None
    stores: tuple = ()
    places: tuple = (SERVER,)
    is_meta: bool = False  # has commands that nutcracker does not know
    is_large: bool = False  # takes much memory: --part plays fewer clients, too
    budget: int = 256 * 2**20

    def shown(self):
        return f"{self.name}: {self.words}"


def put(key, value):
    return b"set %b 0 0 %d\r\n%b\r\n" % (key, len(value), value)


def repeated(text):
    return lambda part: Play(text)


def get_large(count, **how):
    """A get of a key with a megabyte, this many times in one line."""
    return lambda part: Play(b"get" + b" k" * max(1, round(count * part)) + b"\r\n", is_repeated=False, reads=NOTHING, **how)


def half_a_set(part):
    return Play(b"set half 0 0 %d\r\n%b" % (len(MEGABYTE), MEGABYTE[:520_000]), is_repeated=False)


def head_of_a_set(part):
    return Play(b"set half 0 0 %d\r\n%b" % (len(MEGABYTE), MEGABYTE[:2_000]), is_repeated=False)


def evicting(part):
    """Stores of small items, and one of a megabyte that evicts as many, ten times with other keys."""
    texts = []
    for first in range(0, 10 * SMALL_ITEMS_FOR_A_LARGE, SMALL_ITEMS_FOR_A_LARGE):
        texts += [b"set e%x 0 0 0 noreply\r\n\r\n" % key for key in range(first, first + SMALL_ITEMS_FOR_A_LARGE)]
        texts.append(put(b"e%x" % first, MEGABYTE))
    return Play(b"".join(texts))


def get_letters(name):
    line = b"%b %b\r\n" % (name, b" ".join(LETTERS[at % len(LETTERS)] for at in range(KEYS_OF_A_LONG_LINE)))
    return repeated(line)


STORED_LETTERS = tuple((letter, b"v") for letter in LETTERS)
ONE_LARGE = ((b"k", MEGABYTE),)

STREAMS = [
    Stream("alone", "no other client", (0,), repeated(b"\n"), places=BOTH),
    # Costly for each byte.
    Stream("append", "`append` of a byte to 480,000", (1, 5, 10, 100), repeated(b"append k 0 0 1 noreply\r\nx\r\n"), ((b"k", LARGE),)),
    Stream("append-through", "the same, through a proxy", (10,), repeated(b"append k 0 0 1 noreply\r\nx\r\n"), ((b"k", LARGE),), (PROXY,)),
    Stream("prepend", "`prepend` of a byte to 480,000", (10,), repeated(b"prepend k 0 0 1 noreply\r\nx\r\n"), ((b"k", LARGE),)),
    Stream("quiet", "`mg zz q`", (50,), repeated(b"mg zz q\r\n"), (), BOTH, is_meta=True),
    Stream("ma", "`ma n q`", (50,), repeated(b"ma n q\r\n"), ((b"n", b"1"),), is_meta=True),
    Stream("cas", "`cas` with another number", (50,), repeated(b"cas k 0 0 1 1 noreply\r\nx\r\n"), ((b"k", VALUE),)),
    Stream("flush", "`flush_all noreply`", (10,), repeated(b"flush_all noreply\r\n")),
    Stream("faulty", "`x`, an error each", (50,), repeated(b"x\r\n"), places=BOTH, is_meta=True),
    Stream("empty", "empty lines", (50,), repeated(b"\n"), is_meta=True),
    Stream("coded", "`mg` of a key in base64, 248 bytes", (50,), repeated(b"mg %b b q\r\n" % CODED), is_meta=True),
    Stream("get-keys", "`get` of 32,000 stored keys", (10,), get_letters(b"get"), STORED_LETTERS, BOTH),
    Stream("gat-keys", "`gat` of 32,000 stored keys", (10,), get_letters(b"gat 0"), STORED_LETTERS),
    Stream("evict", "14,000 stores of 0 bytes, one of 1 MB", (4,), evicting, budget=SMALL_ITEMS * COST_OF_A_SMALL_ITEM),
    # Costly in memory.
    Stream("unread", "`get` of 250 x 1 MB, reads nothing", (8,), get_large(250), ONE_LARGE, BOTH, is_large=True),
    Stream("unread-many", "`get` of 5 x 1 MB, reads nothing", (200,), get_large(5), ONE_LARGE, is_large=True),
    Stream("long-get", "`get` of 1,000 x 1 MB, reads nothing", (1,), get_large(1_000), ONE_LARGE, (PROXY,), is_large=True),
    Stream("gone", "`get` of 1,000 x 1 MB, and is gone", (1,), get_large(1_000, leaves=True), ONE_LARGE, (PROXY,), is_large=True),
    Stream("slow-reader", "gets of 1 MB, reads 100 KB a second", (50,), lambda part: Play(b"get k\r\n", reads=1_000), ONE_LARGE, BOTH),
    Stream("large", "gets of 1 MB, reads all", (10,), repeated(b"get k\r\n"), ONE_LARGE, BOTH),
    Stream("halves", "520 KB of a `set` of 1 MB", (1_000,), half_a_set, (), BOTH, is_large=True),
    Stream("heads", "2 KB of a `set` of 1 MB", (1_000,), head_of_a_set, is_large=True),
    # Many connections.
    Stream("bytes", "gets, each sends a byte in turn", (1_000,), lambda part: Play(b"get k\r\n", piece=1), (), BOTH),
    Stream("churn", "connects, sends `mn`, resets", (10,), lambda part: Play(b"mn\r\n", leaves=True), is_meta=True),
    # Proxies whose servers do not keep up.
    Stream("behind-slow", "54 MB of gets of 32,700 keys behind a slow get", (1,), places=(PROXY,), is_large=True),
    Stream("at-mark", "single bytes behind a get for a link at its mark", (1,), places=(PROXY,)),
    Stream("drip", "none: a server sends a byte each 0.7 s", (0,), places=(PROXY,)),
    Stream("stopped", "none: one of three servers stops for 6 s", (40,), places=(PROXY,)),
    # What a message of HTTP does, and bytes out of band.
    Stream("strangers", "a browser's message with commands in its body", (1,), places=BOTH),
    Stream("urgent", "a byte out of band between two `mn`", (1,), places=BOTH, is_meta=True),
]
