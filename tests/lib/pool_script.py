"""Pool scripts: what each line says, and which lines are bad. Written from the words of docs/SCRIPTS.md.

An event is a tuple of its name and of what it names. A link is named by a pair, the number of its proxy and the place of its server.
"""

import re

from model import unescaped
from rings import Ring, points_of

ALL = 2**64 - 1
MOMENTS = 2**63  # a moment is below
MOST_SERVERS, MOST_PROXIES, MOST_CLIENTS = 64, 64, 1024  # clients of all proxies
MOST_BYTES, MOST_ITEMS = 2**40, 2**24  # of a cache
LOSSES = ("told", "missed")  # the answer to clients about lost commands: the line of a lost link, or as little as a cache may say
FIRST_PORT = 11211
ADDRESS = re.compile(r"[A-Za-z0-9.-]{1,255}:([1-9][0-9]{0,4})")
ESCAPED = re.compile(r"([^\\]|\\[rn\\]|\\x[0-9A-Fa-f]{2})*")

# What follows the name of a line, except that of a `join`.
WORDS = {
    "bytes": ("client", "text"),
    "gone": ("client",),
    "turn": ("client",),
    "toserver": ("link", "number", "count"),
    "serve": ("link", "number", "moment"),
    "toproxy": ("link", "count"),
    "reply": ("link",),
    "emit": ("client",),
    "takes": ("client", "count"),
    "lost": ("link",),
    "back": ("link",),
    "end": ("link", "number"),
    "restart": ("server",),
    "proxyrestart": ("proxy",),
    "drain": ("moment",),
}
CLIENT_EVENTS = tuple(name for name, words in WORDS.items() if words[0] == "client")
LINK_EVENTS = tuple(name for name, words in WORDS.items() if words[0] == "link")


class BadLine(Exception):
    """A line that is bad, by its number."""

    def __init__(self, number):
        super().__init__(f"line {number}: bad line")


class PoolRing(Ring):
    """The ring of a proxy: its points, and how many servers it has."""

    def __init__(self, points, servers):
        self.points, self.servers = sorted(set(points)), servers

    def joined(self, address):
        """The ring with one more server."""
        own = [(point, self.servers) for point in points_of(address)]
        return PoolRing(self.points + own, self.servers + 1)


class Script:
    """A pool script: its head, the ring's points, the choice for lost commands, and the events. `numbers` are those of the events' lines. Clients
    have one number over all proxies; `clients` is how many each proxy has."""

    def __init__(self, lines):
        self.points, self.said, self.events, self.numbers = [], [], [], []
        numbered = [(number, line) for number, line in enumerate(lines, 1) if line]
        if not numbered:
            raise BadLine(1)
        (first, head), *rest = numbered
        self.checked(first, self.read_head, head)
        for number, line in rest:
            if self.checked(number, self.read, line) is not None:
                self.numbers.append(number)

    @staticmethod
    def checked(number, read, line):
        try:
            return read(line)
        except ValueError:
            raise BadLine(number) from None

    @property
    def losses(self):
        return (self.said or LOSSES)[0]

    def ring(self):
        """The ring that each proxy begins with."""
        first = self.addresses_at_first()
        own = [(point, place) for place, address in enumerate(first) for point in points_of(address)]
        return PoolRing(self.points or own, self.servers)

    def addresses_at_first(self):
        return [f"127.0.0.1:{FIRST_PORT + place}" for place in range(self.servers)]

    def proxy_of(self, client):
        return client // self.clients

    def clients_of(self, proxy):
        return range(proxy * self.clients, (proxy + 1) * self.clients)

    def all_clients(self):
        return range(self.proxies * self.clients)

    # Lines. A bad one raises ValueError, and adds nothing.

    def read_head(self, line):
        name, *words = line.split(" ")
        if name != "pool" or len(words) not in (4, 5):
            raise ValueError(line)
        most = (MOST_SERVERS, MOST_CLIENTS, MOST_BYTES, MOST_ITEMS, MOST_PROXIES)
        limits = [number_of(word, bound + 1, least=1) for word, bound in zip([*words, "1"], most)]
        self.servers, self.clients, self.budget, self.items, self.proxies = limits
        if self.clients * self.proxies > MOST_CLIENTS:
            raise ValueError(line)
        self.addresses = [self.addresses_at_first() for _ in range(self.proxies)]  # of each proxy's servers, as they are after the last line

    def read(self, line):
        """Adds a line, and returns its event, if it is one."""
        name, space, rest = line.partition(" ")
        if not space:
            raise ValueError(line)
        if name == "point" and not self.events:
            self.points.append(self.point(rest))
        elif name == "losses" and not self.events:
            if self.said or rest not in LOSSES:
                raise ValueError(line)
            self.said.append(rest)
        else:
            self.events.append(self.event(name, rest))
            return self.events[-1]
        return None

    def point(self, rest):
        word, place = words_of(rest, 2)
        if not re.fullmatch("[0-9A-Fa-f]{8}", word):
            raise ValueError(rest)
        return int(word, 16), number_of(place, self.servers)

    def event(self, name, rest):
        if name == "join":
            return name, *self.join(rest)
        if name not in WORDS:
            raise ValueError(name)
        kinds = WORDS[name]
        return name, *(getattr(self, f"read_{kind}")(word) for kind, word in zip(kinds, words_of(rest, len(kinds))))

    def join(self, rest):
        """The proxy and the address of a server that joins at it: a new one if the proxy has all servers, else the next that it does not have. Proxy 0
        needs no word."""
        before, space, address = rest.partition(" ")
        proxy, address = (self.read_proxy(before), address) if space else (0, rest)
        known, servers = self.addresses[proxy], max(self.addresses, key=len)  # those of the proxy are the first of all
        if len(known) < len(servers):
            is_right = address == servers[len(known)]
        else:
            is_right = is_address(address) and address not in servers and len(servers) < MOST_SERVERS
        if not is_right:
            raise ValueError(rest)
        known.append(address)
        return proxy, address

    # Words

    def read_client(self, word):
        return number_of(word, self.clients * self.proxies)

    def read_proxy(self, word):
        return number_of(word, self.proxies)

    def read_server(self, word):
        """A server that any proxy has."""
        return number_of(word, max(len(addresses) for addresses in self.addresses))

    def read_link(self, word):
        """`<server>` or `<proxy>:<server>`, a server that this proxy has."""
        first, colon, second = word.partition(":")
        proxy, place = (self.read_proxy(first), second) if colon else (0, word)
        return proxy, number_of(place, len(self.addresses[proxy]))

    @staticmethod
    def read_text(word):
        if not ESCAPED.fullmatch(word):
            raise ValueError(word)
        return unescaped(word)

    @staticmethod
    def read_number(word):
        return number_of(word, ALL + 1)

    @staticmethod
    def read_count(word):
        return ALL if word == "all" else number_of(word, ALL + 1)

    @staticmethod
    def read_moment(word):
        return number_of(word, MOMENTS)


def words_of(text, count):
    """This many words, the last of which is the rest."""
    words = text.split(" ", count - 1)
    if len(words) != count:
        raise ValueError(text)
    return words


def number_of(word, below, least=0):
    """A decimal number: 1 to 20 digits."""
    if not re.fullmatch("[0-9]{1,20}", word) or not least <= int(word) < below:
        raise ValueError(word)
    return int(word)


def is_address(text):
    found = ADDRESS.fullmatch(text)
    return found is not None and int(found[1]) < 2**16
