"""Random worlds: pools whose clients send commands of all kinds (random_script.py), whole and in pieces, and with all events that a pool script
can have, mostly if they apply. A world has 1 to 4 proxies, half of them one, 1 to 5 servers, 1 to 20 clients of each proxy, points of its own or
libketama's, caches from tiny to large. In half of the worlds losses are missed, unless a caller asks for one of the two. Up to half of several
proxies die, and the others go on. Many worlds end with a drain, and a try of each event that a pool does by itself. In each hundredth world
several proxies take all connections of a server.
"""

import random

from model import escaped
from pool_model import MOST_CONNECTIONS, Awaited, Pool
from pool_script import ALL, CLIENT_EVENTS, LOSSES, Script
from random_script import Scene, command
from rings import hash_of

PROXIES = [1, 1, 1, 2, 3, 4]
BUDGETS = [1, 66, 70, 140, 200, 1000, 8192, 67108864, 1099511627776]
LIMITS = [1, 2, 5, 40, 1000, 16777216]


class PoolScene(Scene):
    """The parts of a command whose key may be stored by any server."""

    def __init__(self, dice, pool):
        self.dice = dice
        self.pool = pool
        self.moment = dice.choice([0, 3000, 2592000, 10**9])
        self.last = []

    def held(self):
        keys = [key.encode() for key in self.last[:1]]
        items = (item for site in self.pool.sites for item in site.cache.items)
        return next((item for item in items if item.key in keys), None)

    def pass_time(self):
        super().pass_time()
        if self.dice.random() < 0.01:
            self.moment = max(0, self.moment + self.dice.choice([-1000, -50, 60, 2592000]))


def points_of_world(dice, servers):
    """Points of a ring, or none for libketama's."""
    if dice.random() < 0.4:
        return []
    some = [dice.randrange(2**32) for _ in range(dice.randrange(1, 9))]
    some += [hash_of(f"key{dice.randrange(50)}".encode()) for _ in range(dice.randrange(3))]
    points = [(point, dice.randrange(servers)) for point in some]
    return points + points[: dice.randrange(2)]


def losses_of_world(seed, losses):
    """The line with the choice for lost commands, or none if that is the default. The dice are its own, so that the worlds of a seed differ only
    in the answers about losses."""
    dice = random.Random(f"losses {seed}")
    losses = losses or dice.choice(LOSSES)
    return [] if losses == "told" and dice.random() < 0.5 else [f"losses {losses}"]


class World:
    """A random world: its script, and the pool that has played it so far. What is of proxies has dice of its own."""

    def __init__(self, seed, losses=None):
        self.dice = dice = random.Random(seed)
        self.others = others = random.Random(f"proxies {seed}")
        self.fills = seed % 100 == 0  # all connections of a server are taken
        self.dead = set()  # the proxies that died
        self.proxies = max(others.choice(PROXIES), 2 if self.fills else 1)
        servers, clients = dice.randrange(1, 6), dice.choice([1, 1, 2, 3, 5, 8, 20])
        if self.proxies > 1:
            servers, clients = others.choice([1, 1, 2, servers]), others.choice([1, 1, 1, 2, 3, clients])
        head = f"pool {servers} {clients} {dice.choice(BUDGETS[-3:] + BUDGETS)} {dice.choice(LIMITS)}"
        head += f" {self.proxies}" if self.proxies > 1 or others.random() < 0.1 else ""
        points = [f"point {point:08x} {place}" for point, place in points_of_world(dice, servers)]
        said = losses_of_world(seed, losses)
        self.lines = [head, *(points + said if seed % 2 else said + points)]
        self.script = Script(self.lines)
        self.pool = Pool(self.script)
        self.scene = PoolScene(dice, self.pool)
        self.left = [b""] * len(self.pool.clients)  # the rest of a client's command
        self.chances = self.chances_of_world(seed)
        self.greed = dice.choice([0.2, 0.7, 1])  # how often all bytes move
        self.blind = dice.choice([0, 0.05, 0.2])  # how often an event is any event
        self.spelled = others.choice([0, 0.5, 1])  # how often a link of proxy 0 is named with its proxy

    def chances_of_world(self, seed):
        """How often each event is chosen, beside the others."""
        dice, others = self.dice, self.others
        lost = dice.choice([0, 0.1, 0.3, 1])
        restart = random.Random(f"restarts {seed}").choice([0, 0, 0.1, 0.6])
        chances = {
            "bytes": 6, "turn": 6, "toserver": 5, "serve": 6, "toproxy": 5, "reply": 6, "emit": 6, "takes": 2,
            "lost": lost, "back": max(lost * 2, restart * 5), "end": lost * dice.choice([0.2, 1]),
            "gone": dice.choice([0, 0, 0.05]), "join": dice.choice([0, 0, 0.1]), "drain": dice.choice([0, 0, 0.05, 0.3]),
            "restart": restart, "proxyrestart": others.choice([0, 0, 0.01]),
        }  # fmt: skip
        if self.proxies > 1:
            chances["cut"] = others.choice([0, 0.1, 0.4])
            chances["join"] = others.choice([0, 0.3, 1])
            chances["proxyrestart"], chances["death"] = 0, others.choice([0, 0.3, 1, 1])
            chances["back"] = max(chances["back"], chances["join"], chances["cut"] * self.proxies, chances["death"] * 2)
            chances["end"] = max(chances["end"], chances["death"])
        return chances

    def add(self, line):
        self.lines.append(line)
        return self.pool.step(self.script.read(line))

    def named(self, number):
        """A client, a server or a link as a word."""
        if isinstance(number, int):
            return str(number)
        proxy, place = number
        return f"{proxy}:{place}" if proxy or self.others.random() < self.spelled else str(place)

    def add_event(self, name, *words):
        return self.add(" ".join([name, *(word if isinstance(word, str) else self.named(word) for word in words)]))

    def add_each(self, name, links):
        for link in links:
            self.add_event(name, link)

    # When events apply

    def clients_that(self, test):
        return [number for number, client in enumerate(self.pool.clients) if not client.gone and test(client)]

    def ways_that(self, test):
        return [(name, number) for name, link in self.pool.links.items() for number, way in link.ways.items() if test(way)]

    def links_that(self, test):
        return [(name,) for name, link in self.pool.links.items() if test(link)]

    def places(self, name):
        """The numbers at which an event of this name applies, or may."""
        pool = self.pool
        if name == "turn":
            return [(number,) for number in self.clients_that(lambda c: c.unread) if pool.next_request(number)]
        if name == "emit":
            return [(n,) for n in self.clients_that(lambda c: c.unanswered and Awaited not in c.unanswered[0][1])]
        if name == "takes":
            return [(number,) for number in self.clients_that(lambda c: c.unsent())]
        if name in ("bytes", "gone"):
            return [(number,) for number in self.clients_that(lambda c: True)]
        if name == "toserver":
            return self.ways_that(lambda way: way.going)
        if name == "serve":
            return self.ways_that(lambda way: way.connection.unread)
        if name == "end":
            return [at for site in pool.sites for at in site.lost]
        if name in ("restart", "proxyrestart"):
            return [(number,) for number in range(len(pool.sites) if name == "restart" else self.proxies)]
        tests = {
            "toproxy": lambda link: link.up and link.living().connection.output,
            "reply": lambda link: link.up and link.come,
            "lost": lambda link: link.up,
            "back": lambda link: not link.up,
        }
        return self.links_that(tests[name])

    def any_place(self, name):
        dice = self.dice
        if name in CLIENT_EVENTS:
            return (dice.randrange(len(self.pool.clients)),)
        if name in ("restart", "proxyrestart"):
            return (dice.randrange(len(self.pool.sites) if name == "restart" else self.proxies),)
        link = dice.choice(list(self.pool.links))
        if name in ("toserver", "serve", "end"):
            return link, str(dice.choice([0, 1, dice.randrange(self.pool.links[link].generation + 2), ALL]))
        return (link,)

    # The events

    def count(self):
        dice = self.dice
        if dice.random() < self.greed:
            return "all"
        return dice.choice([1, 1, 2, 3, 5, 8, 20, 100, ALL] + [0] * (dice.random() < 0.1))

    def text(self, client):
        """The next bytes of a client: a command, or a part of one."""
        dice = self.dice
        text = self.left[client]
        if not text:
            odd = dice.random()
            if odd < 0.05:
                text = f"flush_all{dice.choice(['', ' 0', ' 3', ' 30', ' -1', ' noreply'])}\r\n".encode()
            elif odd < 0.053:
                text = b"quit\r\n"
            else:
                text = b"".join(command(self.scene)[0] for _ in range(dice.choice([1, 1, 1, 2, 4])))
        size = len(text) if dice.random() < 0.7 else dice.choice([0, 1, 1, dice.randrange(len(text) + 1)])
        self.left[client] = text[size:]
        return escaped(text[:size])

    def join(self):
        """A server joins at a proxy: a new one, or the next of those that another proxy has, by its address."""
        behind = [proxy for proxy, ring in enumerate(self.pool.rings) if ring.servers < len(self.pool.sites)]
        proxy = self.others.choice(behind if behind and self.others.random() < 0.5 else range(self.proxies))
        place = self.pool.rings[proxy].servers
        if place >= (9 if self.proxies == 1 else 6):
            return
        address = f"{self.dice.choice(['127.0.0.1', 'cache-2', 'b.example'])}:{20000 + place}"
        known = [addresses[place] for addresses in self.script.addresses if place < len(addresses)]
        address = known[0] if known else address
        self.add(f"join {address}" if proxy == 0 and self.others.random() >= self.spelled else f"join {proxy} {address}")

    def cut(self):
        """All proxies lose their links to a server."""
        place = self.others.randrange(len(self.pool.sites))
        self.add_each("lost", [name for name in self.pool.links if name[1] == place])

    def death(self):
        """A proxy dies: its clients have just sent commands, which are on their way, or at a server, or replied. At least half of the proxies
        never die. One that has died may die again."""
        proxy = self.others.randrange(self.proxies)
        if len(self.dead | {proxy}) * 2 > self.proxies:
            return
        self.dead.add(proxy)
        for client in self.clients_that(lambda client: True):
            if self.script.proxy_of(client) == proxy:
                self.add_event("bytes", client, self.text(client))
                self.add_event("turn", client)
        for name in ("toserver", "serve", "toproxy")[: self.others.randrange(4)]:
            for numbers in self.places(name):
                if numbers[0][0] == proxy:
                    self.add_event(name, *numbers, self.scene.moment if name == "serve" else self.count())
        self.add_event("proxyrestart", proxy)

    def happen(self):
        dice = self.dice
        name = dice.choices(list(self.chances), list(self.chances.values()))[0]
        if name in ("join", "cut", "death"):
            getattr(self, name)()
            return
        if name == "drain":
            self.scene.pass_time()
            self.drain()
            return
        places = [] if dice.random() < self.blind else self.places(name)
        numbers = dice.choice(places) if places else self.any_place(name)
        if not places and dice.random() > self.blind + 0.02:
            return
        self.scene.pass_time()
        tail = {"bytes": lambda: self.text(numbers[0]), "serve": lambda: self.scene.moment}
        tail.update(dict.fromkeys(("toserver", "toproxy", "takes"), self.count))
        self.add_event(name, *numbers, *([tail[name]()] if name in tail else []))

    def crowd(self):
        """One of the marks is reached at which a turn waits: requests that are not answered, unsent bytes to a client or on a link. Or a server
        has as many connections as it can."""
        client = self.dice.randrange(len(self.pool.clients))
        if self.others.random() < 0.2:
            self.fill()
            return
        kind = self.dice.choice(["requests", "client", "link"])
        big = b"set big 0 0 1000000\r\n" + b"v" * 1000000 + b"\r\n"
        if kind == "requests":
            self.take(client, b"get key1\r\n" * 1030, 1030)
        elif kind == "client":
            self.take(client, big + b"get big\r\n" * 7, 8)
            for _ in range(2):
                self.settle(takes=False)
            self.take(client, b"get key1\r\n" * 3, 3)
        else:
            self.take(client, big * 10, 10)

    def fill(self):
        """Links of all proxies to a server are lost and back until it has as many connections as it can. Then all links to it are lost. None
        comes back before an end makes room for one; in half of the worlds a restart makes room for all."""
        place = self.others.randrange(self.script.servers)
        names = [name for name in self.pool.links if name[1] == place]
        while self.pool.connections(place) < MOST_CONNECTIONS:
            name = self.others.choice(names)
            self.add_event("lost", name)
            self.add_event("back", name)
        self.add_each("lost", names)
        self.add_each("back", names)
        self.add_event("end", *self.others.choice(self.pool.sites[place].lost))
        self.add_each("back", names)
        if self.others.random() < 0.5:
            self.add_event("restart", place)
            self.add_each("back", names)

    def take(self, client, text, turns):
        self.add(f"bytes {client} {escaped(text)}")
        for _ in range(turns):
            self.add(f"turn {client}")

    def settle(self, takes=True):
        """All that can still progress does, until nothing is left."""
        going = True
        while going:
            going = False
            for name in ("turn", "toserver", "serve", "toproxy", "reply", "emit") + ("takes",) * takes:
                for numbers in self.places(name):
                    tail = {"serve": self.scene.moment}.get(name, "all")
                    words = [tail] if name in ("toserver", "serve", "toproxy", "takes") else []
                    going |= bool(self.add_event(name, *numbers, *words))

    def drain(self):
        self.add(f"drain {self.scene.moment}")

    def try_all(self):
        """Each event that a pool does by itself is tried at each of its places: of a link's generations, at the last ten."""
        for client in range(len(self.pool.clients)):
            for event in ("turn {}", "emit {}", "takes {} all"):
                self.add(event.format(client))
        for name, link in self.pool.links.items():
            for generation in range(max(1, link.generation - 9), link.generation + 1):
                for event, *words in (("toserver", "all"), ("serve", 100), ("end",)):
                    self.add_event(event, name, generation, *words)
            self.add_event("toproxy", name, "all")
            self.add_event("reply", name)

    def played(self):
        dice = self.dice
        for number in range(dice.choice([20, 60, 60, 200, 200, 200, 600])):
            if self.fills and number == 10:
                self.fill()
            self.happen()
        if dice.random() < 0.01:
            self.crowd()
        ends = dice.random()
        if ends < 0.3:
            self.settle()
        elif ends < 0.7:
            self.drain()
            if dice.random() < 0.5:
                self.try_all()
        return self


def lines_of_world(seed, losses=None):
    return World(seed, losses).played().lines
