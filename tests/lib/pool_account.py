"""The account of a pool: what must hold of its output, by the events that were done alone.

`faults_of` checks the output of a world that played a script, without the model beside it: the events that were done, those of each drain
among them, and each client's text, each client's bytes and each server's history.
"""

import collections

from model import Connection, Server
from pool_model import Tag
from pool_requests import answered, requests_of, routed

NO_MEMORY = b"SERVER_ERROR out of memory storing object\r\n"


def log_of(script, told):
    """What was done, in order, each with its place: the number of its event, and within a drain the number of its step."""
    drains = iter(told.drains)
    for number, (event, done) in enumerate(zip(script.events, told.done)):
        steps = next(drains) if event[0] == "drain" else []
        yield from (((number, step), each) for step, each in enumerate(steps))
        if done:
            yield (number, len(steps)), event


class Lane:
    """What is known of a proxy's link to a server."""

    def __init__(self, up):
        self.up, self.began_up = up, up
        self.generation = 1 if up else 0
        self.sent = {1: []} if up else {}  # tags by generation
        self.commands = []  # the tags of all commands that it was to carry
        self.waiting = []
        self.losses = []  # the places in the log
        self.buried = 0  # the last generation that ended as the server restarted


class Account:
    """What is known of a world by the events that were done alone: which requests were taken and routed where, when, and their
    outcomes."""

    def __init__(self, script, told):
        self.script, self.told = script, told
        self.texts = [bytearray() for _ in script.all_clients()]
        self.taken = {}  # (client, request): the place in the log
        self.put = {}
        self.owner = {}  # tag: the name of its link
        self.unsent = set()  # tags whose link was down
        self.outcome = {}  # tag: `reply` or `lost`
        self.counts = [[0, 0] for _ in script.all_clients()]  # taken, put
        self.turns = [[] for _ in range(script.servers)]  # of each server: the place in the log, lane, generation and moment of each
        self.begun = [[] for _ in range(script.servers)]  # how many turns there were before each restart
        self.rings = [script.ring() for _ in range(script.proxies)]
        self.lanes = {(proxy, place): Lane(True) for proxy in range(script.proxies) for place in range(script.servers)}
        self.come = [bytearray() for _ in script.all_clients()]
        self.gone = set()
        self.log = list(log_of(script, told))
        self.wrong = []

    def fault(self, text):
        self.wrong.append(text)

    def read_log(self):
        for _, (name, *words) in self.log:
            if name == "bytes":
                self.texts[words[0]] += words[1]
        self.requests = [requests_of(bytes(text)) for text in self.texts]
        for at, (name, *words) in self.log:
            if hasattr(self, "log_" + name):
                getattr(self, "log_" + name)(at, *words)

    def log_turn(self, at, client):
        number = self.counts[client][0]
        self.counts[client][0] += 1
        if number >= len(self.requests[client]) or client in self.gone:
            return self.fault(f"event {at[0]}: client {client} has no request {number}, or has gone")
        self.taken[client, number] = at
        proxy = self.script.proxy_of(client)
        for atom, (place, _) in enumerate(routed(self.requests[client][number], self.rings[proxy])):
            tag, lane = Tag(client, number, atom), self.lanes[proxy, place]
            self.owner[tag] = proxy, place
            lane.commands.append(tag)
            if lane.up:
                lane.sent[lane.generation].append(tag)
                lane.waiting.append(tag)
            else:
                self.unsent.add(tag)
                self.outcome[tag] = "lost"

    def log_emit(self, at, client):
        number = self.counts[client][1]
        self.counts[client][1] += 1
        self.put[client, number] = at
        if number >= self.counts[client][0] or client in self.gone:
            return self.fault(f"event {at[0]}: request {number} of client {client} is answered and was not taken, or it has gone")
        for tag in self.tags(client, number):
            if tag not in self.outcome:
                self.fault(f"event {at[0]}: {tag} is answered and has no outcome")

    def tags(self, client, number):
        request = self.requests[client][number]
        count = 0
        while Tag(client, number, count) in self.owner:
            yield Tag(client, number, count)
            count += 1
        assert count > 0 or not request.atoms

    def log_serve(self, at, name, generation, moment):
        if generation <= self.lanes[name].buried:
            self.fault(f"event {at[0]}: generation {generation} of {shown(name)} ended when that server restarted")
        self.turns[name[1]].append((at, name, generation, moment))

    def log_reply(self, at, name):
        lane = self.lanes[name]
        if not lane.up or not lane.waiting:
            return self.fault(f"event {at[0]}: no command waits on {shown(name)}")
        self.outcome[lane.waiting.pop(0)] = "reply"

    def log_lost(self, at, name):
        lane = self.lanes[name]
        if not lane.up:
            return self.fault(f"event {at[0]}: {shown(name)} is down")
        lane.up = False
        lane.losses.append(at)
        for tag in lane.waiting:
            self.outcome[tag] = "lost"
        lane.waiting = []

    def log_back(self, at, name):
        lane = self.lanes[name]
        if lane.up:
            return self.fault(f"event {at[0]}: {shown(name)} is up")
        lane.up = True
        lane.generation += 1
        lane.sent[lane.generation] = []

    def log_restart(self, at, place):
        for name, lane in self.lanes.items():
            if name[1] == place:
                if lane.up:
                    self.log_lost(at, name)
                lane.buried = lane.generation
        self.begun[place].append(len(self.turns[place]))

    def log_proxyrestart(self, at, proxy):
        self.gone.update(self.script.clients_of(proxy))
        for name, lane in self.lanes.items():
            if name[0] == proxy and lane.up:
                self.log_lost(at, name)

    def log_bytes(self, at, client, data):
        if client in self.gone:
            self.fault(f"event {at[0]}: client {client} has gone")
        self.come[client] += data

    def log_gone(self, at, client):
        self.gone.add(client)

    def log_drain(self, at, moment):
        """Nothing is left once a drain was done: all whole requests of each client that has not gone are answered."""
        for client, (taken, put) in enumerate(self.counts):
            if client not in self.gone and not taken == put == len(requests_of(bytes(self.come[client]))):
                self.fault(f"event {at[0]}: client {client} has requests that are not answered")
        for name, lane in self.lanes.items():
            if lane.waiting:
                self.fault(f"event {at[0]}: commands on {shown(name)} still wait")

    def log_join(self, at, proxy, address):
        place = self.rings[proxy].servers
        self.rings[proxy] = self.rings[proxy].joined(address)
        is_new = place == len(self.turns)
        self.lanes[proxy, place] = Lane(is_new)
        if is_new:
            self.turns.append([])
            self.begun.append([])

    # The output

    def check(self):
        self.read_log()
        if not self.wrong:
            self.check_shapes()
        if not self.wrong:
            self.check_histories()
        if not self.wrong:
            self.check_answers()
            self.check_losses()
            self.check_lanes()
        return self.wrong

    def check_shapes(self):
        told = self.told
        if len(told.histories) != len(self.turns) or len(told.outs) != len(self.texts):
            return self.fault("not as many clients or servers as there are")
        for client, text in enumerate(self.texts):
            if told.texts[client] != bytes(text):
                self.fault(f"the text of client {client} is not what came")
        for place, (history, turns) in enumerate(zip(told.histories, self.turns)):
            if [entry.moment for entry in history] != [moment for *_, moment in turns]:
                self.fault(f"history {place} has not the moments of its server's turns")

    def check_histories(self):
        self.entries = {}
        for place, history in enumerate(self.told.histories):
            served = collections.Counter()
            cache, connection = Server(0, self.script.budget, self.script.items), Connection()
            for number, (entry, (at, name, generation, _)) in enumerate(zip(history, self.turns[place])):
                if number in self.begun[place]:
                    cache = Server(0, self.script.budget, self.script.items)
                tag = Tag(*entry[:3])
                if self.owner.get(tag) != name or tag in self.unsent:
                    self.fault(f"history {place}: {tag} was not sent on {shown(name)}")
                    return
                if tag in self.entries:
                    self.fault(f"{tag} has two entries")
                self.entries[tag] = entry, at
                if self.taken[tag[:2]] >= at:
                    self.fault(f"{tag} was served before it was taken")
                sent = self.lanes[name].sent.get(generation, [])[served[name, generation] :]
                served[name, generation] += 1
                if sent[:1] != [tag]:
                    self.fault(f"history {place}: {tag} is not the next of generation {generation} of {shown(name)}")
                self.replay(cache, connection, entry, tag)
            self.check_order(place, history)

    def replay(self, cache, connection, entry, tag):
        line = self.line_of(tag)
        connection.unread, connection.output = line, b""
        cache.turn(connection, entry.moment)
        if connection.output != entry.reply or connection.unread:
            self.fault(f"{tag}, {line!r}: the cache answers {connection.output!r}, and not {entry.reply!r}")
        if entry.refused != (entry.reply == NO_MEMORY):
            self.fault(f"{tag}: whether it was refused is not what its reply says")

    def line_of(self, tag):
        atoms = self.requests[tag.client][tag.request].atoms
        return atoms[0].line if atoms[0].key is None else atoms[tag.atom].line

    def check_order(self, place, history):
        last = {}
        for entry in history:
            tag = Tag(*entry[:3])
            if self.outcome.get(tag) == "reply":
                if tag <= last.get(tag.client, tag._replace(request=-1)):
                    self.fault(f"history {place}: {tag} is after a later one of its client")
                last[tag.client] = tag

    def check_answers(self):
        for client, (taken, put) in enumerate(self.counts):
            wanted = b""
            for number in range(put):
                outcomes = [self.reply_of(tag) for tag in self.tags(client, number)]
                wanted += answered(self.requests[client][number], outcomes, self.script.losses)
            if self.told.outs[client] != wanted:
                self.fault(f"client {client} was sent {self.told.outs[client]!r}, and its answers are {wanted!r}")

    def reply_of(self, tag):
        """The reply of a command, or nothing if it is lost."""
        if self.outcome[tag] == "lost":
            return None
        if tag not in self.entries:
            self.fault(f"{tag} is answered and has no entry")
            return None
        entry, at = self.entries[tag]
        if at >= self.put[tag[:2]]:
            self.fault(f"{tag} was answered before it was served")
        return entry.reply

    def check_losses(self):
        """Each lost command: its proxy's link was down when it was taken, or was lost before it was answered."""
        for tag, outcome in self.outcome.items():
            if outcome != "lost" or tag[:2] not in self.put:
                continue
            if tag in self.unsent:
                if tag in self.entries:
                    self.fault(f"{tag} was never sent and has an entry")
            elif not any(self.taken[tag[:2]] < at < self.put[tag[:2]] for at in self.lanes[self.owner[tag]].losses):
                self.fault(f"{tag} is lost and its link was not")

    def check_lanes(self):
        """What a server took from a link that has always been up: the first of the commands to it, in the order in which they were taken."""
        for name, lane in self.lanes.items():
            entries = [tag for tag in self.told_of(name[1]) if self.script.proxy_of(tag.client) == name[0]]
            if lane.began_up and not lane.losses and entries != lane.commands[: len(entries)]:
                self.fault(f"{shown(name)} has always been up, and its server took other commands than the first")

    def told_of(self, place):
        """The commands that a server took, in all its lives."""
        return [Tag(*entry[:3]) for entry in self.told.histories[place]]


def shown(name):
    return f"link {name[0]}:{name[1]}"


def faults_of(script, told):
    """The faults in the output of a world that played a script."""
    return Account(script, told).check()
