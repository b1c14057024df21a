#!/usr/bin/env python3
"""Checks that the account notices mistakes: pools that make one mistake each, over random worlds.

Usage: pool_mistakes.py [WORLDS [SEED]]      (400 worlds from seed 1 on)

Each pool below is the plain model with one thing done wrong. It plays the scripts of random worlds (random_world.py), and its output is
checked by the account alone (pool_account.py), without the model beside it: by the events that were done, the texts, the answers and the
histories. A mistake passes if the account finds fault with some world: its line names the first one by its seed. The model itself must be
found right in every world. The last line is 'N passed, M failed'.
"""

import pathlib
import sys

sys.path.insert(0, str(pathlib.Path(__file__).resolve().parents[1] / "lib"))

from pool_account import faults_of
from pool_model import Awaited, Link, Pool, Tag
from pool_requests import LINK_LOST
from pool_script import ALL, Script
from random_world import lines_of_world
from suite import counted


class Forgiving(Pool):
    """Accepts outcomes of commands whose request is answered already, and knows how each command is spelled."""

    def __init__(self, script):
        super().__init__(script)
        self.spelled = {}
        self.outcomes = {}

    def turn(self, number):
        request, taken = self.next_request(number), self.clients[number].taken
        for at, (_, line) in enumerate(self.routed(number, request) if request else []):
            self.spelled[Tag(number, taken, at)] = line
        done = super().turn(number)
        if done:
            self.outcomes[number, taken] = self.clients[number].unanswered[-1][1]
        return done

    def becomes(self, tag, outcome):
        self.outcomes[tag[:2]][tag.atom] = outcome


class SentAgain(Forgiving):
    """Commands that were lost are sent again once the link is back."""

    def back(self, name):
        link = self.links[name]
        waited = getattr(link, "waited", [])
        done = super().back(name)
        if done and waited:
            for tag, line in waited:
                link.living().going += line
                link.living().tags.append(tag)
            link.waited = []
        return done

    def lost(self, name):
        link = self.links[name]
        waiting = link.waiting()
        done = super().lost(name)
        if done:
            link.waited = [(tag, self.spelled[tag]) for tag in waiting]
        return done


class KeptAndSent(SentAgain):
    """A command whose link is down is reported lost, and sent once the link is back."""

    lost = Pool.lost

    def turn(self, number):
        client = self.clients[number]
        request = self.next_request(number)
        for at, (name, line) in enumerate(self.routed(number, request) if request else []):
            link = self.links[name]
            if not link.up:
                link.waited = getattr(link, "waited", []) + [(Tag(number, client.taken, at), line)]
        return super().turn(number)


class WaitingKept(SentAgain):
    """Pending commands are still pending after a loss, so that a reply meets another command."""

    def lost(self, name):
        link = self.links[name]
        if not link.up:
            return False
        link.kept = link.waiting()
        link.up, link.come, link.replied = False, 0, 0
        self.sites[name[1]].lost.append((name, link.generation))
        return True

    def back(self, name):
        link = self.links[name]
        done = Pool.back(self, name)
        if done:
            link.living().behind = getattr(link, "kept", [])
        return done

    def reply(self, name):
        link = self.links[name]
        behind = getattr(link.living(), "behind", []) if link.up else []
        replies = link.living().replies[link.replied :] if link.up else []
        if not replies or link.come < len(replies[0]):
            return False
        tags = behind + link.living().tags
        self.becomes(tags[link.replied], replies[0])
        link.come -= len(replies[0])
        link.replied += 1
        return True


class OutOfOrder(Forgiving):
    """A request is answered as soon as it can be, before older ones of its client."""

    def emit(self, number):
        client = self.clients[number]
        ready = [at for at, (_, outcomes) in enumerate(client.unanswered) if Awaited not in outcomes]
        if client.gone or not ready:
            return False
        client.put += self.answer(*client.unanswered.pop(ready[-1]))
        return True


class Padded(Pool):
    """A history has a command that nobody sent."""

    def told(self, done):
        told = super().told(done)
        for history in told.histories:
            if len(history) > 1:
                history.insert(1, history[0]._replace(request=history[0].request + 1000))
        return told


class Doubled(Pool):
    """A history has its last command twice."""

    def told(self, done):
        told = super().told(done)
        for history in told.histories:
            history += history[-1:]
        return told


class LateUnwritten(Pool):
    """Late bytes of a lost generation are taken, and no entry is kept."""

    def serve(self, name, generation, moment):
        history = self.sites[name[1]].history
        count = len(history)
        done = super().serve(name, generation, moment)
        if done and not self.links[name].lives(generation):
            del history[count:]
        return done


class LateIgnored(Pool):
    """Late bytes are taken and do nothing, though they have an entry."""

    def serve(self, name, generation, moment):
        if self.links[name].lives(generation):
            return super().serve(name, generation, moment)
        cache = self.sites[name[1]].cache
        before = cache.items, cache.counter, cache.pending
        cache.items = [item for item in cache.items]
        done = super().serve(name, generation, moment)
        cache.items, cache.counter, cache.pending = before
        return done


class RoutedByTheLast(Pool):
    """A request is routed by the ring that the script ends with."""

    def __init__(self, script):
        super().__init__(script)
        self.last = Pool(script)
        for event in script.events:
            if event[0] == "join":
                self.last.step(event)

    def routed(self, number, request):
        proxy = self.script.proxy_of(number)
        there = self.rings[proxy].servers
        for (_, place), line in self.last.routed(number, request):
            if place < there or request.atoms[0].key is not None:
                yield (proxy, place % there), line


class NeighbourOwns(Pool):
    """A key belongs to the server behind its owner."""

    def routed(self, number, request):
        for (proxy, place), line in super().routed(number, request):
            yield (proxy, place if request.atoms[0].key is None else (place + 1) % self.rings[proxy].servers), line


class StoredWhenDown(Pool):
    """A store whose link is down is answered as if it had been stored."""

    def turn(self, number):
        done = super().turn(number)
        if done:
            request, outcomes = self.clients[number].unanswered[-1]
            if request.atoms and request.atoms[0].line.startswith(b"set "):
                outcomes[:] = [b"STORED\r\n" if outcome is None else outcome for outcome in outcomes]
        return done


class AlwaysLost(Pool):
    """Every command is reported lost."""

    def becomes(self, tag, outcome):
        super().becomes(tag, None)


class LosesTheTaken(Forgiving):
    """A loss makes commands lost that were already replied."""

    def lost(self, name):
        link = self.links[name]
        replied = link.living().tags[: link.replied] if link.up else []
        done = super().lost(name)
        for tag in replied if done else []:
            self.becomes(tag, None)
        return done


class RisingMoments(Pool):
    """A server never goes back in time."""

    def serve(self, name, generation, moment):
        site = self.sites[name[1]]
        site.latest = max(getattr(site, "latest", 0), moment)
        return super().serve(name, generation, site.latest)


class OtherBytes(Pool):
    """A client is sent other bytes than its answers."""

    def emit(self, number):
        client = self.clients[number]
        size = len(client.put)
        done = super().emit(number)
        client.put[size:] = client.put[size:].replace(b"END\r\n", b"END\n", 1)
        return done


class Unfinished(Pool):
    """The last bytes that a client was sent are missing."""

    def told(self, done):
        told = super().told(done)
        return told._replace(outs=[out[:-1] for out in told.outs])


class OtherText(Pool):
    """A client's text has lost the bytes after its `quit`, or its last byte."""

    def told(self, done):
        told = super().told(done)
        return told._replace(texts=[text[:-1] for text in told.texts])


class SilentFaults(Pool):
    """`noreply` hides the line of a fault too."""

    def emit(self, number):
        client = self.clients[number]
        size, oldest = len(client.put), client.unanswered[:1]
        done = super().emit(number)
        if done and not oldest[0][0].atoms and client.put[size:].startswith(b"CLIENT_ERROR"):
            del client.put[size:]
        return done


class LostOften(Pool):
    """A get whose keys are partly lost reports it for each of them."""

    def emit(self, number):
        client = self.clients[number]
        oldest = client.unanswered[:1]
        done = super().emit(number)
        if done:
            client.put += LINK_LOST * max(0, oldest[0][1].count(None) - 1)
        return done


class LostStored(Pool):
    """A store that was lost is answered as if it had been stored."""

    def answer(self, request, outcomes):
        answer = super().answer(request, outcomes)
        stores = any(b"\r\n" in atom.line[:-2] for atom in request.atoms)
        return b"STORED\r\n" if stores and answer == LINK_LOST else answer


class MissTold(Pool):
    """If losses are missed, a retrieval with a lost command reports it."""

    def answer(self, request, outcomes):
        return LINK_LOST if request.miss and None in outcomes else super().answer(request, outcomes)


class MissedWhole(Pool):
    """If losses are missed, a retrieval with a lost command shows no other key's item."""

    def answer(self, request, outcomes):
        if request.miss and None in outcomes:
            outcomes = [None] * len(outcomes)
        return super().answer(request, outcomes)


class HiddenTold(Pool):
    """If losses are missed, a request that hides its reply reports a loss."""

    def answer(self, request, outcomes):
        told = request.quiet and not request.miss and None in outcomes
        return LINK_LOST if told else super().answer(request, outcomes)


class HidesAll(Pool):
    """If losses are missed, each request hides its loss."""

    def answer(self, request, outcomes):
        answer = super().answer(request, outcomes)
        return b"" if self.losses == "missed" and answer == LINK_LOST else answer


class FirstShown(Pool):
    """If losses are missed, a key of a lost command shows the first key's reply."""

    def answer(self, request, outcomes):
        if self.losses == "missed" and request.miss and outcomes[0] is not None:
            outcomes = [outcomes[0] if outcome is None else outcome for outcome in outcomes]
        return super().answer(request, outcomes)


class SaysQuietMisses(Pool):
    """If losses are missed, `mg` with `q` answers `EN`."""

    def answer(self, request, outcomes):
        says = self.losses == "missed" and request.miss == b"EN\r\n" and None in outcomes
        return b"EN\r\n" if says else super().answer(request, outcomes)


class OtherLosses(Pool):
    """Losses are missed when they should be reported, and reported when they should be missed."""

    def __init__(self, script):
        super().__init__(script)
        self.losses = "told" if script.losses == "missed" else "missed"


class ToldRefused(Pool):
    """A store is reported as refused memory that was not."""

    def told(self, done):
        told = super().told(done)
        for history in told.histories:
            history[:] = [entry._replace(refused=int(entry.reply == b"STORED\r\n")) for entry in history]
        return told


class LaterFirst(Pool):
    """A server takes the commands that arrived last first."""

    def told(self, done):
        told = super().told(done)
        for history in told.histories:
            if len(history) > 1 and self.exchanges(history[-2], history[-1]):
                history[-2:] = [
                    history[-1]._replace(moment=history[-2].moment), history[-2]._replace(moment=history[-1].moment)
                ]  # fmt: skip
        return told

    def exchanges(self, first, second):
        return first.client == second.client


class OthersFirst(LaterFirst):
    """A server takes two clients' commands in reverse order, if none of the replies shows it."""

    def exchanges(self, first, second):
        return first.client != second.client and first.moment == second.moment and first.reply == second.reply == b"OK\r\n"


class AnsweredUnserved(Forgiving):
    """A store is answered when it is taken, and served when the server's turn comes."""

    def turn(self, number):
        done = super().turn(number)
        if done:
            request, outcomes = self.clients[number].unanswered[-1]
            if request.atoms and request.atoms[0].line.startswith(b"set "):
                outcomes[:] = [b"STORED\r\n" if outcome is Awaited else outcome for outcome in outcomes]
        return done


class LostInvents(Forgiving):
    """A lost command is still answered by a miss."""

    def lost(self, name):
        waiting = self.links[name].waiting()
        done = super().lost(name)
        for tag in waiting if done else []:
            if self.spelled[tag].startswith(b"get "):
                self.becomes(tag, b"END\r\n")
        return done


class ForgetsTheFlush(Pool):
    """A flush goes to the first server alone."""

    def routed(self, number, request):
        return [(name, line) for name, line in super().routed(number, request) if name[1] == 0 or not line.startswith(b"flush_all")]


class LeavesTheLast(Pool):
    """A drain leaves its last client out."""

    def does(self, done, *event):
        if event[0] in ("turn", "emit", "takes") and event[1] == len(self.clients) - 1:
            return False
        return super().does(done, *event)


class DrainsAtZero(Pool):
    """In a drain servers take their requests at moment 0."""

    def drain(self, moment):
        super().drain(0)
        self.drains[-1] = [(*event[:3], moment) if event[0] == "serve" else event for event in self.drains[-1]]
        return True


class KeepsTheLate(Pool):
    """A drain serves late bytes of lost generations, before it sees their end."""

    def drain(self, moment):
        for site in self.sites:
            for name, generation in site.lost:
                self.step(("toserver", name, generation, ALL))
                while self.step(("serve", name, generation, moment)):
                    pass
        return super().drain(moment)


class KeepsTheCache(Pool):
    """A server that restarts still has its items."""

    def restart(self, place):
        cache = self.sites[place].cache
        done = super().restart(place)
        self.sites[place].cache = cache
        return done


class KeepsTheNumbers(Pool):
    """A server that restarts continues the numbers of its items."""

    def restart(self, place):
        number = self.sites[place].cache.counter
        done = super().restart(place)
        self.sites[place].cache.counter = number
        return done


class KeepsTheWays(Pool):
    """A server that restarts still serves its lost generations."""

    def restart(self, place):
        names = [name for name in self.links if name[1] == place]
        ways = {name: self.links[name].ways for name in names}
        done = super().restart(place)
        for name in names:
            self.links[name].ways = ways[name]
            self.sites[place].lost += [(name, generation) for generation in ways[name]]
        return done


class ForgetsItsHistory(Pool):
    """The history of a server that restarts begins anew."""

    def restart(self, place):
        self.sites[place].history.clear()
        return super().restart(place)


class GoneIsServed(Pool):
    """A client that went still has its requests taken."""

    def turn(self, number):
        client = self.clients[number]
        gone, client.gone = client.gone, False
        done = super().turn(number)
        client.gone = gone
        return done


# Mistakes between proxies


class TakenByAnother(Forgiving):
    """A reply is taken by another proxy, if a command of that waits at the same server."""

    def becomes(self, tag, outcome):
        if outcome is not None:
            place = next(name[1] for name, link in self.links.items() if link.waiting()[:1] == [tag])
            others = [link.waiting()[0] for name, link in self.links.items() if name[1] == place and link.waiting()]
            tag = others[(others.index(tag) + 1) % len(others)]
        super().becomes(tag, outcome)


class CountedTogether(Pool):
    """A server counts the generations of all proxies' links together."""

    def back(self, name):
        done = super().back(name)
        if done:
            link, site = self.links[name], self.sites[name[1]]
            way = link.ways.pop(link.generation)
            link.generation = site.counted = max(link.generation, getattr(site, "counted", 1) + 1)
            link.ways[link.generation] = way
        return done


class LateOfAnother(Pool):
    """A late byte of one proxy's lost link is taken for another's: lost generations of a server are found by their number alone."""

    def toserver(self, name, generation, count):
        return super().toserver(self.found(name, generation), generation, count)

    def serve(self, name, generation, moment):
        return super().serve(self.found(name, generation), generation, moment)

    def found(self, name, generation):
        lost = [other for other, number in self.sites[name[1]].lost if number == generation]
        return name if self.links[name].lives(generation) else (lost or [name])[0]


class RoutedByTheFirst(Pool):
    """Each proxy routes by the ring of proxy 0."""

    def routed(self, number, request):
        proxy = self.script.proxy_of(number)
        for (_, place), line in super().routed(0, request):
            yield (proxy, place % self.rings[proxy].servers), line


class FlushesUnlearned(Pool):
    """A flush goes to servers that its proxy has not learned."""

    def routed(self, number, request):
        proxy = self.script.proxy_of(number)
        routed = super().routed(number, request)
        if request.atoms and request.atoms[0].key is None:
            for place in range(len(routed), len(self.sites)):
                self.links.setdefault((proxy, place), Link())
                routed.append(((proxy, place), request.atoms[0].line))
        return routed


class LearnedUp(Pool):
    """The link to a server that a proxy learns is up at once."""

    def join(self, proxy, address):
        place = self.rings[proxy].servers
        super().join(proxy, address)
        self.links[proxy, place] = Link()
        return True


class AlwaysNew(Pool):
    """A server that joins at a proxy is a new one, with an empty cache, though another proxy has it."""

    def join(self, proxy, address):
        place = self.rings[proxy].servers
        super().join(proxy, address)
        self.sites[place].cache = self.new_cache()
        return True


class RestartOfTheFirst(Pool):
    """A server that restarts loses the link of proxy 0, and keeps those of others."""

    def restart(self, place):
        kept = {name: link for name, link in self.links.items() if name[0] and name[1] == place and link.up}
        for link in kept.values():
            link.up = False
        ways = {name: link.ways for name, link in kept.items()}
        super().restart(place)
        for name, link in kept.items():
            link.up, link.ways = True, {link.generation: ways[name][link.generation]}
        return True


class LostForAll(Pool):
    """A proxy that loses its link to a server takes the commands of all proxies there for lost."""

    def lost(self, name):
        done = super().lost(name)
        for other, link in self.links.items() if done else ():
            if other[1] == name[1] and link.up:
                for tag in link.waiting():
                    self.becomes(tag, None)
        return done

    def becomes(self, tag, outcome):
        client = self.clients[tag.client]
        if tag.request - client.taken + len(client.unanswered) >= 0:
            super().becomes(tag, outcome)


class ProxyKeepsClients(Pool):
    """A proxy that restarts has its clients still."""

    def proxyrestart(self, proxy):
        there = [client for client in self.clients if not client.gone]
        super().proxyrestart(proxy)
        for client in there:
            client.gone = False
        return True


class ProxyKeepsLinks(Pool):
    """A proxy that restarts has its links still."""

    def proxyrestart(self, proxy):
        for number in self.script.clients_of(proxy):
            self.gone(number)
        return True


class ProxyTakesAll(Pool):
    """All proxies go with one that restarts."""

    def proxyrestart(self, proxy):
        for each in range(len(self.rings)):
            super().proxyrestart(each)
        return True


class NumberedByTheProxy(Pool):
    """Each proxy counts its clients from 0."""

    def told(self, done):
        told = super().told(done)
        for history in told.histories:
            history[:] = [entry._replace(client=entry.client % self.script.clients) for entry in history]
        return told


class DrainsTheFirst(Pool):
    """A drain leaves out the links of proxies other than 0."""

    def does(self, done, *event):
        is_of_another = event[0] in ("toserver", "serve", "toproxy", "reply") and event[1][0] != 0
        return not is_of_another and super().does(done, *event)


MISTAKES = [
    SentAgain, KeptAndSent, WaitingKept, OutOfOrder, Padded, Doubled, LateUnwritten, LateIgnored, RoutedByTheLast, NeighbourOwns,
    StoredWhenDown, AlwaysLost, LosesTheTaken, RisingMoments, OtherBytes, Unfinished, OtherText, SilentFaults, LostOften, LostStored,
    MissTold, MissedWhole, HiddenTold, HidesAll, FirstShown, SaysQuietMisses, OtherLosses, ToldRefused,
    LaterFirst, OthersFirst, AnsweredUnserved, LostInvents, ForgetsTheFlush, LeavesTheLast, DrainsAtZero, KeepsTheLate,
    KeepsTheCache, KeepsTheNumbers, KeepsTheWays, ForgetsItsHistory, GoneIsServed,
    TakenByAnother, CountedTogether, LateOfAnother, RoutedByTheFirst, FlushesUnlearned, LearnedUp, AlwaysNew, RestartOfTheFirst, LostForAll,
    ProxyKeepsClients, ProxyKeepsLinks, ProxyTakesAll, NumberedByTheProxy, DrainsTheFirst,
]  # fmt: skip


def told_of(kind, script):
    pool = kind(script)
    return pool.told([pool.step(event) for event in script.events])


def main(worlds=400, first=1):
    scripts = {seed: Script(lines_of_world(seed)) for seed in range(first, first + worlds)}
    wrong = [seed for seed, script in scripts.items() if faults_of(script, told_of(Pool, script))]
    print(f"The model itself: wrong in {len(wrong)} of {worlds} worlds.")
    passed = [not wrong]
    for kind in MISTAKES:
        noticed = next((seed for seed, script in scripts.items() if faults_of(script, told_of(kind, script))), None)
        print(f"{kind.__doc__} {'Not noticed.' if noticed is None else f'Seed {noticed}.'}")
        passed.append(noticed is not None)
    return counted(passed)


if __name__ == "__main__":
    sys.exit(main(*(int(word) for word in sys.argv[1:3])))
