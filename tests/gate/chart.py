#!/usr/bin/env python3
"""Draws what happens in a pool script: a message sequence chart, as an SVG picture.

Usage: chart.py SCRIPT PICTURE [--check] [--program PROGRAM]      (mc_sim, as it was built)

Clients are on the left, each left of its proxy, servers on the right; time goes down. The picture draws what the program reports of each line
(`--trace`): bytes that move are arrows, a step at one place is a dot with its words, a lost link is a red break. Bytes on a lost generation of
a link are dashed. Where there are several proxies, a server's steps name the link as a script does. A line that did nothing is grey. If losses
are missed, the proxies' columns say so. With --check nothing is written: the picture must be as it would be drawn, and the last line is
'N passed, M failed'. tests/lib/pool_model.py can take the place of the program.
"""
import argparse
import html
import pathlib
import re
import subprocess
import sys

sys.path.insert(0, str(pathlib.Path(__file__).resolve().parents[1] / "lib"))

from pool_script import CLIENT_EVENTS, LINK_EVENTS
from suite import built, counted

PROXIES = {"told": "", "missed": ", losses missed"}
COLUMN, LEFT, TOP, ROW, LETTER = 270, 130, 70, 34, 8
STYLE = """
text { font: 13px 'DejaVu Sans Mono', Menlo, monospace; fill: #1b1f24 }
.head { font-weight: bold; text-anchor: middle }
.life { stroke: #b6bcc4; stroke-width: 1 }
.moved { stroke: #0b5cad; stroke-width: 1.6; fill: none; marker-end: url(#point) }
.late { stroke: #b15c00; stroke-dasharray: 6 4; marker-end: url(#late) }
.done { fill: #0b5cad }
.broken { stroke: #c21f2f; stroke-width: 2.4; fill: none }
.said { text-anchor: middle }
.gone { fill: #c21f2f }
.nothing { fill: #9aa1a9 }
.ground { fill: #ffffff }
"""


def lines_of(script, program):
    """The script's head and its choice for lost commands, and for each following line whether it did something, and its words."""
    told = subprocess.run([program, "--trace"], input=script, capture_output=True)
    if told.returncode != 0:
        sys.exit(told.stderr.decode().strip() or f"chart.py: {program} failed")
    said = [line for line in script.decode("latin-1").split("\n") if line]
    losses = "missed" if "losses missed" in said else "told"
    found = re.findall(r"^line (\d+): (done|nothing): (.*)$", told.stderr.decode("latin-1"), re.M)
    return said[0].split(" "), losses, [(verdict == "done", words) for _, verdict, words in found]


def link_of(word):
    """The proxy and the server that a link's word names."""
    proxy, _, place = word.rpartition(":")
    return int(proxy or 0), int(place)


def short(text, length=33):
    return text if len(text) <= length else text[: length - 1] + "\u2026"


class Chart:
    def __init__(self, servers, clients, losses, proxies=1):
        self.clients, self.proxies = clients, proxies  # the clients of each proxy
        self.columns = []
        for proxy in range(proxies):
            self.columns += [f"client {number}" for number in range(proxy * clients, (proxy + 1) * clients)]
            self.columns.append(f"proxy{f' {proxy}' if proxies > 1 else ''}{PROXIES[losses]}")
        self.columns += [f"server {number}" for number in range(servers)]
        self.servers = [servers] * proxies  # how many each proxy has
        self.generations = {(proxy, place): 1 for proxy in range(proxies) for place in range(servers)}
        self.up = dict.fromkeys(self.generations, True)
        self.gone = set()
        self.parts = []
        self.y = TOP
        self.right = 0  # where the words end at most

    def x(self, column):
        return LEFT + column * COLUMN

    def client(self, number):
        return self.x(number + number // self.clients)

    def proxy(self, number=0):
        return self.x((number + 1) * (self.clients + 1) - 1)

    def proxy_of(self, client):
        return self.proxy(client // self.clients)

    def server(self, place):
        return self.x(self.proxies * (self.clients + 1) + place)

    def write(self, x, words, kind=""):
        self.right = max(self.right, x + LETTER * len(words))
        self.parts.append(f'<text x="{x}" y="{self.y - 7}" class="{kind}">{html.escape(words)}</text>')

    def arrow(self, start, end, words, late=False):
        kind = "moved late" if late else "moved"
        way = 1 if end > start else -1
        self.parts.append(f'<path class="{kind}" d="M {start} {self.y} L {end - way * 7} {self.y}"/>')
        self.write(start + way * COLUMN / 2, words, "said")

    def dot(self, x, words, kind="done"):
        self.parts.append(f'<circle class="{kind}" cx="{x}" cy="{self.y - 11}" r="4"/>')
        self.write(x + 10, words, "gone" if kind == "gone" else "")

    def broken(self, link, words):
        start, end, y = self.proxy(link[0]), self.server(link[1]), self.y - 4
        middle = start + COLUMN / 2
        self.parts.append(f'<path class="broken" d="M {start + 8} {y} L {middle - 14} {y} l 8 -9 l 8 18 l 8 -18 l 8 9 L {end - 8} {y}"/>')
        self.y += 24
        self.write(middle, words, "said gone")

    def add(self, done, words):
        self.y += ROW
        name, _, rest = words.partition(" ")
        words_of = rest.split(" ", 1 if name == "bytes" else -1)
        if name in LINK_EVENTS:
            words_of[0] = link_of(words_of[0])
        if done:
            getattr(self, f"on_{name}")(*words_of)
            return
        x = self.proxy_of(int(words_of[0])) if name in CLIENT_EVENTS else self.proxy(words_of[0][0] if name in LINK_EVENTS else 0)
        self.write(x + 10, short(f"nothing: {words}"), "nothing")

    def on_bytes(self, client, text):
        self.arrow(self.client(int(client)), self.proxy_of(int(client)), short(text))

    def on_gone(self, client):
        self.gone.add(int(client))
        self.dot(self.client(int(client)), "goes", "gone")

    def on_turn(self, client):
        self.dot(self.proxy_of(int(client)), f"takes a request of client {client}")

    def on_emit(self, client):
        self.dot(self.proxy_of(int(client)), f"answers client {client}")

    def on_takes(self, client, count):
        self.arrow(self.proxy_of(int(client)), self.client(int(client)), f"{count} bytes")

    def is_late(self, link, generation):
        return not self.up[link] or self.generations[link] != generation

    def on_toserver(self, link, generation, count):
        late = self.is_late(link, int(generation))
        self.arrow(self.proxy(link[0]), self.server(link[1]), f"{'late: ' if late else ''}{count} bytes of generation {generation}", late)

    def on_serve(self, link, generation, moment):
        late = f", generation {generation}" if self.is_late(link, int(generation)) else ""
        self.dot(self.server(link[1]), f"serves{self.of_several(f' {link[0]}:{link[1]}')}, at {moment}{late}")

    def on_toproxy(self, link, count):
        self.arrow(self.server(link[1]), self.proxy(link[0]), f"{count} bytes")

    def on_reply(self, link):
        self.dot(self.proxy(link[0]), f"takes a reply of server {link[1]}")

    def on_lost(self, link):
        self.up[link] = False
        self.broken(link, "the link is lost")

    def on_back(self, link):
        self.up[link] = True
        self.generations[link] += 1
        self.arrow(self.proxy(link[0]), self.server(link[1]), f"the link is back, generation {self.generations[link]}")

    def on_end(self, link, generation):
        self.dot(self.server(link[1]), f"sees the end of {self.of_several(f'{link[0]}:{link[1]}, ')}generation {generation}", "gone")

    def on_restart(self, place):
        self.lose(link for link in self.up if link[1] == int(place))
        self.dot(self.server(int(place)), "dies, and begins anew, empty", "gone")

    def on_proxyrestart(self, proxy):
        for client in range(int(proxy) * self.clients, (int(proxy) + 1) * self.clients):
            if client not in self.gone:
                self.on_gone(client)
        self.dot(self.proxy(int(proxy)), "dies, and begins anew", "gone")
        there = [link for link in self.up if link[0] == int(proxy) and self.up[link]]
        self.y += ROW if there else 0
        self.lose(there)

    def lose(self, links):
        """The links that are up are lost, one below the other."""
        for number, link in enumerate(link for link in sorted(links) if self.up[link]):
            self.y += ROW if number else 0
            self.on_lost(link)

    def on_join(self, *words):
        proxy = int(words[0]) if len(words) > 1 else 0
        place = self.servers[proxy]
        self.servers[proxy] += 1
        is_new = (self.server(place) - LEFT) // COLUMN == len(self.columns)
        self.generations[proxy, place], self.up[proxy, place] = int(is_new), is_new
        if is_new:
            self.columns.append(f"server {place}")
            self.dot(self.server(place), f"joins{self.of_several(f' at proxy {proxy}')}: {words[-1]}")
        else:
            self.dot(self.proxy(proxy), f"learns of server {place}")

    def of_several(self, words):
        """These words, if there are several proxies."""
        return words if self.proxies > 1 else ""

    def on_drain(self, moment):
        for proxy in range(self.proxies):
            self.dot(self.proxy(proxy), f"all that is left is done, at {moment}")

    def picture(self):
        width, height = int(max(self.x(len(self.columns) - 1) + 250, self.right + 10)), self.y + 30
        out = [f'<svg xmlns="http://www.w3.org/2000/svg" width="{width}" height="{height}" viewBox="0 0 {width} {height}">', f"<style>{STYLE}</style>"]
        for name, color in (("point", "#0b5cad"), ("late", "#b15c00")):
            out.append(f'<marker id="{name}" viewBox="0 0 10 10" refX="8" refY="5" markerWidth="7" markerHeight="7" orient="auto">'
                       f'<path d="M 0 0 L 10 5 L 0 10 z" fill="{color}"/></marker>')
        out.append(f'<rect class="ground" width="{width}" height="{height}"/>')
        for number, name in enumerate(self.columns):
            x = self.x(number)
            out.append(f'<line class="life" x1="{x}" y1="{TOP - 22}" x2="{x}" y2="{height - 12}"/><text class="head" x="{x}" y="{TOP - 32}">{name}</text>')
        return "\n".join([*out, *self.parts, "</svg>", ""])


def main():
    options = argparse.ArgumentParser(description=__doc__, formatter_class=argparse.RawDescriptionHelpFormatter)
    options.add_argument("script", type=pathlib.Path)
    options.add_argument("picture", type=pathlib.Path)
    options.add_argument("--check", action="store_true")
    options.add_argument("--program", default=str(built("mc_sim")))
    given = options.parse_args()
    head, losses, lines = lines_of(given.script.read_bytes(), given.program)
    if head[0] != "pool":
        sys.exit("chart.py: only a pool script has a chart")
    chart = Chart(int(head[1]), int(head[2]), losses, int(head[5]) if len(head) > 5 else 1)
    for done, words in lines:
        chart.add(done, words)
    if not given.check:
        given.picture.write_text(chart.picture())
        return
    same = given.picture.read_text() == chart.picture()
    if not same:
        print(f"{given.picture} is not the picture of {given.script}")
    sys.exit(counted([same]))


main()
