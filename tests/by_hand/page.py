#!/usr/bin/env python3
"""Opens the page of --admin, of a server and of a proxy in front of two, in a browser without a screen, under a load.

Usage: page.py SERVER PROXY [--picture FILE]      (SERVER is the built mc_serverd, PROXY mc_proxyd; Debian: chromium)

The browser is asked what the page shows, what its console reports, and what it refuses. A server is killed, and then the proxy.
--picture writes a picture of both pages, side by side. The last line is 'N passed, M failed'.
"""

import argparse
import base64
import contextlib
import fcntl
import json
import os
import pathlib
import shutil
import subprocess
import sys
import tempfile
import threading
import time

sys.path.insert(0, str(pathlib.Path(__file__).resolve().parents[1] / "lib"))

from checks import Wrong, tally, want
from servers import HOST, Proxy, Server, free_port
from suite import are_built

SECONDS = 15  # in which something must appear
WIDTH, HEIGHT = 720, 530  # of a page in the picture
SHOWN = """[...document.querySelectorAll("#own tr")].map(row => [...row.cells].map(cell => cell.textContent))"""
SERVERS = """[...document.querySelectorAll("#servers tbody tr")].map(row => [...row.cells].map(cell => cell.textContent))"""
STATE = "document.getElementById('state').textContent"
COLOURS = "getComputedStyle(document.body).color"
FORGED = """new Promise(done => {
  const script = document.createElement("script");
  script.textContent = "window.forged = true";
  document.body.append(script);
  fetch("http://127.0.0.2:9/").then(() => done("fetched"), () => done(String(window.forged)));
})"""


class Browser:
    """Chromium, controlled over two pipes: messages of JSON, each ended by a zero byte."""

    def __init__(self, stack):
        profile = stack.enter_context(tempfile.TemporaryDirectory())
        (its_input, self.output), (self.input, its_output) = os.pipe(), os.pipe()
        # It reads from 3 and writes to 4, which its ends of the pipes may not be by chance.
        ends = [fcntl.fcntl(each, fcntl.F_DUPFD, 10) for each in (its_input, its_output)]
        words = ["--headless=new", "--no-sandbox", "--disable-gpu", "--remote-debugging-pipe", f"--user-data-dir={profile}"]
        arranged = 'exec 3<&{} 4>&{}; exec chromium "$@"'.format(*ends)
        self.process = subprocess.Popen(["bash", "-c", arranged, "bash", *words], pass_fds=ends, stderr=subprocess.DEVNULL)
        for each in (its_input, its_output, *ends):
            os.close(each)
        stack.callback(self.process.wait)
        stack.callback(self.process.terminate)
        self.kept, self.count, self.said = b"", 0, []

    def asked(self, method, session=None, **parameters):
        """The result of a call; messages without a request are kept."""
        self.count += 1
        message = {"id": self.count, "method": method, "params": parameters, **({"sessionId": session} if session else {})}
        os.write(self.output, json.dumps(message).encode() + b"\0")
        while True:
            answer = self.received()
            if answer.get("id") == self.count:
                if "error" in answer:
                    raise Wrong(f"{method}: {answer['error']}")
                return answer["result"]
            self.said.append(answer)

    def received(self):
        while b"\0" not in self.kept:
            piece = os.read(self.input, 1 << 16)
            if not piece:
                raise Wrong("the browser has ended")
            self.kept += piece
        message, _, self.kept = self.kept.partition(b"\0")
        return json.loads(message)

    def opened(self, address):
        target = self.asked("Target.createTarget", url="about:blank")["targetId"]
        session = self.asked("Target.attachToTarget", targetId=target, flatten=True)["sessionId"]
        page = Page(self, session)
        for part in ("Runtime", "Log", "Page"):
            page.asked(f"{part}.enable")
        page.asked("Emulation.setDeviceMetricsOverride", width=WIDTH, height=HEIGHT, deviceScaleFactor=1, mobile=False)
        page.asked("Page.navigate", url=address)
        return page


class Page:
    def __init__(self, browser, session):
        self.browser, self.session = browser, session

    def asked(self, method, **parameters):
        return self.browser.asked(method, self.session, **parameters)

    def value(self, expression):
        result = self.asked("Runtime.evaluate", expression=expression, returnByValue=True, awaitPromise=True)
        return result["result"].get("value")

    def until(self, expression, test):
        """The first value of an expression that passes a test."""
        deadline = time.monotonic() + SECONDS
        while True:
            value = self.value(expression)
            if value and test(value):
                return value
            if time.monotonic() > deadline:
                raise Wrong(f"{expression} is {value!r}")
            time.sleep(0.2)

    def complaints(self):
        """The entries of the console for this page: errors, and refusals."""
        mine = [each for each in self.browser.said if each.get("sessionId") == self.session]
        return [str(each["params"]) for each in mine if each["method"] in ("Log.entryAdded", "Runtime.exceptionThrown")]

    def picture(self, scheme="light"):
        """A picture of the page, as text in base64."""
        self.asked("Emulation.setEmulatedMedia", features=[{"name": "prefers-color-scheme", "value": scheme}])
        return self.asked("Page.captureScreenshot", format="png")["data"]


def side_by_side(browser, pictures, path):
    """Writes pictures as one, which the browser draws."""
    page = browser.opened("about:blank")
    page.asked("Emulation.setDeviceMetricsOverride", width=WIDTH * len(pictures), height=HEIGHT, deviceScaleFactor=1, mobile=False)
    frame = page.asked("Page.getFrameTree")["frameTree"]["frame"]["id"]
    drawn = "".join(f'<img src="data:image/png;base64,{each}">' for each in pictures)
    page.asked("Page.setDocumentContent", frameId=frame, html=f'<body style="margin:0;display:flex">{drawn}')
    page.until("[...document.images].every(image => image.complete)", bool)
    pathlib.Path(path).write_bytes(base64.b64decode(page.picture()))


class Pool:
    """Two servers and a proxy, each with a listener for operators, under a load."""

    def __init__(self, stack, server, proxy):
        self.admins = [f"{HOST}:{free_port()}" for _ in range(3)]
        self.servers = [stack.enter_context(Server(server, words=["--admin", each])) for each in self.admins[:2]]
        addresses = [each.address for each in self.servers]
        words = ["--admin", self.admins[2]]
        self.proxy = stack.enter_context(Proxy(proxy, addresses, words, stderr=subprocess.DEVNULL))
        self.ended = threading.Event()
        stack.callback(self.ended.set)
        threading.Thread(target=self.load, daemon=True).start()

    def load(self):
        at = 0
        with contextlib.suppress(OSError), self.proxy.connected() as client, client.makefile("rb") as answers:
            while not self.ended.is_set():
                at += 1
                client.sendall(b"set key%d 0 0 100\r\n%s\r\nget key%d none\r\n" % (at % 1000, b"x" * 100, at % 1000))
                answers.readline()
                while answers.readline().startswith((b"VALUE", b"x")):
                    pass
                time.sleep(0.0005)


def rows(page):
    return {row[0]: row[1:] for row in page.value(SHOWN)}


def a_server_is_shown(page):
    page.until(SHOWN, lambda shown: dict(row[:2] for row in shown).get("Hits/s", "0") != "0")
    shown = rows(page)
    want((shown["Clients"], shown["Clients refused"][0]), (["1", "of 1,024"], "0"))
    want((shown["Items"][1], shown["Items cost"][1]), ("of 65,536", "of 67.1 MB"))
    want((shown["Memory"][0].endswith(" MB"), shown["Hit rate"][0].endswith(" %")), (True, True))
    want(page.value("document.getElementById('servers').hidden"), True)
    want(page.complaints(), [])


def a_proxy_is_shown(page, pool):
    page.until(SERVERS, lambda shown: len(shown) == 2 and all(row[2] != "0" for row in shown))
    shown = page.value(SERVERS)
    want(([row[0] for row in shown], [row[1] for row in shown]), ([each.address for each in pool.servers], ["up", "up"]))
    want(99 < sum(float(row[3].removesuffix(" %")) for row in shown) < 101, True)
    want("Items" in rows(page), False)
    want(page.complaints(), [])


def it_is_light_or_dark(page):
    colours = []
    for scheme in ("light", "dark"):
        page.asked("Emulation.setEmulatedMedia", features=[{"name": "prefers-color-scheme", "value": scheme}])
        colours.append(page.value(COLOURS))
    want(len(set(colours)), 2)


def nothing_else_runs(page):
    """A script that was put into the page, and a request to another host: the policy refuses both, and the console reports it."""
    want(page.value(FORGED), "undefined")
    want(any("Content Security Policy" in each for each in page.complaints()), True)


def a_lost_server_is_shown(page, pool):
    pool.servers[1].stop()
    page.until(SERVERS, lambda shown: [row[1] for row in shown] == ["up", "down"])
    want((page.value("document.title").startswith("1 down: "), page.value(SERVERS)[1][5]), (True, "1"))


def its_end_is_shown(page, pool, proxy, stack):
    """The page says that the program has ended, keeps the old numbers, and continues with the next one at its address."""
    port, admin = pool.proxy.port, pool.admins[2]
    pool.proxy.stop()
    page.until(STATE, lambda state: state.startswith("No answer for "))
    want((len(page.value(SERVERS)), page.value("document.getElementById('all').className")), (2, "old"))
    again = Proxy(proxy, [each.address for each in pool.servers], ["--admin", admin], port=port, stderr=subprocess.DEVNULL)
    stack.enter_context(again)
    page.until(STATE, lambda state: state.startswith("Up for "))
    want(page.value("document.getElementById('all').className"), "")


def checks(stack, asked):
    pool = Pool(stack, asked.server, asked.proxy)
    browser = Browser(stack)
    server, proxy = (browser.opened(f"http://{admin}/") for admin in (pool.admins[0], pool.admins[2]))
    yield "a_server_is_shown", a_server_is_shown, (server,)
    yield "a_proxy_is_shown", a_proxy_is_shown, (proxy, pool)
    if asked.picture:
        time.sleep(20)  # so that the curves are long
        side_by_side(browser, [server.picture(), proxy.picture("dark")], asked.picture)
    yield "it_is_light_or_dark", it_is_light_or_dark, (proxy,)
    yield "nothing_else_runs", nothing_else_runs, (server,)
    yield "a_lost_server_is_shown", a_lost_server_is_shown, (proxy, pool)
    yield "its_end_is_shown", its_end_is_shown, (proxy, pool, asked.proxy, stack)


def main():
    words = argparse.ArgumentParser(usage=__doc__)
    words.add_argument("server")
    words.add_argument("proxy")
    words.add_argument("--picture")
    asked = words.parse_args()
    if not shutil.which("chromium"):
        sys.exit("chromium is missing")
    if not are_built(asked.server, asked.proxy):
        return 1
    with contextlib.ExitStack() as stack:
        return tally(checks(stack, asked))


if __name__ == "__main__":
    sys.exit(main())
