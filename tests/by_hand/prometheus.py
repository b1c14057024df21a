#!/usr/bin/env python3
"""Lets Debian's Prometheus watch two servers and a proxy, and checks that each panel of install/dashboard.json has a line, and that
the alerts of install/alerts.yml are taken and fire when a server is lost.

Usage: prometheus.py SERVER PROXY      (SERVER is the built mc_serverd, PROXY mc_proxyd; Debian: prometheus)

All that is started listens at 127.0.0.1, and is ended with the script. `promtool check metrics` checks the output of each program.
It takes half a minute. The last line is 'N passed, M failed'.
"""

import contextlib
import json
import pathlib
import subprocess
import sys
import tempfile
import threading
import time
import urllib.error
import urllib.parse
import urllib.request

sys.path.insert(0, str(pathlib.Path(__file__).resolve().parents[1] / "lib"))

from checks import Wrong, tally
from live_pool import answered_in_time
from rings import Ring
from servers import HOST, Proxy, Server, free_port
from suite import TOP

SECONDS_OF_LOAD = 15
SECONDS_TO_TELL = 20
CONFIG = """global: {scrape_interval: 1s, evaluation_interval: 1s}
rule_files: [%s]
scrape_configs:
  - job_name: memcached
    static_configs: [{targets: %s}]
"""
VARIABLES = {"$__rate_interval": "10s", "$instance": ".*"}


def got(address, path):
    with urllib.request.urlopen(f"http://{address}{path}", timeout=10) as answer:
        return answer.read()


class Watched:
    """Two servers, one of which is full of items, and a proxy, each with a listener for operators, and Prometheus."""

    def __init__(self, stack, server, proxy):
        self.admins = [f"{HOST}:{free_port()}" for _ in range(3)]
        self.servers = [stack.enter_context(Server(server, items=100, words=["--admin", each])) for each in self.admins[:2]]
        addresses = [each.address for each in self.servers]
        self.ring = Ring(addresses)
        words = ["--admin", self.admins[2], "--lost", "missed"]
        self.proxy = stack.enter_context(Proxy(proxy, addresses, words, stderr=subprocess.DEVNULL))
        self.ended = threading.Event()
        stack.callback(self.ended.set)
        threading.Thread(target=self.load, daemon=True).start()
        self.prometheus = f"{HOST}:{free_port()}"
        folder = pathlib.Path(stack.enter_context(tempfile.TemporaryDirectory()))
        (folder / "prometheus.yml").write_text(CONFIG % (json.dumps(str(TOP / "install/alerts.yml")), json.dumps(self.admins)))
        words = [f"--config.file={folder}/prometheus.yml", f"--storage.tsdb.path={folder}/data", f"--web.listen-address={self.prometheus}"]
        process = subprocess.Popen(["prometheus", *words], stderr=subprocess.DEVNULL)
        stack.callback(process.wait)
        stack.callback(process.terminate)

    def load(self):
        """Stores and asks for more keys than there is room for."""
        at = 0
        with self.proxy.connected() as client, client.makefile("rb") as answers:
            while not self.ended.is_set():
                at += 1
                client.sendall(b"set key%d 0 0 1\r\nx\r\nget key%d none\r\n" % (at % 1000, at % 1000))
                while answers.readline() not in (b"END\r\n", b""):
                    pass
                time.sleep(0.001)

    def asked(self, expression):
        """The answer of Prometheus: labels with a number, for each line."""
        for name, value in VARIABLES.items():
            expression = expression.replace(name, value)
        answer = json.loads(got(self.prometheus, "/api/v1/query?" + urllib.parse.urlencode({"query": expression})))
        return [(each["metric"], float(each["value"][1])) for each in answer["data"]["result"]]


def metrics_are_taken(admin):
    ended = subprocess.run(["promtool", "check", "metrics"], input=got(admin, "/metrics"), stdout=subprocess.PIPE, stderr=subprocess.STDOUT)
    if ended.returncode or ended.stdout:
        raise Wrong(f"status {ended.returncode}: {ended.stdout.decode()}")


def has_lines(watched, expression):
    lines = watched.asked(expression)
    if not lines or any(number != number for _, number in lines):
        raise Wrong(f"{expression} is answered {lines}")


def all_are_up(watched):
    if watched.asked("count(up == 1)") != [({}, 3.0)]:
        raise Wrong(f"{watched.asked('up')}")


def rules_are_well(watched):
    [group] = json.loads(got(watched.prometheus, "/api/v1/rules"))["data"]["groups"]
    for rule in group["rules"]:
        if rule["health"] != "ok":
            raise Wrong(f"{rule['name']}: {rule.get('lastError')}")


def a_lost_server_is_told(watched):
    watched.servers[1].stop()
    deadline = time.monotonic() + SECONDS_TO_TELL
    while not watched.asked(f'ALERTS{{alertname="WiersbolServerLost",server="{watched.servers[1].address}"}}'):
        if time.monotonic() > deadline:
            raise Wrong(f"no alert: {watched.asked('ALERTS')}")
        time.sleep(0.5)


def checks(watched):
    for name, admin in zip(("the first server", "the second server", "the proxy"), watched.admins):
        yield f"metrics of {name}", metrics_are_taken, (admin,)
    yield "all are up", all_are_up, (watched,)
    for panel in json.loads((TOP / "install/dashboard.json").read_text())["panels"]:
        for target in panel.get("targets", ()):
            yield f"panel '{panel['title']}'", has_lines, (watched, target["expr"])
    yield "rules", rules_are_well, (watched,)
    yield "a lost server is told", a_lost_server_is_told, (watched,)


def main(server, proxy):
    with contextlib.ExitStack() as stack:
        watched = Watched(stack, server, proxy)
        with watched.proxy.connected() as client:
            answered_in_time(client, b"mn\r\n", b"MN\r\n")
        time.sleep(SECONDS_OF_LOAD)
        return tally(checks(watched))


if __name__ == "__main__":
    if len(sys.argv) != 3:
        sys.exit(__doc__)
    sys.exit(main(*sys.argv[1:]))
