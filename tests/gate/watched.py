#!/usr/bin/env python3
"""Checks that the dashboard and the alerts of install/ ask for metrics that the programs show to Prometheus.

Usage: watched.py [--promtool]

The programs show the metrics that `metric_name` defines (crates/mc_admin/specs/Names.antt). Each metric in install/dashboard.json and
install/alerts.yml is one of these, with their labels, and is named in docs/RUNNING.md. The dashboard shows each, except those of
UNSHOWN. Each panel says what it shows, and each alert what it is about.

With --promtool (Debian: prometheus), by hand: promtool takes the rules, and each expression of the dashboard, and
tests/by_hand/alerts_fire.yml shows that each alert fires under bad conditions, and none under normal ones. The last line is 'N passed,
M failed'.
"""

import json
import pathlib
import re
import subprocess
import sys
import tempfile

sys.path.insert(0, str(pathlib.Path(__file__).resolve().parents[1] / "lib"))

from checks import Wrong, tally
from suite import CRATES, TOP

DASHBOARD, ALERTS, PAGE = TOP / "install/dashboard.json", TOP / "install/alerts.yml", TOP / "docs/RUNNING.md"
DEFINITION = CRATES / "mc_admin/specs/Names.antt"
FIRE = TOP / "tests/by_hand/alerts_fire.yml"
DEFINED = re.compile(r'^metric_name \w+ = codes "(\w+)"$', re.MULTILINE)
LABELS = re.compile(r'(\w+)=\\"([^"\\]*)\\"')
NAME = re.compile(r"\b(?:memcached|wiersbol|process)_[a-z_]+")
SELECTED = re.compile(r'(\w+)=~?"([^"]*)"')
OF_PROMETHEUS = {"instance", "job", "server"}  # labels that have any value
UNSHOWN = {"memcached_up", "memcached_version", "memcached_time_seconds", "wiersbol_process_id", "wiersbol_threads"}
ALERT = re.compile(r"^      - alert: (\w+)\n((?:        .*\n)+)", re.MULTILINE)
VARIABLES = {"$__rate_interval": "5m", "$instance": ".*"}


def defined():
    return set(DEFINED.findall(DEFINITION.read_text()))


def panels():
    return [panel for panel in json.loads(DASHBOARD.read_text())["panels"] if panel["type"] != "row"]


def expressions():
    return [target["expr"] for panel in panels() for target in panel["targets"]]


def rules():
    """The alerts, each with its text."""
    return ALERT.findall(ALERTS.read_text())


def asked(expression):
    """The metrics that an expression asks for: those of Prometheus itself, such as `up`, are ignored."""
    return set(NAME.findall(expression))


def is_there(name):
    if name not in defined():
        raise Wrong("no program shows it")
    if name not in NAME.findall(PAGE.read_text()):
        raise Wrong("docs/RUNNING.md does not name it")


def has_its_labels(expression):
    labels = set(LABELS.findall(DEFINITION.read_text()))
    for label in SELECTED.findall(expression):
        if label[0] not in OF_PROMETHEUS and label not in labels:
            raise Wrong(f"no metric has the label {label[0]} with {label[1]}")


def is_shown(name):
    if not any(name in asked(expression) for expression in expressions()):
        raise Wrong("no panel shows it")


def says_what_it_is(panel):
    if not panel["description"] or not all(target["legendFormat"] for target in panel["targets"]):
        raise Wrong("a panel without a description, or a line without a name")


def alert_is_whole(text):
    for word in ("expr", "severity", "summary", "description"):
        if not re.search(rf"^ +{word}: \S", text, re.MULTILINE):
            raise Wrong(f"it has no {word}")


def all_are_read():
    if not len(rules()) == ALERTS.read_text().count("- alert:") > 0:
        raise Wrong("an alert that this script does not read")


def checks():
    yield "all alerts are read", all_are_read, ()
    for place in (DASHBOARD, ALERTS):
        for name in sorted(asked(place.read_text())):
            yield f"{name} of {place.name}", is_there, (name,)
    for name in sorted(defined() - UNSHOWN):
        yield f"{name} in a panel", is_shown, (name,)
    for panel in panels():
        yield f"panel '{panel['title']}'", says_what_it_is, (panel,)
        for target in panel["targets"]:
            yield f"labels of panel '{panel['title']}'", has_its_labels, (target["expr"],)
    for name, text in rules():
        yield f"alert {name}", alert_is_whole, (text,)


def promtool(*words):
    ended = subprocess.run(["promtool", *words], stdout=subprocess.PIPE, stderr=subprocess.STDOUT, text=True)
    if ended.returncode:
        raise Wrong(ended.stdout)


def panels_are_taken():
    taken = []
    for at, expression in enumerate(expressions()):
        for name, value in VARIABLES.items():
            expression = expression.replace(name, value)
        taken.append({"record": f"panel:{at}", "expr": expression})
    with tempfile.NamedTemporaryFile("w", suffix=".yml") as file:  # JSON is YAML too.
        json.dump({"groups": [{"name": "panels", "rules": taken}]}, file)
        file.flush()
        promtool("check", "rules", file.name)


def checks_by_promtool():
    yield "promtool check rules", promtool, ("check", "rules", str(ALERTS))
    yield "promtool check rules, of panels", panels_are_taken, ()
    yield "promtool test rules", promtool, ("test", "rules", str(FIRE))


if __name__ == "__main__":
    if sys.argv[1:] not in ([], ["--promtool"]):
        sys.exit(__doc__)
    sys.exit(tally([*checks(), *(checks_by_promtool() if sys.argv[1:] else ())]))
