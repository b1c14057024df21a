#!/usr/bin/env python3
"""Lets existing monitors watch the built mc_serverd, and mc_proxyd if it is named, at its listener of operators (--admin).

Usage: monitors.py SERVER [PROXY] [--plugins FOLDER]

Debian's promtool (package prometheus) checks the output of /metrics, and memcstat (libmemcached-tools) asks for the statistics. Munin's
plug-in memcached_ (munin-plugins-extra, libcache-memcached-perl, libstring-crc32-perl) is run as munin would run it, and collectd
(collectd-core) with its plug-in memcached. FOLDER has the unpacked packages that are not installed. One that is missing is named and not
counted. The last line is 'N passed, M failed'.
"""

import contextlib
import os
import pathlib
import re
import shutil
import subprocess
import sys
import tempfile
import urllib.request

sys.path.insert(0, str(pathlib.Path(__file__).resolve().parents[1] / "lib"))

from checks import PATIENCE, asked, tally, want
from servers import HOST, Proxy, Server, free_port
from suite import are_built

MUNIN = "usr/share/munin/plugins/memcached_"
COLLECTD = """Interval 1
BaseDir "{base}"
PIDFile "{base}/pid"
PluginDir "{usr}/lib/collectd"
TypesDB "{usr}/share/collectd/types.db"
LoadPlugin csv
<Plugin csv>
    DataDir stdout
</Plugin>
LoadPlugin memcached
<Plugin memcached>
    <Instance "tried">
        Address "{host}"
        Port "{port}"
    </Instance>
</Plugin>
"""
SECONDS = 4  # that collectd runs


def run(*words, text=None, **environment):
    ended = subprocess.run(
        words, input=text, capture_output=True, text=True, timeout=PATIENCE, env={**os.environ, **environment}
    )
    return ended.returncode, ended.stdout + ended.stderr


def promtool(tool, port):
    with urllib.request.urlopen(f"http://{HOST}:{port}/metrics", timeout=PATIENCE) as page:
        shown = page.read().decode()
    want(run(tool, "check", "metrics", text=shown), (0, ""))


def memcstat(tool, port):
    status, shown = run(tool, f"--servers={HOST}:{port}")
    want((status, "curr_connections: " in shown, "bytes_read: " in shown), (0, True, True))


def munin(tool, port):
    """Munin runs a plug-in by the name of a link to it, which says what it draws."""
    usr = pathlib.Path(tool).parents[3]
    modules = [str(usr / "share/perl5"), *map(str, usr.glob("lib/*/perl5/*"))]
    with tempfile.TemporaryDirectory() as links:
        for graph, field in (("rates", "memcache_cmd_get.value 2"), ("bytes", "memcache_bytes_read.value "), ("counters", "memcache_curr_items.value 1")):
            link = pathlib.Path(links) / f"memcached_{graph}"
            link.symlink_to(tool)
            status, shown = run("perl", str(link), host=HOST, port=str(port), PERL5LIB=":".join(modules))
            want((graph, status, field in shown), (graph, 0, True))


def collectd(tool, port):
    """collectd keeps its connection, and asks once in a second."""
    usr = pathlib.Path(tool).parents[1]
    with tempfile.TemporaryDirectory() as base:
        settings = pathlib.Path(base) / "collectd.conf"
        settings.write_text(COLLECTD.format(base=base, usr=usr, host=HOST, port=port))
        with contextlib.suppress(subprocess.TimeoutExpired):
            subprocess.run(
                [tool, "-f", "-C", str(settings)], stdout=open(f"{base}/shown", "wb"), stderr=subprocess.STDOUT, timeout=SECONDS
            )
        shown = pathlib.Path(base, "shown").read_text()
    for wanted in (r"memcached_command-get \S+ \d+\.\d+:2\n", r"df-cache \S+ \S+:66\.0+:67108798\.0+\n"):
        want((wanted, len(re.findall(wanted, shown)) > 1), (wanted, True))


def tools(folder):
    """The monitors, and how each is run."""
    for check, path in (
        (promtool, shutil.which("promtool")),
        (memcstat, shutil.which("memcstat")),
        (munin, folder / MUNIN),
        (collectd, folder / "usr/sbin/collectd"),
    ):
        if path and pathlib.Path(path).exists():
            yield check, str(path)
        else:
            print(f"{check.__name__}: it is not here")


def main(server_program, folder, proxy_program=None):
    found = list(tools(folder))
    with contextlib.ExitStack() as stack:
        port, behind = free_port(), free_port()
        server = stack.enter_context(Server(server_program, words=["--admin", f"{HOST}:{port}"]))
        client = stack.enter_context(server.connected())
        asked(client, b"set a 0 0 1\r\nx\r\nget a b\r\n", b"STORED\r\nVALUE a 0 1\r\nx\r\nEND\r\n")
        checks = [(f"{check.__name__} of the server", check, (tool, port)) for check, tool in found]
        if proxy_program:
            proxy = stack.enter_context(Proxy(proxy_program, [server.address], ["--admin", f"{HOST}:{behind}"]))
            asked(stack.enter_context(proxy.connected()), b"version\r\n", b"VERSION 1.6.0\r\n")
            checks += [(f"{check.__name__} of the proxy", check, (tool, behind)) for check, tool in found if check in (promtool, memcstat)]
        return tally(checks)


if __name__ == "__main__":
    words = sys.argv[1:]
    folder = pathlib.Path("/")
    if "--plugins" in words:
        place = words.index("--plugins")
        folder = pathlib.Path(words[place + 1])
        del words[place : place + 2]
    if len(words) not in (1, 2):
        sys.exit(__doc__)
    sys.exit(main(words[0], folder, *words[1:]) if are_built(*words) else 1)
