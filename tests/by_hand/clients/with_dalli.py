#!/usr/bin/env python3
"""Tries Ruby's dalli on a server (Debian: ruby, ruby-dalli).

Debian's dalli 3.0.6 has the binary protocol alone, whatever `protocol` says, so it is rejected. Later ones speak meta commands with
`protocol: :meta`; nothing of these is tried here.
"""

import subprocess
import sys

from trial import main

NO_BINARY = "no binary protocol"
CALL = """
require "dalli"
begin
  client = Dalli::Client.new("127.0.0.1:#{ARGV[0]}", %s)
  client.set("a", "x")
  puts client.get("a")
rescue Dalli::DalliError => error
  puts "#{error.class}: #{error.message}"
end
"""


def shown(port, options):
    """The last line that it prints: dalli's log is before it."""
    words = ["ruby", "-W0", "-e", CALL % options, str(port)]
    done = subprocess.run(words, stdout=subprocess.PIPE, stderr=subprocess.DEVNULL, text=True, timeout=60)
    return done.stdout.splitlines()[-1]


def calls(first, second):
    for options in ("compress: false", "protocol: :meta"):
        yield f"dalli, {options}: set and get", lambda: shown(first.port, options), "Dalli::RingError: No server available", NO_BINARY


if __name__ == "__main__":
    words = ["ruby", "-r", "dalli", "-e", 'puts "dalli #{Dalli::VERSION}, Ruby #{RUBY_VERSION}"']
    print(subprocess.run(words, capture_output=True, text=True).stdout.strip())
    sys.exit(main(__doc__, calls))
