#!/usr/bin/env bash
# Tries others' clients on a server, call by call: pymemcache, pylibmc, Django's cache and sessions, PHP's Memcached and
# sessions, the programs of libmemcached, nutcracker, a proxy, and those that must be rejected: dalli, which speaks
# the binary protocol alone in Debian's package, and curl.
#
# Usage: run.sh SERVER [--through PROXY] [--beside MEMCACHED]      (SERVER is the built mc_serverd, PROXY mc_proxyd)
#
# Each script starts servers of its own on free ports of 127.0.0.1 and compares the result of each call with the expected
# one. A call that memcached answers otherwise names the line of docs/PROTOCOL.md that says so. With --through the calls are
# made to proxies in the servers' places, each in front of two servers, and must have the same results. With --beside they are
# made to Debian's memcached as well: there these calls must have another result, and the others the same. A client that is not
# installed is reported and left out. The last line is 'N passed, M differ as documented, K failed'.
set -u
shopt -s lastpipe
if [ $# -eq 0 ] || ! [ -x "$1" ]; then
    echo "usage: tests/by_hand/clients/run.sh SERVER [--through PROXY] [--beside MEMCACHED]" >&2
    exit 2
fi
here=$(cd "$(dirname "$0")" && pwd)
passed=0
documented=0
failed=0

# The first of the Pythons that has a module. (Only Debian's own Python sees its packages.)
python_with() {
    local python
    for python in python3 /usr/bin/python3; do
        "$python" -c "import $1" 2> /dev/null && { echo "$python"; return; }
    done
    return 1
}

# Runs a script and prints its output, except its last line, whose counts are added.
add() {
    local counts='' line status
    echo "== ${2##*/}, by $1"
    "$@" 2>&1 | while IFS= read -r line; do
        if [[ $line =~ ^[0-9]+\ passed,\ [0-9]+\ differ ]]; then
            counts=$line
        else
            printf '%s\n' "$line"
        fi
    done
    status=${PIPESTATUS[0]}
    read -r more _ others _ _ _ fewer _ <<< "${counts:-0 passed, 0 differ as documented, 0 failed}"
    [ "$status" -eq 0 ] || [ "$fewer" -gt 0 ] || { echo "FAILED $2: ended with status $status"; fewer=1; }
    echo "${2##*/}: $more passed, $others differ as documented, $fewer failed"
    passed=$((passed + more))
    documented=$((documented + others))
    failed=$((failed + fewer))
}

skip() {
    echo "== $1 is skipped: it wants $2 (Debian: $3)"
}

if python=$(python_with pymemcache); then
    add "$python" "$here/with_pymemcache.py" "$@"
else
    skip with_pymemcache.py pymemcache python3-pymemcache
fi
if python=$(python_with pymemcache) && PATH=$PATH:/usr/sbin command -v nutcracker > /dev/null; then
    add "$python" "$here/with_nutcracker.py" "$@"
else
    skip with_nutcracker.py "nutcracker and pymemcache" "nutcracker, python3-pymemcache"
fi
if python=$(python_with pylibmc); then
    add "$python" "$here/with_pylibmc.py" "$@"
else
    skip with_pylibmc.py pylibmc python3-pylibmc
fi
if python=$(python_with "django, pymemcache, pylibmc"); then
    add "$python" "$here/with_django.py" "$@"
else
    skip with_django.py "Django, pymemcache and pylibmc" "python3-django, python3-pymemcache, python3-pylibmc"
fi
if [ "$(php -r 'echo class_exists("Memcached");' 2> /dev/null)" = 1 ]; then
    add python3 "$here/with_php.py" "$@"
    add python3 "$here/with_php_sessions.py" "$@"
else
    skip with_php.py "PHP's Memcached" "php-cli, php-memcached"
fi
if command -v memccapable > /dev/null; then
    add python3 "$here/with_tools.py" "$@"
else
    skip with_tools.py "the programs of libmemcached" libmemcached-tools
fi
if ruby -e 'require "dalli"' 2> /dev/null; then
    add python3 "$here/with_dalli.py" "$@"
else
    skip with_dalli.py "Ruby's dalli" "ruby, ruby-dalli"
fi
if command -v curl > /dev/null; then
    add python3 "$here/with_curl.py" "$@"
else
    skip with_curl.py curl curl
fi
echo "$passed passed, $documented differ as documented, $failed failed"
[ "$failed" -eq 0 ]
