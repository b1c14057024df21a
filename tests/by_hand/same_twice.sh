#!/usr/bin/env bash
# Compares the built programs of two clones byte for byte, and prints their SHA-256.
#
# Usage: same_twice.sh CLONE CLONE [PROGRAM..]      (mc_serverd mc_proxyd mc_sim)
#
# Build both first, each from nothing and in a folder of its own: ./prove.py mc_serverd mc_proxyd mc_sim. It prints the commit of each
# clone, and a line for each program. The last line is 'N passed, M failed', one for each program.
set -u
if [ $# -lt 2 ]; then
    sed -n '/^# Usage/s/^# //p' "$0"
    exit 2
fi
one=$1
other=$2
shift 2
[ $# -gt 0 ] || set -- mc_serverd mc_proxyd mc_sim
passed=0
failed=0

sum_of() {
    sha256sum < "$1" | cut -d ' ' -f 1
}

# Compares a program of both clones, and prints the result.
is_same() {
    local first=$one/crates/$1/out/$1 second=$other/crates/$1/out/$1 each
    for each in "$first" "$second"; do
        [ -f "$each" ] || { echo "$1: $each is not built"; return 1; }
    done
    if cmp -s "$first" "$second"; then
        echo "$1: $(sum_of "$first"), the same in both"
    else
        echo "$1: $(sum_of "$first") and $(sum_of "$second"): $(cmp -l "$first" "$second" 2> /dev/null | wc -l) bytes differ"
        return 1
    fi
}

for clone in "$one" "$other"; do
    echo "$clone: commit $(git -C "$clone" describe --always --abbrev=40 --dirty)"
done
if [ "$(realpath "$one")" = "$(realpath "$other")" ]; then
    echo "same_twice.sh: these are one clone"
    failed=1
    set --
fi
for name in "$@"; do
    if is_same "$name"; then
        passed=$((passed + 1))
    else
        failed=$((failed + 1))
    fi
done
echo "$passed passed, $failed failed"
[ "$failed" -eq 0 ]
