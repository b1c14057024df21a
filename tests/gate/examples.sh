#!/usr/bin/env bash
# Plays each script of the folders of tests/examples/ and compares the output with the file beside it: the examples of
# docs/SCRIPTS.md and docs/PROTOCOL.md, and the worked examples over all crates.
#
# Usage: examples.sh [PROGRAM [POOLS]]      (mc_sim, as each compiler built it)
#
# PROGRAM plays the scripts of a server, and POOLS those of a pool, which begin with `pool`; with PROGRAM alone no pool is played.
# tests/lib/model.py can take the place of the one, and tests/lib/pool_model.py that of the other. The scripts of a server with a bad
# line are left out then: model.py trusts its scripts.
#
# NAME.txt is the script and NAME.out its output; NAME.args are words for mc_sim, if there are any. NAME.err, if it exists, is the text on
# standard error, with status 2. mc_sim plays each script over each of its stores, and once more with its bytes fed one by one, except
# those with words, which ask for an account of each line. Then the script checks that mc_sim reports a read and a write that fail, and
# that the program's words do what they say (sim.help, sim.trace). The program must be built (`make run`, or `rt ci`). It prints a
# line for each script that fails; the last line is 'N passed, M failed'.
set -u
program=$(realpath "${1:-/}")
pools=${2:+$(realpath "$2")}
cd "$(dirname "$0")"
examples=../examples
built=../../crates/mc_sim/out/mc_sim
if [ $# -eq 0 ] && ! [ -x "$built" ]; then
    echo "examples.sh: $built is not built, so no example was played"
    echo "0 passed, 1 failed"
    exit 1
fi
scratch=$(mktemp -d)
trap 'rm -rf "$scratch"' EXIT
passed=0
failed=0

# Whether a script is one of a pool.
is_of_pool() {
    head -c 5 "$1" | grep -q '^pool '
}

# Whether a program that is given a script, and words beside those of the example, writes the text beside the example, and ends as expected.
plays() {
    local err=/dev/null status=0 words=
    [ -f "$3.err" ] && err=$3.err status=2
    [ -f "$3.args" ] && words=$(cat "$3.args")
    "$1" $words ${4:-} < "$2" > "$scratch/out" 2> "$scratch/err"
    [ $? -eq "$status" ] && cmp -s "$scratch/out" "$3.out" && cmp -s "$scratch/err" "$err"
}

# Whether mc_sim plays an example as each compiler built it, over each store, and in bytes. (In bytes a bad line has another number.)
plays_however() {
    LC_ALL=C awk -f in_bytes.awk "$1.txt" > "$scratch/in_bytes"
    for each in "$built" "$built.by-rattle"; do
        [ -x "$each" ] || continue
        for kind in list lru table; do
            plays "$each" "$1.txt" "$1" "--store $kind" || return 1
        done
        [ -f "$1.err" ] || [ -f "$1.args" ] || plays "$each" "$scratch/in_bytes" "$1" || return 1
    done
}

# Whether mc_sim reports that its input or its output failed.
tells() {
    [ "$1" -eq 3 ] && [ "$(cat "$scratch/err")" = 'mc_sim: input or output failed' ]
}

reads_that_fail() {
    "$built" < . > /dev/null 2> "$scratch/err"
    tells $?
}

writes_that_fail() {
    "$built" < $examples/classic/set.txt > /dev/full 2> "$scratch/err"
    tells $?
}

# Whether mc_sim shows its help (sim.help), and refuses a word that it does not know.
shows_help() {
    "$built" --help < /dev/null > "$scratch/out"
    [ $? -eq 2 ] && cmp -s "$scratch/out" sim.help
}

# Whether mc_sim shows its version.
shows_version() {
    "$built" --version < /dev/null > "$scratch/out"
    [ $? -eq 0 ] && grep -qx 'mc_sim [0-9.]* (memcached text protocol 1.6)' "$scratch/out"
}

refuses_words() {
    "$built" --aside < $examples/classic/set.txt > "$scratch/out" 2> "$scratch/err"
    [ $? -eq 2 ] && [ ! -s "$scratch/out" ] && [ -s "$scratch/err" ]
}

# Whether mc_sim reports what each line of some scripts does (sim.trace), with no other change of its output.
tells_lines() {
    local name
    for name in pool_points_and_empty_lines pool_lost_where_the_link_is_down pool_drain pool_restart pool_losses_missed_get_of_four_keys \
        pool_losses_missed_of_one_of_two_proxies; do
        "$built" --trace < "$examples/pool/$name.txt" > "$scratch/out" 2>> "$scratch/trace" || return 1
        cmp -s "$scratch/out" "$examples/pool/$name.out" || return 1
    done
    cmp -s "$scratch/trace" sim.trace
}

# Runs a check, counts it, and prints a line if it failed.
count() {
    local name=$1
    shift
    if "$@"; then
        passed=$((passed + 1))
    else
        echo "${name#../}: another output"
        failed=$((failed + 1))
    fi
}

for script in $examples/*/*.txt; do
    name=${script%.txt}
    if [ $# -eq 0 ]; then
        count "$name" plays_however "$name"
    elif is_of_pool "$script"; then
        [ -z "$pools" ] || count "$name" plays "$pools" "$script" "$name"
    elif ! [ -f "$name.err" ]; then
        count "$name" plays "$program" "$script" "$name"
    fi
done
if [ $# -eq 0 ]; then
    count "set, from a stream that fails" reads_that_fail
    count "set, to a stream that fails" writes_that_fail
    count "--help" shows_help
    count "--version" shows_version
    count "a word that is not known" refuses_words
    count "--trace" tells_lines
fi
echo "$passed passed, $failed failed"
[ "$failed" -eq 0 ]
