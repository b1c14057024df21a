#!/usr/bin/env bash
# Compares mc_sim with a plain model of the server (tests/lib/model.py) over scripts of random commands.
#
# Usage: random.sh [SEEDS [COMMANDS]]      (20 seeds from 1 on, 10,000 commands each)
#
# For each seed there are two scripts: one whose commands arrive whole or in two pieces, and one of a tenth of the commands
# whose bytes arrive one by one, with a turn after each. mc_sim must be built (`make run`, or `rt ci`); both of its builds
# are played if both exist. It prints a line for each script that fails; the last line is 'N passed, M failed'.
set -u
cd "$(dirname "$0")"
seeds=${1:-20}
commands=${2:-10000}
built=../../crates/mc_sim/out/mc_sim
if ! [ -x "$built" ]; then
    echo "random.sh: mc_sim is not built, so no random script was played"
    echo "0 passed, 1 failed"
    exit 1
fi
if ! command -v python3 > /dev/null; then
    echo "random.sh: python3 is missing, so the random scripts are skipped"
    echo "0 passed, 0 failed"
    exit 0
fi
scratch=$(mktemp -d)
trap 'rm -rf "$scratch"' EXIT
passed=0
failed=0

# Plays the script of a seed, of this number of commands, in these pieces.
play() {
    ../lib/random_script.py "$2" "$1" 8 "$3" > "$scratch/script" \
        && ../lib/model.py < "$scratch/script" > "$scratch/wanted" || return 1
    for each in "$built" "$built.by-rattle"; do
        [ -x "$each" ] || continue
        "$each" < "$scratch/script" > "$scratch/printed" && cmp -s "$scratch/wanted" "$scratch/printed" || return 1
    done
}

for seed in $(seq 1 "$seeds"); do
    for pieces in commands bytes; do
        count=$commands
        [ "$pieces" = bytes ] && count=$((commands / 10))
        if play "$seed" "$count" "$pieces"; then
            passed=$((passed + 1))
        else
            echo "tests/lib/random_script.py $count $seed 8 $pieces: mc_sim and the model differ"
            failed=$((failed + 1))
        fi
    done
done
echo "$passed passed, $failed failed"
[ "$failed" -eq 0 ]
