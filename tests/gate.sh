#!/usr/bin/env bash
# The merge gate: every proof that is not kept, the must-fail edits, tests and programs (`rt ci`), and then the scripts of
# tests/gate/ with the programs that were just built. The last line is 'N passed, M failed', the sum of all parts.
set -u
shopt -s lastpipe
cd "$(dirname "$0")/.."
passed=0
failed=0

# Runs a part and prints its output, except its last line 'N passed, M failed', which is added.
add() {
    local counts= line status
    "$@" 2>&1 | while IFS= read -r line; do
        if [[ $line =~ ^[0-9]+\ passed,\ [0-9]+\ failed$ ]]; then
            [ -z "$counts" ] || printf '%s\n' "$counts"
            counts=$line
        else
            printf '%s\n' "$line"
        fi
    done
    status=${PIPESTATUS[0]}
    read -r more _ fewer _ <<< "${counts:-0 passed, 0 failed}"
    [ "$status" -eq 0 ] || [ "$fewer" -gt 0 ] || { echo "$*: ended with status $status"; fewer=1; }
    echo "$*: $more passed, $fewer failed"
    passed=$((passed + more))
    failed=$((failed + fewer))
}

# One job a check: a further one reads the libraries again. As many checks run side by side as there are processors, and 3 GB
# of memory for each.
if [ -z "${RT_JOBS:-}" ]; then
    held=$(awk '/^MemAvailable/ { print int($2 / 3000000) }' /proc/meminfo)
    RT_JOBS=$(nproc)
    [ "$RT_JOBS" -le "$held" ] || RT_JOBS=$held
    [ "$RT_JOBS" -ge 1 ] || RT_JOBS=1
    export RT_JOBS
fi

add rt ci
add tests/gate/edits.py --read
add tests/gate/cited.py
add tests/gate/uncited.py
add tests/gate/believed.py --check
add tests/gate/proving.py
add tests/gate/hashes.py
add bench/plot.py --check
add tests/gate/watched.py
add tests/gate/installed.py
add tests/gate/examples.sh
add tests/gate/prefixes.py
add tests/gate/random.sh 5 2000
add tests/gate/chart.py tests/examples/pool/pool_late_bytes_are_served.txt docs/lost_link.svg --check
add tests/gate/chart.py tests/examples/pool/pool_two_proxies_and_a_late_store.txt docs/two_proxies.svg --check
add tests/gate/pools.py --worlds 100
add tests/gate/pool_mistakes.py
add tests/gate/spellings.py 5
add tests/gate/refused.py crates/mc_server_tests/out/mc_server_tests_tests refusals::clients_are_answered_all_the_same
add tests/gate/refused.py crates/mc_server_tests/out/mc_server_tests_tests refusals::clients_are_answered_all_the_same_over_lru 1
add tests/gate/refused.py crates/mc_server_tests/out/mc_server_tests_tests refusals::clients_are_answered_all_the_same_over_a_table
add tests/gate/refused.py crates/mc_server_tests/out/mc_server_tests_tests large::large_values_are_stored_all_the_same
add tests/gate/refused.py crates/mc_server_tests/out/mc_server_tests_tests large::a_reserve_serves_what_is_refused 1
add tests/gate/refused.py crates/mc_pool_tests/out/mc_pool_tests_tests pools::dialogues_of_a_pool_go_so
add tests/gate/refused.py crates/mc_pool_tests/out/mc_pool_tests_tests pools::dialogues_with_missed_losses_go_so
add tests/gate/refused.py crates/mc_pool_tests/out/mc_pool_tests_tests worlds::links_are_lost_and_back
add tests/gate/refused.py crates/mc_pool_tests/out/mc_pool_tests_tests joins::a_server_joins_a_world
add tests/gate/refused.py crates/mc_pool_tests/out/mc_pool_tests_tests requests::requests_have_their_parts
add tests/gate/refused_scripts.py
add tests/gate/serverd.py crates/mc_serverd/out/mc_serverd
add tests/gate/looks.py crates/mc_serverd/out/mc_serverd
add tests/gate/proxyd.py crates/mc_proxyd/out/mc_proxyd crates/mc_serverd/out/mc_serverd
add tests/gate/admin.py crates/mc_serverd/out/mc_serverd crates/mc_proxyd/out/mc_proxyd
add tests/gate/keys_at_owners.py crates/mc_proxyd/out/mc_proxyd crates/mc_serverd/out/mc_serverd
echo "$passed passed, $failed failed"
[ "$failed" -eq 0 ]
