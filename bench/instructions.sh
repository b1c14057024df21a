#!/usr/bin/env bash
# Counts the instructions of a request, by valgrind's callgrind: the difference of two runs of `mc_tools bench case` of
# different size, less that of two runs that only make the client's bytes. It does not change with the machine's load.
#
# Usage: instructions.sh [PROGRAM]      (crates/mc_tools/out/mc_tools, which is built if it is missing)
set -eu
program=$(realpath "${1:-/}")
if [ $# -eq 0 ]; then
    cd "$(dirname "$0")/../crates/mc_tools"
    [ -x out/mc_tools ] || rt run > /dev/null
    program=$PWD/out/mc_tools
fi

# The instructions of a run.
instructions() {
    valgrind --tool=callgrind --callgrind-out-file=/dev/null "$program" bench "$@" 2>&1 > /dev/null | awk '/Collected/ { print $NF }'
}

# The instructions of one more request, by the sizes of a kind, in these pieces.
each() {
    local kind=$1 piece=$2 few=$3 many=$4
    local served=$(($(instructions case "$kind" "$many" "$piece") - $(instructions case "$kind" "$few" "$piece")))
    local made=$(($(instructions load "$kind" "$many" "$piece") - $(instructions load "$kind" "$few" "$piece")))
    echo $(((served - made) / (many - few)))
}

# A number as a multiple of another, to the hundredth.
times() {
    printf '%d.%02d' $(($1 / $2)) $(($1 * 100 / $2 % 100))
}

get_of_one=$(each get 65536 1000 5000)
set_of_one=$(each set 65536 1000 5000)
meta_get=$(each mg 65536 1000 5000)
meta_set=$(each ms 65536 1000 5000)
in_bytes=$(each set 1 1000 5000)
echo "a get of one held key: $get_of_one instructions"
echo "an mg of one held key, with its value: $meta_get instructions, $(times "$meta_get" "$get_of_one") times a get"
echo "a quiet mg of a key that is not held: $(each mq 65536 1000 5000) instructions"
echo "a set of one held key: $set_of_one instructions"
echo "an ms of one held key: $meta_set instructions, $(times "$meta_set" "$set_of_one") times a set"
echo "a set of one of sixteen held keys: $(each sets 65536 1000 5000) instructions"
echo "an increment of one held number: $(each incr 65536 1000 5000) instructions"
echo "a piece of one byte, of a small set: $(((in_bytes - set_of_one) / 21)) instructions beside the set's own"
echo "a piece of one byte, of a block: $(each block 1 1000 9000) instructions"
