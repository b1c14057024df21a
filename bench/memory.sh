#!/usr/bin/env bash
# Prints how many bytes of memory an item takes over the hashed store: the most that `mc_tools bench hold` had resident with 1,000,000
# items (or the first argument) of a key of 20 bytes and a value of 100, for each item. mc_tools must be built
# (`bench/run.sh`).
set -e
cd "$(dirname "$0")/../crates/mc_tools"
items=${1:-1000000}
resident=$(python3 -c '
import resource, subprocess, sys
subprocess.run(["./out/mc_tools", "bench", "hold", sys.argv[1]], check=True, stdout=subprocess.DEVNULL)
print(resource.getrusage(resource.RUSAGE_CHILDREN).ru_maxrss * 1024)' "$items")
echo "$items items: $resident bytes resident, $((resident / items)) for each"
