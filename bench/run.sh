#!/usr/bin/env bash
# Builds the benchmark (and proves it first, if needed), runs it in full, and prints bytes per second for each case.
# Each case is run at full size and at a tenth of it: the time per byte should be equal.
set -e
cd "$(dirname "$0")/../crates/mc_tools"
rt run > /dev/null
exec ./out/mc_tools bench measure
