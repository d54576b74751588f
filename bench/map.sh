#!/bin/bash
# What the map takes of memory, and what evictions take of time, by the program of crates/store_bench.
# Build it first: `rt run -- evict 6` in crates/store_bench leaves crates/store_bench/out/store_bench.
set -euo pipefail
top=$(cd "$(dirname "$0")/.." && pwd)
exec python3 "$top/bench/map.py" "$top/crates/store_bench/out/store_bench"
