#!/bin/bash
# What writes, reads and mends take on groups of disks with parity, by the program of crates/parity_bench.
# Build it first: `rt run -- write 3 512 6 100` in crates/parity_bench leaves crates/parity_bench/out/parity_bench.
set -euo pipefail
top=$(cd "$(dirname "$0")/.." && pwd)
exec python3 "$top/bench/parity.py" "$top/crates/parity_bench/out/parity_bench"
