#!/bin/bash
# What writes take on an array whose pages have two places, beside a plain one, by the program of crates/stop_bench.
# Build it first: `rt run -- replay double 512 6 100` in crates/stop_bench leaves crates/stop_bench/out/stop_bench.
set -euo pipefail
top=$(cd "$(dirname "$0")/.." && pwd)
exec python3 "$top/bench/stop.py" "$top/crates/stop_bench/out/stop_bench"
