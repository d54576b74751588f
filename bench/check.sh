#!/bin/bash
# Checks three sound volumes with the built program of crates/volume_bench, and prints what that takes.
# Build it first: `rt run` in crates/volume_bench leaves crates/volume_bench/out/volume_bench.
set -euo pipefail
top=$(cd "$(dirname "$0")/.." && pwd)
exec python3 "$top/bench/check.py" "$top/crates/volume_bench/out/volume_bench"
