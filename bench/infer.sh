#!/bin/bash
# Writes blocks of volumes with the built program of crates/infer_bench, and prints what it takes to know what they belong to.
# Build it first: `rt run` in crates/infer_bench leaves crates/infer_bench/out/infer_bench.
# Usage: bench/infer.sh [count], with `count` also the instructions of a write, by valgrind
set -euo pipefail
top=$(cd "$(dirname "$0")/.." && pwd)
exec python3 "$top/bench/infer.py" "$top/crates/infer_bench/out/infer_bench" "$@"
