#!/bin/bash
# Builds volumes with the built program of crates/build_bench, and prints what that takes and what the order of their blocks takes.
# Build it first: `rt run -- build 2 1` in crates/build_bench leaves crates/build_bench/out/build_bench.
# Usage: bench/build.sh [count], with `count` also the instructions of each task, by valgrind
set -euo pipefail
top=$(cd "$(dirname "$0")/.." && pwd)
exec python3 "$top/bench/build.py" "$top/crates/build_bench/out/build_bench" "$@"
