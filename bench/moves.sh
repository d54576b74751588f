#!/bin/bash
# Moves the blocks of arrays with the built program of crates/move_bench, and prints what a move takes.
# Build it first: `rt run` in crates/move_bench leaves crates/move_bench/out/move_bench.
# Usage: bench/moves.sh [count], with `count` also the instructions of a move, by valgrind
set -euo pipefail
top=$(cd "$(dirname "$0")/.." && pwd)
exec python3 "$top/bench/moves.py" "$top/crates/move_bench/out/move_bench" "$@"
