#!/bin/bash
# Saves arrays of three sizes and opens them with the built program, and prints what that takes.
# Build it first: `rt run` in crates/dgraid leaves crates/dgraid/out/dgraid.
# Usage: bench/save.sh [PROGRAM [count]], with `count` the instructions of each, by valgrind
set -euo pipefail
top=$(cd "$(dirname "$0")/.." && pwd)
exec python3 "$top/bench/save.py" "${1:-$top/crates/dgraid/out/dgraid}" "${@:2}"
