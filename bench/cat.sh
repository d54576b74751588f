#!/bin/bash
# Reads a file of 4 MiB by `cat` from two arrays with the built program, and prints what that takes.
# Build it first: `rt run` in crates/dgraid leaves crates/dgraid/out/dgraid.
# Usage: bench/cat.sh [SEED]
set -euo pipefail
top=$(cd "$(dirname "$0")/.." && pwd)
exec python3 "$top/bench/cat.py" "$top/crates/dgraid/out/dgraid" "${1:-1}"
