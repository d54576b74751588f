#!/bin/bash
# Counts, by valgrind, the instructions of the built program of crates/dgraid over refused lines of growing length.
# Build it first: `rt run` in crates/dgraid leaves crates/dgraid/out/dgraid.
set -euo pipefail
top=$(cd "$(dirname "$0")/.." && pwd)
exec python3 "$top/bench/lines.py" "$top/crates/dgraid/out/dgraid"
