#!/bin/bash
# Runs the command `drill 1 2000`, and prints what it takes and which calls take which part of it.
# Build it first: `rt run` in crates/dgraid leaves crates/dgraid/out/dgraid.
# Usage: bench/drill.sh [PROGRAM]
set -euo pipefail
top=$(cd "$(dirname "$0")/.." && pwd)
exec python3 "$top/bench/drill.py" "${1:-$top/crates/dgraid/out/dgraid}"
