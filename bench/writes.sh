#!/bin/bash
# Writes blocks of each kind over and over with the built program, on volumes of three sizes, and prints the processor's time of a write.
# Build it first: `rt run` in crates/dgraid leaves crates/dgraid/out/dgraid.
# Usage: bench/writes.sh [PROGRAM]
set -euo pipefail
top=$(cd "$(dirname "$0")/.." && pwd)
exec python3 "$top/bench/writes.py" "${1:-$top/crates/dgraid/out/dgraid}"
