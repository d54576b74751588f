#!/bin/bash
# Replays traces of random writes and reads with the built program, and prints what that takes.
# Build it first: `rt run` in crates/dgraid leaves crates/dgraid/out/dgraid.
# Usage: bench/replay.sh [EVENTS [SEED]]
set -euo pipefail
top=$(cd "$(dirname "$0")/.." && pwd)
exec python3 "$top/bench/replay.py" "$top/crates/dgraid/out/dgraid" "${1:-200000}" "${2:-1}"
