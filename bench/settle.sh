#!/bin/bash
# Replays the traffic of sound volumes, with a settle at its end, with the built program of crates/dgraid.
# Build it first: `rt run` in crates/dgraid leaves crates/dgraid/out/dgraid.
set -euo pipefail
top=$(cd "$(dirname "$0")/.." && pwd)
exec python3 "$top/bench/settle.py" "$top/crates/dgraid/out/dgraid"
