#!/bin/bash
# Makes the traces of the images of volumes by the command `trace`, and prints what that takes.
# Build it first: `rt run` in crates/dgraid leaves crates/dgraid/out/dgraid.
# Usage: bench/trace.sh [PROGRAM]
set -euo pipefail
top=$(cd "$(dirname "$0")/.." && pwd)
exec python3 "$top/bench/trace.py" "${1:-$top/crates/dgraid/out/dgraid}"
