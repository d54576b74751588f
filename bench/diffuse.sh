#!/bin/bash
# Gives files a second copy with the built program, on arrays of 64 MiB and of 512 MiB, and prints what a copied block takes.
# Build it first: `rt run` in crates/dgraid leaves crates/dgraid/out/dgraid.
# Usage: bench/diffuse.sh [PROGRAM]
set -euo pipefail
top=$(cd "$(dirname "$0")/.." && pwd)
exec python3 "$top/bench/diffuse.py" "${1:-$top/crates/dgraid/out/dgraid}"
