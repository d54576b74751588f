#!/bin/bash
# Refills a member with the built program, with no dead blocks and with half of them dead, and prints the MiB a second beside plain copies.
# Build it first: `rt run` in crates/dgraid leaves crates/dgraid/out/dgraid.
# Usage: bench/refill.sh [PROGRAM]
set -euo pipefail
top=$(cd "$(dirname "$0")/.." && pwd)
exec python3 "$top/bench/refill.py" "${1:-$top/crates/dgraid/out/dgraid}"
