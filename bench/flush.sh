#!/bin/bash
# Saves small arrays on a disk and on a tmpfs with the built program, and prints what a save takes there.
# Build it first: `rt run` in crates/dgraid leaves crates/dgraid/out/dgraid.
# Usage: bench/flush.sh [PROGRAM [FOLDER..]], by default in TMPDIR or /tmp, and in /dev/shm
set -euo pipefail
top=$(cd "$(dirname "$0")/.." && pwd)
program=${1:-$top/crates/dgraid/out/dgraid}
shift || true
[ $# -gt 0 ] || set -- "${TMPDIR:-/tmp}" /dev/shm
exec python3 "$top/bench/flush.py" "$program" "$@"
