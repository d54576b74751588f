#!/bin/bash
# A safe array beside a plain one, by turns. Usage: bench/safe.sh [PROGRAM [ROUNDS]]
set -euo pipefail
top=$(cd "$(dirname "$0")/.." && pwd)
exec python3 "$top/bench/safe.py" "${1:-$top/crates/dgraid/out/dgraid}" "${@:2}"
