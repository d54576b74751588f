#!/bin/bash
# An earlier built program and a later one by turns. Usage: bench/turns.sh EARLIER LATER [ROUNDS], two programs.
set -euo pipefail
top=$(cd "$(dirname "$0")/.." && pwd)
exec python3 "$top/bench/turns.py" "$@"
