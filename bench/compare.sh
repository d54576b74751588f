#!/bin/bash
# Runs the built programs of an earlier checkout and of this one by turns on the same input, and prints the ratios of their times.
# Build both first: `rt run` in crates/dgraid and in crates/volume_bench of either.
# Usage: bench/compare.sh EARLIER, the top of the earlier checkout
set -euo pipefail
top=$(cd "$(dirname "$0")/.." && pwd)
exec python3 "$top/bench/compare.py" "$1/crates" "$top/crates"
