#!/bin/bash
# Makes what is left of arrays with the built program of crates/regroup_bench, and prints what that takes.
# Build it first: `rt run` in crates/regroup_bench leaves crates/regroup_bench/out/regroup_bench.
set -euo pipefail
top=$(cd "$(dirname "$0")/.." && pwd)
exec python3 "$top/bench/regroup.py" "$top/crates/regroup_bench/out/regroup_bench" "$@"
