#!/bin/bash
# Makes plans of arrays with the built program of crates/plan_bench, and prints what that takes.
# Build it first: `rt run` in crates/plan_bench leaves crates/plan_bench/out/plan_bench.
set -euo pipefail
top=$(cd "$(dirname "$0")/.." && pwd)
exec python3 "$top/bench/plan.py" "$top/crates/plan_bench/out/plan_bench"
