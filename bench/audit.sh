#!/bin/bash
# Audits three volumes, sound and with faults, with the built program of crates/volume_bench, beside checks of the sound ones by turns.
# Build it first: `rt run` in crates/volume_bench leaves crates/volume_bench/out/volume_bench.
set -euo pipefail
top=$(cd "$(dirname "$0")/.." && pwd)
exec python3 "$top/bench/audit.py" "$top/crates/volume_bench/out/volume_bench" "$@"
