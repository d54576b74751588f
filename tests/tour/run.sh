#!/usr/bin/env bash
# Runs docs/TOUR.md line by line and compares each output: tests/tour/run.sh [PROGRAM]. With --write in front it puts the real
# outputs into the page.
exec python3 "$(dirname "$0")/tour.py" "$@"
