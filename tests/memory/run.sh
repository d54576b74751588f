#!/usr/bin/env bash
# Sees how much the built program holds of an image at once, refuses each of its allocations in turn, and sees how it ends:
# tests/memory/run.sh [PROGRAM] [--from N] [--to N].
# Needs gcc, for the shim that counts and refuses, and nm. The status is 1 where a run ended otherwise than it must.
set -eu
here=$(cd "$(dirname "$0")" && pwd)
program=$here/../../crates/dgraid/out/dgraid
if [ $# -gt 0 ] && [ "${1#--}" = "$1" ]; then
    program=$1
    shift
fi
[ -x "$program" ] || { echo "no program: $program"; exit 2; }
nm -D "$program" | grep -q ' U malloc' || { echo "the program doesn't take its memory from the C library of this machine"; exit 2; }
folder=$(mktemp -d)
trap 'rm -rf "$folder"' EXIT
gcc -O2 -Wall -Wextra -shared -fPIC -o "$folder/refuse.so" "$here/refuse.c"
python3 "$here/images.py" "$program" "$folder/refuse.so"
python3 "$here/drill.py" "$program" "$folder/refuse.so" "$@"
