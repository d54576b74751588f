#!/usr/bin/env bash
# What the program does, and tells on standard error, where calls of the system fail or do a part (calls.py has more of these), and with image files as people
# keep them (images.py). Needs the built program: tests/adapters/run.sh [PROGRAM]. Names each case: passed, failed, or skipped because this machine doesn't let it be
# made; the status is 1 where a case failed.
set -u
here=$(cd "$(dirname "$0")" && pwd)
program=$(realpath "${1:-$here/../../crates/dgraid/out/dgraid}")
[ -x "$program" ] || { echo "no program: $program"; exit 2; }
base=$(mktemp -d)
mounted=
leave() {
    if [ -n "$mounted" ]; then umount "$mounted"; fi
    chmod -R u+w "$base"
    rm -rf "$base"
}
trap leave EXIT
passed=0 failed=0 skipped=0

# A folder of its own for a case.
enter() {
    mkdir "$base/$1" && cd "$base/$1" || exit 2
}

# Compares what a case wrote in $base/out and $base/err, and its status, with what is wanted.
expect() {
    local name=$1 status=$2 want_status=$3 want_out=$4 want_err=$5 well=1
    [ "$status" = "$want_status" ] || { echo "$name: status $status, not $want_status"; well=0; }
    diff <(printf '%s' "$want_out") "$base/out" >"$base/diff" || { echo "$name: standard output:"; cat "$base/diff"; well=0; }
    diff <(printf '%s' "$want_err") "$base/err" >"$base/diff" || { echo "$name: standard error:"; cat "$base/diff"; well=0; }
    if [ "$well" = 1 ]; then passed=$((passed + 1)); echo "passed: $name"; else failed=$((failed + 1)); echo "failed: $name"; fi
}

skip() {
    echo "skipped: $1: $2"
    skipped=$((skipped + 1))
}

# ---- image files

enter directory
mkdir member-00-0.img
printf 'array 1024 64 2 32 1\nwrite 0 6869\nread 0\nfail 0 0\n' | "$program" replay >"$base/out" 2>"$base/err"
expect 'an image is a directory' $? 0 $'ok\nok\ndata 6869\nalready\n' $'member-00-0.img: blank: Is a directory\n'

enter unwritable
locked='array 1024 64 2 32 1\nwrite 0 6869\nread 0\nsettle\n'
denied=$(printf 'member-0%s.img: blank: Permission denied\n' 0-0 0-1 1-0 1-1)$'\n'
want=$'ok\ndegraded\ndata -\nlost 0\n'
chmod 555 .
if ! touch x 2>/dev/null; then
    printf "$locked" | "$program" replay >"$base/out" 2>"$base/err"
    expect 'a folder that cannot be written to' $? 0 "$want" "$denied"
elif cp "$program" "$base/program" && chmod 755 "$base" "$base/program" && setpriv --reuid=65534 --regid=65534 --clear-groups "$base/program" 2>/dev/null >&2; [ $? = 1 ]; then
    rm -f x
    printf "$locked" | setpriv --reuid=65534 --regid=65534 --clear-groups "$base/program" replay >"$base/out" 2>"$base/err"
    expect 'a folder that cannot be written to' $? 0 "$want" "$denied"
else
    skip 'a folder that cannot be written to' 'root writes to any folder, and setpriv can not run the program as nobody'
fi

# A tmpfs of eight pages of 4096 bytes. Slots 0 to 6 of a member stand on its first two pages, and slot 7 goes on to the third one. So of four members each has two
# pages behind the writes of blocks 0 to 13; block 14 comes to slot 7 of boundary 0, neither member of which finds space for it.
enter full
if [ "$(getconf PAGESIZE)" != 4096 ]; then
    skip 'a full disk' 'the pages of this machine have another length'
elif mount -t tmpfs -o size=32k tmpfs . 2>/dev/null; then
    mounted=$PWD
    cd "$base/full"
    {
        echo 'array 1024 64 2 32 1'
        for b in $(seq 0 39); do echo "write $b 01"; done
        for b in $(seq 0 15); do echo "read $b"; done
        printf 'fail 0 0\nfail 0 1\nfail 1 0\n'
    } | "$program" replay >"$base/out" 2>"$base/err"
    status=$?
    want=$(echo ok; for b in $(seq 0 13); do echo ok; done; for b in $(seq 14 39); do echo degraded; done
        for b in $(seq 0 6); do printf 'unavailable\ndata 01\n'; done; printf 'data -\ndata -\nalready\nalready\nok\n')$'\n'
    expect 'a full disk' $status 0 "$want" $'member-00-0.img: write: No space left on device\nmember-00-1.img: write: No space left on device\n'
    cd "$base" && umount "$base/full" && mounted=
else
    skip 'a full disk' 'no tmpfs can be mounted here'
fi

# A file that is cut short while the program runs: a read fails, the other side serves.
enter cut_short
mkfifo input
"$program" replay <input >"$base/out" 2>"$base/err" &
pid=$!
exec 3>input
printf 'array 1024 64 2 32 1\nwrite 0 6869\n' >&3
for _ in $(seq 100); do [ "$(wc -l <"$base/out")" = 2 ] && break; sleep 0.05; done
truncate -s 0 member-00-0.img
printf 'read 0\nread 0\nfail 0 0\n' >&3
exec 3>&-
wait $pid
status=$?
expect 'an image that was cut short' $status 0 $'ok\nok\ndata 6869\ndata 6869\nalready\n' $'member-00-0.img: read: failed to fill whole buffer\n'

# ---- standard input and output

enter input
"$program" replay </ >"$base/out" 2>"$base/err"
expect 'standard input is a directory' $? 3 '' $'standard input: read: Is a directory\n'
"$program" trace up 4 64 2 </ >"$base/out" 2>"$base/err"
expect 'the image of a trace is a directory' $? 3 '' $'standard input: read: Is a directory\n'
"$program" replay <&- >"$base/out" 2>"$base/err"
expect 'standard input is closed' $? 3 '' $'standard input: read: Is a directory\n'

enter output
printf 'array 1024 64 2 32 1\nread 0\n' | { "$program" replay >/dev/full 2>"$base/err"; status=$?; : >"$base/out"; expect 'standard output is full' $status 4 '' $'standard output: write: No space left on device\n'; echo "$passed $failed" >"$base/counts"; }
read -r passed failed <"$base/counts"
"$program" wrong words >/dev/full 2>"$base/err"
status=$?
: >"$base/out"
expect 'the usage line, and standard output is full' $status 4 '' $'standard output: write: No space left on device\n'
printf 'reed 3\n' | { "$program" replay >/dev/full 2>"$base/err"; status=$?; : >"$base/out"; expect 'a refused line, and standard output is full' $status 4 '' $'standard output: write: No space left on device\n'; echo "$passed $failed" >"$base/counts"; }
read -r passed failed <"$base/counts"
# Nothing is saved here, where a replay made the images of two boundaries; the image of the trace has no bytes. A drill reads no standard input, which is a directory.
for words in status 'cat /a' 'ls /' 'trace up 4 64 2' 'drill 1 1'; do
    from=/dev/null told=$'4 images, none with a label\n'
    case $words in
        trace*) told= ;;
        drill*) from=/ told=$'4 images set aside, as member-SS-J.img.old\n' ;;
    esac
    "$program" $words <$from >/dev/full 2>"$base/err"
    status=$?
    : >"$base/out"
    expect "$words, and standard output is full" $status 4 '' "$told"$'standard output: write: No space left on device\n'
done
mkfifo replies
sleep 5 <replies &
reader=$!
exec 4>replies
kill $reader
wait $reader 2>/dev/null
printf 'array 1024 64 2 32 1\nread 0\n' >trace
"$program" replay <trace >&4 2>"$base/err"
status=$?
exec 4>&-
: >"$base/out"
expect 'nobody reads standard output' $status 4 '' $'8 images set aside, as member-SS-J.img.old\nstandard output: write: Broken pipe\n'

# A stream that is closed leaves its number to no image file.
enter closed
"$program" replay <"$base/output/trace" 2>"$base/err" >&-
status=$?
: >"$base/out"
expect 'standard output is closed' $status 4 '' $'standard output: write: Bad file descriptor\n'
[ -z "$(tr -d '\0' <member-00-0.img)" ] || { echo 'standard output is closed: an image has bytes'; failed=$((failed + 1)); }

# ---- standard error

enter silent
mkdir member-00-0.img member-01-1.img
"$program" replay <"$base/output/trace" >"$base/out" 2>&-
status=$?
: >"$base/err"
expect 'standard error is closed' $status 0 $'ok\ndata -\n' ''
[ -z "$(tr -d '\0' <member-00-1.img)" ] || { echo 'standard error is closed: an image has bytes'; failed=$((failed + 1)); }
"$program" replay <"$base/output/trace" >"$base/out" 2>/dev/full
status=$?
expect 'standard error is full' $status 0 $'ok\ndata -\n' ''

# ---- cases that need python3: calls that fail or do a part, long images and many (calls.py); image files as people keep them (images.py)

cd "$base"
for cases in calls images; do
    python3 -B "$here/$cases.py" "$program" | tee "$base/cases" | sed '$d'
    if [[ $(tail -n 1 "$base/cases") =~ ^([0-9]+)\ passed,\ ([0-9]+)\ failed,\ ([0-9]+)\ skipped$ ]]; then
        passed=$((passed + BASH_REMATCH[1])) failed=$((failed + BASH_REMATCH[2])) skipped=$((skipped + BASH_REMATCH[3]))
    else
        echo "failed: $cases.py ended early"
        failed=$((failed + 1))
    fi
done

echo "$passed passed, $failed failed, $skipped skipped"
[ "$failed" = 0 ]
