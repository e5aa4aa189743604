#!/bin/sh
# How the program replay reads its input: whole, byte by byte, none, the longest, longer ones, and with a read error.
# Needs the built program. Prints nothing and exits with 0 where every case holds; else prints the failing case and exits with 1.
set -u
cd "$(dirname "$0")/.." || { echo 'tests/replay.sh: no such directory'; exit 1; }
[ -x crates/replay/out/replay ] || { echo 'tests/replay.sh: crates/replay/out/replay is not built (rt run in crates/replay)'; exit 1; }
log=crates/replay/stdin
text=crates/replay/stdout
dir=$(mktemp -d) || { echo 'tests/replay.sh: no temporary directory'; exit 1; }
trap 'rm -rf "$dir"' EXIT

# Runs the program on standard input. Its exit status is kept in a file, since a pipe's last command is run in a shell of its own.
run() {
    crates/replay/out/replay >"$dir/out" 2>"$dir/err"
    echo "$?" >"$dir/status"
}

# Case $1: standard output and standard error are the files `expected` and `expected_err`, and the exit status is 0, on a read error too.
expect() {
    if ! cmp -s "$dir/out" "$dir/expected" || ! cmp -s "$dir/err" "$dir/expected_err"; then
        echo "tests/replay.sh: $1: the program did not print what it should"
        exit 1
    fi
    status=$(cat "$dir/status")
    if [ "$status" != 0 ]; then
        echo "tests/replay.sh: $1: the program's exit status is $status and should be 0"
        exit 1
    fi
}

# The file $1 byte by byte, with a pause behind each, so that each is a read of its own.
byte_by_byte() {
    size=$(wc -c <"$1")
    at=0
    while [ "$at" -lt "$size" ]; do
        dd if="$1" bs=1 skip="$at" count=1 2>/dev/null
        sleep 0.02
        at=$((at + 1))
    done
}

# The file $1 becomes 16,384 copies of it.
repeat() {
    for _ in 1 2 3 4 5 6 7 8 9 10 11 12 13 14; do
        cat "$1" "$1" >"$dir/twice"
        mv "$dir/twice" "$1"
    done
}

: >"$dir/expected_err"

# Document 01's log.
cp "$text" "$dir/expected"
run <"$log"
expect 'the example log in one piece'
byte_by_byte "$log" | run
expect 'the example log byte by byte'

# "Empty log: `stop 0 at 0`, no row."
echo 'stop 0 at 0' >"$dir/expected"
run </dev/null
expect 'an empty input'

# The longest log, 32,768 bytes of look ups by a ready writer: each record has two bytes and is answered 14.
printf '\000\003' >"$dir/look_ups"
repeat "$dir/look_ups"
echo 14 >"$dir/answers"
repeat "$dir/answers"
{ cat "$dir/answers"; echo 'stop 0 at 32768'; } >"$dir/expected"
run <"$dir/look_ups"
expect '32,768 bytes'

# Document 01's log, whose writer is then ready, and look ups, 32,768 bytes in all.
{ cat "$log"; dd if="$dir/look_ups" bs=2 count=16375 2>/dev/null; } >"$dir/longest"
{ head -n 7 "$text"; head -n 16375 "$dir/answers"; printf 'stop 0 at 32768\n1 300 2\n'; } >"$dir/expected"
cat "$dir/longest" | run
expect '32,768 bytes through a pipe'

# "For longer input it prints only `too long`."
echo 'too long' >"$dir/expected"
{ cat "$dir/longest"; printf '\000'; } >"$dir/longer"
run <"$dir/longer"
expect '32,769 bytes'
cat "$dir/longest" "$dir/longest" "$dir/longest" "$dir/longest" 2>/dev/null | run
expect 'a longer input through a pipe'

# A read error.
: >"$dir/expected"
echo 'read error' >"$dir/expected_err"
run <&-
expect 'standard input closed'
run <"$dir"
expect 'a directory as standard input'
