#!/usr/bin/env bash
# The program behind bin/plan: the example's listing, the line for an empty table, and words that are not to reach the program.
set -eu
cd "$(dirname "$0")/.."
work=$(mktemp -d)
trap 'rm -rf "$work"' EXIT

# says STATUS TEXT COMMAND..
says() {
    local status=$1 text=$2 told=0 got
    shift 2
    got=$("$@" 2>&1 < /dev/null) || told=$?
    if [ "$told" -ne "$status" ] || [ "$got" != "$text" ]; then
        echo "$*: status $told, and it says:"
        diff <(printf '%s\n' "$text") <(printf '%s\n' "$got") || true
        exit 1
    fi
}

says 0 "$(cat tests/example.listing)" bin/plan 2 examples/example.table
says 0 'refused 11 0' bin/plan 6 examples/example.table
says 0 'refused 10 0' bin/plan 255 examples/example.table
says 0 'refused 1 0' bin/plan 2 -
says 2 "bin/plan: P is a number from 0 to 255, not '256'" bin/plan 256 examples/example.table
says 2 "bin/plan: P is a number from 0 to 255, not 'two'" bin/plan two examples/example.table
says 2 "bin/plan: P is a number from 0 to 255, not '-1'" bin/plan -1 examples/example.table
says 2 "bin/plan: cannot read 'no-such-file'" bin/plan 2 no-such-file
says 2 "bin/plan: cannot read 'examples'" bin/plan 2 examples
says 2 "bin/plan: usage: bin/plan P FILE" bin/plan 2

# A file that is there and cannot be read has no answer, and a name is never taken for an option of the tool that reads it.
says 2 "bin/plan: cannot read '/proc/self/mem'" bin/plan 2 /proc/self/mem
for name in -p2.table -n -- --help; do
    cp examples/example.table "$work/$name"
    says 0 "$(cat tests/example.listing)" env -C "$work" "$PWD/bin/plan" 2 "$name"
done
says 2 "bin/plan: cannot read '-x'" env -C "$work" "$PWD/bin/plan" 2 -x

# A file without end is not read to its end; the standard input is read where it is asked for.
says 0 'refused 2 0' bin/plan 2 /dev/zero
says 2 "bin/plan: cannot read '-'" timeout 60 bash -c 'bin/plan 2 - <&-'
says 2 "bin/plan: cannot read '-'" bash -c 'bin/plan 2 - < examples'
[ "$(bin/plan 2 - < examples/example.table)" = "$(cat tests/example.listing)" ] || { echo "bin/plan 2 - does not read its input"; exit 1; }
echo "bin/plan says what docs/TABLE.md says, and takes no number that is not a byte"
