#!/usr/bin/env bash
# Every procedure of the Fortran module on every table of examples/, for several numbers of processors and lengths of lines, with plans by hand,
# and on refused ones. What tests/fortran/calls.f90 must print is made from the proved program's listing (bin/plan) and from the table's text; with
# lines, from the listing that tests/lines.awk works out, with a plan by hand after tests/by-hand.awk.
set -eu
cd "$(dirname "$0")/.."
library=${VEMPALDI_LIB:-build}
made=build/fortran
mkdir -p "$made"
gfortran -std=f2018 -Wall -Wextra -Werror -fcheck=all -J"$made" bindings/fortran/vempaldi.f90 tests/fortran/calls.f90 \
    -L"$library" -lvempaldi -o "$made/calls"
version=$(sed -nE 's/^#define VEMPALDI_VERSION ([0-9]+).*/\1/p' include/vempaldi.h)
runs=0

# The answer of each call that follows.
answers() {
    local numbers=$1 call
    shift
    for call; do echo "answer $call $numbers"; done
}

# Arrays, bounds and elements, from the text.
facts() {
    awk '
        $1 == "array" { print "array", arrays++, elements + 0, $3; elements += $3 }
        $1 == "loop" { bounds = bounds "bounds " loops++ " " $2 " " $3 "\n" }
        END { printf "%s", bounds; print "elements", elements }' "$1"
}

# All lists, from the listing: processor, phase, and in the order of the list loop and index. A fused list (0) rises in index plus shift, equal
# sums in loop order; a peeled one (1) goes loop by loop.
lists() {
    awk '
        $1 == "loop" { shift[$2] = $3 }
        $1 == "fused" { for (i = $4; i <= $5; i++) print $2, 0, i + shift[$3], $3, i }
        $1 == "peeled" { for (i = $4; i <= $5; i++) print $2, 1, 0, $3, i }' | sort -n -k1,1 -k2,2 -k3,3 -k4,4 -k5,5
}

# What is told of each processor: its ranges, as the listing has them, and its lists.
of_processors() {
    awk -v processors="$1" '
        function answers(one, other) { print "answer " one " 0 0 0 0"; print "answer " other " 0 0 0 0" }
        FILENAME == ARGV[1] { list[$1] = list[$1] ($2 ? "peeled" : "fused") "-iteration " $1 " " $4 " " $5 "\n"; next }
        $1 == "fused" || $1 == "peeled" { part[$2] = part[$2] $0 "\n" }
        END {
            for (b = 0; b < processors; b++) {
                answers("fused ranges", "peeled ranges")
                printf "%s", part[b]
                answers("fused list", "peeled list")
                printf "%s", list[b]
            }
        }' "$made/lists" -
}

# The largest sum of shift and peel of one loop of a listing.
threshold() {
    awk -v name="$1" '$1 == "loop" && most < $3 + $4 { most = $3 + $4 } END { print name, most + 0 }'
}

# of_table ANSWER LINE: what every plan has, whether or not it is accepted for so many processors: numbers of the table, and between them the
# answer to the plan and the line of its threshold.
of_table() {
    echo "version $version"
    answers "0 0 0 0" check facts
    facts "$text"
    answers "0 0 0 0" amounts
    printf '%s\n' "$one" | grep '^loop '
    answers "0 0 0 0" threshold
    printf '%s\n' "$one" | threshold threshold
    answers "$1" "check plan"
    echo "$2"
    answers "0 0 0 0" sweeps
    printf '%s\n' "$one" | grep '^sweeps '
}

joined() {
    local arrays
    arrays=$(grep -c '^array ' "$text")
    answers "0 0 0 0" join
    echo "joined-bytes $((2 * $(wc -c < "$table") - 5 * arrays - 1))"
}

accepted() {
    local processors=$1 listing=$2 own iterations
    of_table "0 0 0 0" "$(printf '%s\n' "$listing" | threshold plan-threshold)"
    answers "0 0 0 0" blocks
    printf '%s\n' "$listing" | grep '^block '
    printf '%s\n' "$listing" | lists > "$made/lists"
    printf '%s\n' "$listing" | of_processors "$processors"
    answers "10 0 0 0" "fused ranges" "peeled ranges" "fused list" "peeled list"
    answers "0 0 0 0" listing
    echo "listing-bytes $(printf '%s\n' "$listing" | wc -c)"
    joined
    # The order names processor 0 twice, then one that there is not.
    own=$(grep -c '^0 0 ' "$made/lists" || true)
    iterations=$(awk '$1 == "loop" { n += $3 - $2 + 1 } END { print n }' "$text")
    answers "0 0 0 0" "plain run" run
    echo "idle $((own < 2 ? 3 - own : 1))"
    answers "10 0 0 0" step
    printf '%s\n' "performed $iterations $iterations" "finished T" "alike T T"
    answers "12 0 0 0" "longer memory"
}

# A plan that is refused with 19, 20, 10, 17 or 11. The processor behind the last one is refused with 10 before 17 and 11.
refused() {
    local processors=$1 ground=$2 place=$3 named=${4:-0} plan behind b
    plan="$ground $place $named 0" behind="10 0 0 0"
    case $ground in 19 | 20) behind=$plan ;; esac
    of_table "$plan" "plan-threshold -1"
    answers "$plan" blocks
    for ((b = 0; b < processors; b++)); do answers "$plan" "fused ranges" "peeled ranges" "fused list" "peeled list"; done
    answers "$behind" "fused ranges" "peeled ranges" "fused list" "peeled list"
    answers "$plan" listing
    echo "listing-bytes 0"
    joined
    answers "0 0 0 0" "plain run"
    answers "$plan" run
    echo "idle 0"
    answers "$behind" step
    printf '%s\n' "performed 0 0" "finished $([ "$processors" -eq 0 ] && echo T || echo F)" "alike F F"
    answers "12 0 0 0" "longer memory"
}

# A table that is refused: each call gives the same answer, and nothing else.
no_table() {
    echo "version $version"
    answers "$1" check facts
    echo "elements -1"
    answers "$1" amounts threshold
    echo "threshold -1"
    answers "$1" "check plan"
    echo "plan-threshold -1"
    answers "$1" sweeps
    echo "sweeps -1 -1"
    answers "$1" blocks "fused ranges" "peeled ranges" "fused list" "peeled list" "fused ranges" "peeled ranges" "fused list" "peeled list"
    answers "$1" listing
    echo "listing-bytes 0"
    answers "$1" join
    echo "joined-bytes 0"
    answers "$1" "plain run" run
    echo "idle 0"
    answers "$1" step
    printf '%s\n' "performed 0 0" "finished F" "alike T T"
    answers "$1" "longer memory"
}

# same FILE P [W [EXTENT NUMBER..]]: the program says what is in $made/expected.
same() {
    runs=$((runs + 1))
    "$made/calls" "$@" > "$made/told" 2>&1 || true
    if ! cmp -s "$made/expected" "$made/told"; then
        echo "the Fortran module with $*; < is expected, > what it says:"
        diff "$made/expected" "$made/told" | head -20
        exit 1
    fi
}

# try P LISTING [W [EXTENT NUMBER..]]: what the program says where the listing is this one.
try() {
    local processors=$1 listing=$2
    shift 2
    case $listing in
    refused*) refused "$processors" ${listing#refused } > "$made/expected" ;;
    *) accepted "$processors" "$listing" > "$made/expected" ;;
    esac
    same "$table" "$processors" "$@"
}

# The listing with lines of W iterations.
with_lines() {
    awk -v processors="$1" -v line="$2" -f tests/lines.awk <(printf '%s\n' "$one") "$text"
}

# try_plan P W NUMBER..: with a plan by hand of pairs.
try_plan() {
    local processors=$1 line=$2 own
    shift 2
    own=$(awk -v plan="$*" -f tests/by-hand.awk <(printf '%s\n' "$one") "$text")
    case $own in
    refused*) try "$processors" "$own" "$line" 2 "$@" ;;
    *) try "$processors" "$(awk -v processors="$processors" -v line="$line" -f tests/lines.awk <(printf '%s\n' "$own") "$text")" "$line" 2 "$@" ;;
    esac
}

# The table's own numbers by hand, higher ones, numbers that are too low or too high, too few and too many; and its own, but not in pairs.
try_plans() {
    local own higher both
    own=$(printf '%s\n' "$one" | awk '$1 == "loop" { print $3, $4 }' | paste -sd ' ')
    higher=$(awk '{ for (at = 1; at <= NF; at++) print $at + 1 + at % 2 }' <<< "$own" | paste -sd ' ')
    for both in "1 1" "2 1" "3 4" "65 65"; do
        try_plan $both $own
        try_plan $both $higher
        try_plan $both $(sed 's/^0 0/1 0/' <<< "$own")
        try_plan $both $(sed 's/[0-9]*$/0/' <<< "$own")
        try_plan $both $(sed 's/[0-9]*$/10000/' <<< "$own")
        try_plan $both $(sed 's/[0-9]*$/10001/' <<< "$own")
        try_plan $both $(sed 's/^[0-9]*/4294967295/' <<< "$own")
        try_plan $both $own 0 0
        try_plan $both $own $own $own $own $own $own $own $own $own
        try_plan $both $(sed 's/ [0-9]* [0-9]*$//' <<< "$own")
        try ${both% *} "refused 19 0" ${both#* } 1 $own
        try ${both% *} "refused 19 0" ${both#* } 4 $own $own
    done
}

for table in examples/*.table; do
    text=${table%.table}.txt
    one=$(bin/plan 1 "$table")
    for processors in 0 1 2 3 5 6 8 17 64 65; do
        listing=$(bin/plan "$processors" "$table")
        [ "$listing" = "$(with_lines "$processors" 1)" ] || { echo "tests/lines.awk: not bin/plan $processors $table"; exit 1; }
        try "$processors" "$listing"
        try "$processors" "$listing" 1
    done
    try_plans
    for line in 0 2 4 7 8 63 64 65 260; do
        for processors in 0 1 2 3 8 65; do try "$processors" "$(with_lines "$processors" "$line")" "$line"; done
    done
done
# A0[i] = A0[i] + A0[i+10] + A0[i+9] + A0[i+1], 1 to 10: the references 3 and 4 meet the destination, 0, in another iteration.
printf '\1\25\0\0\0\2\1\0\0\0\12\0\0\0\0\0\0\3\0\0\0\3\0\12\0\5\1\3\0\11\0\5\1\3\0\1\0\5\1\6' > "$made/serial.table"
no_table "9 0 0 3" > "$made/expected"
same "$made/serial.table" 1
# A1[i] = A0[i]; A0[i+1] = 5, 1 to 10: the read, 1, meets the second destination, 2, in another iteration.
printf '\1\14\0\0\0\1\14\0\0\0\2\1\0\0\0\12\0\0\0\1\0\0\3\0\0\0\7\0\1\0\4\5\0\0\0\6' > "$made/serial.table"
no_table "9 0 1 2" > "$made/expected"
same "$made/serial.table" 1
head -c 60 examples/example.table > "$made/torn.table"
no_table "1 60 0 0" > "$made/expected"
same "$made/torn.table" 1
same "$made/torn.table" 1 0
echo "the Fortran module: $runs runs of every procedure, as the proved program and the texts of the tables say"
