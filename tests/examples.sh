#!/usr/bin/env bash
# tests/examples.sh c|rust|fortran: compiles that example against the library of build/ and runs it on every table of examples/ for several
# numbers of processors, on tables that are refused, and with arguments that are no good.
# What it must print is made without it and without the library. The listing is the proved program's (bin/plan), and for the example on two
# processors the typed one; with lines it is worked out by tests/lines.awk, and what a plan by hand comes to before by tests/by-hand.awk. Counts are
# added up from that listing and from the table's text; the numbers are worked out from the text.
set -eu
cd "$(dirname "$0")/.."
case ${1:-} in
c | rust | fortran) language=$1 ;;
*) echo "usage: tests/examples.sh c|rust|fortran" >&2; exit 2 ;;
esac
library=${VEMPALDI_LIB:-build}
export CARGO_TARGET_DIR="$PWD/build/cargo"
made=build/examples
mkdir -p "$made"
runs=0

compile() {
    case $language in
    c)
        gcc -std=c11 -Wall -Wextra -Werror -pedantic examples/c/example.c $(pkg-config --cflags --libs "$library/vempaldi.pc") -o "$made/c"
        ;;
    rust)
        cargo build --quiet --release --offline --manifest-path bindings/rust/Cargo.toml --example example
        cp "$CARGO_TARGET_DIR/release/examples/example" "$made/rust"
        ;;
    fortran)
        gfortran -std=f2018 -Wall -Wextra -Werror -fcheck=all -J"$made" bindings/fortran/vempaldi.f90 examples/fortran/example.f90 \
            -L"$library" -lvempaldi -o "$made/fortran"
        ;;
    esac
}

# says STATUS OUTPUT ERRORS WORD..: what the example does with these words.
says() {
    local status=$1 output=$2 errors=$3 told=0
    shift 3
    runs=$((runs + 1))
    "$made/$language" "$@" > "$made/output" 2> "$made/errors" || told=$?
    if [ "$told" -ne "$status" ] || [ "$(cat "$made/output")" != "$output" ] || [ "$(cat "$made/errors")" != "$errors" ]; then
        echo "the $language example with $*: status $told, and $status is expected; < is expected, > what it says:"
        diff <(printf '%s\n' "$output" "$errors") <(printf '%s\n' "$(cat "$made/output")" "$(cat "$made/errors")") || true
        exit 1
    fi
}

# The iterations that the listing has before the barrier for a processor, and the threshold: the largest sum of shift and peel of one loop.
added_up() {
    awk -v processor="$1" '
        $1 == "loop" && threshold < $3 + $4 { threshold = $3 + $4 }
        $1 == "fused" && $2 == processor { count += $5 - $4 + 1 }
        END { print count + 0, threshold + 0 }'
}

# What an accepted table's example prints, from its listing.
expected() {
    local listing=$1 processors=$2 own threshold
    read -r own threshold < <(printf '%s\n' "$listing" | added_up $((processors - 1)))
    printf '%s\n' "$listing" "threshold $threshold"
    # The last processor is named for every iteration, and idles past its own.
    [ "$language" != fortran ] || echo "idle $((iterations - own))"
    printf '%s\n' "$iterations iterations on $elements elements, same bits as the plain run" "$last_array"
}

# The line of a refusal, from the call that is refused, number, word and place; two references for 9, a loop for 20.
refusal() {
    local call=$1 number=$2 word=$3 place=$4 named=${5:-} other=${6:-}
    if [ "$language" != rust ]; then
        case $number in
        9) named=", references $named and $other" ;;
        20) named=", loop $named" ;;
        esac
        echo "$call: refused $number $word, place $place$named"
        return
    fi
    case $number in
    1) echo "refused 1 torn at byte $place: the bytes end inside a record or before the end record" ;;
    2) echo "refused 2 kind at byte $place: a kind is unknown or out of its order, or there is no array or loop before the end" ;;
    6) echo "refused 6 body at byte $place: too few waiting numbers, a ninth, or not one left" ;;
    8) echo "refused 8 tail at byte $place: bytes follow the end record" ;;
    9) echo "refused 9 serial at loop $place, references $named and $other: two different iterations of one loop meet at an element, one storing" ;;
    10) echo "refused 10 processors: P is outside 1 to 64, or a processor's number is not below P" ;;
    11) echo "refused 11 short: fewer lines than processors, or a block below the threshold" ;;
    17) echo "refused 17 line: a line's length is outside 1 to 64" ;;
    19) echo "refused 19 plan: a plan by hand has not 8 bytes for each loop, or a number above 10,000" ;;
    20) echo "refused 20 unmet from loop $place to loop $named: a plan by hand does not meet some dependence" ;;
    esac
}

# try LISTING P [W [SHIFT PEEL]..]: what the example says where the listing is this one.
try() {
    local listing=$1
    shift
    case $listing in
    "refused 19 0") says 1 "" "$(refusal listing 19 plan 0)" "$table" "$@" ;;
    "refused 20 "*) says 1 "" "$(refusal listing 20 unmet ${listing#refused 20 })" "$table" "$@" ;;
    "refused 10 0") says 1 "" "$(refusal listing 10 processors 0)" "$table" "$@" ;;
    "refused 11 0") says 1 "" "$(refusal listing 11 short 0)" "$table" "$@" ;;
    "refused 17 0") says 1 "" "$(refusal listing 17 line 0)" "$table" "$@" ;;
    *) says 0 "$(expected "$listing" "$1")" "" "$table" "$@" ;;
    esac
}

# The numbers of the table, which depend on no plan, and the plan for one processor.
take_table() {
    table=$1 text=${1%.table}.txt
    { read -r last_array; read -r elements iterations; } < <(awk -f tests/text-run.awk "$text")
    one=$(bin/plan 1 "$table")
}

try_tables() {
    local processors name
    for name in examples/*.table; do
        take_table "$name"
        for processors in 0 1 2 3 4 5 6 7 8 13 31 63 64 65 255; do try "$(bin/plan "$processors" "$table")" "$processors"; done
    done
}

# With a second number, lines of so many iterations.
try_lines() {
    local processors line name
    for name in examples/*.table; do
        take_table "$name"
        for line in 0 1 2 4 7 8 63 64 65 260 4294967295; do
            for processors in 0 1 2 3 8 65; do
                try "$(awk -v processors="$processors" -v line="$line" -f tests/lines.awk <(printf '%s\n' "$one") "$text")" "$processors" "$line"
            done
        done
    done
}

# The listing with lines of W iterations and a plan by hand.
by_hand() {
    local processors=$1 line=$2 own
    own=$(awk -v plan="$3" -f tests/by-hand.awk <(printf '%s\n' "$one") "$text")
    case $own in
    refused*) echo "$own" ;;
    *) awk -v processors="$processors" -v line="$line" -f tests/lines.awk <(printf '%s\n' "$own") "$text" ;;
    esac
}

# Plans for a table, one a line: its own; all shifts or all peels higher by two; each number alone one lower (or one higher, where it is 0) and as
# high as a number may be; one that is too high; half a pair, a pair and all pairs more; all but one pair.
plans() {
    printf '%s\n' "$one" | awk '
        function tell(at, value, k) {
            for (k = 0; k < n; k++) printf "%s%s", k == at ? value : own[k], k < n - 1 ? " " : ""
            return ""
        }
        $1 == "loop" { own[n++] = $3; own[n++] = $4 }
        END {
            print tell(-1)
            for (side = 0; side < 2; side++) {
                for (k = 0; k < n; k++) printf "%s ", own[k] + 2 * (k % 2 == side)
                print ""
            }
            for (k = 0; k < n; k++) { print tell(k, own[k] ? own[k] - 1 : 1); print tell(k, 10000) }
            print tell(n - 1, 10001); print tell(0, "4294967295"); print tell(1, 65536)
            print tell(-1) " 0"; print tell(-1) " 0 0"; print tell(-1) " " tell(-1)
            for (k = 0; k < n - 2; k++) printf "%s ", own[k]
            print ""
        }'
}

# With numbers behind the line, a plan by hand.
try_plans() {
    local both name plan
    for name in examples/*.table; do
        take_table "$name"
        while read -r plan; do
            [ -n "$plan" ] || continue
            for both in "1 1" "2 1" "3 4" "65 65"; do try "$(by_hand $both "$plan")" $both $plan; done
        done < <(plans)
    done
}

# The example on two processors by what is typed; Fortran takes two where it is given no number.
try_typed() {
    elements=36 iterations=20 last_array="last array:$(printf ' %s.000' 0 3 6 8 10 12 14 16 18 20 21 11)"
    typed=$(expected "$(cat tests/example.listing)" 2)
    says 0 "$typed" "" examples/example.table 2
    says 0 "$typed" "" examples/example.table 00000000002
    says 0 "$typed" "" examples/example.table 2 5
    [ "$language" != fortran ] || says 0 "$typed" "" examples/example.table
    # The plan of examples/example.hand: of the first block's five indices three are fused in loop 1, and 4 to 6 are peeled.
    local listing
    listing=$(sed 's/^loop 1 1 1/loop 1 2 1/; s/^fused 0 1 1 4/fused 0 1 1 3/; s/^peeled 0 1 5 6/peeled 0 1 4 6/' tests/example.listing)
    says 0 "$(expected "$listing" 2)" "" examples/example.table 2 1 $(sed 's/#.*//' examples/example.hand)
    table=examples/example.table
    try "refused 20 0 1" 2 1 0 0 0 1
    try "refused 20 0 1" 2 1 3 2 3 3
    try "refused 19 0" 2 1 0 0 10001 1
    try "refused 19 0" 2 1 0 0
    try "refused 19 0" 2 1 0 0 1
    try "refused 11 0" 2 1 2 0 3 4
    try "refused 19 0" 65 65 0
    try "refused 20 0 1" 65 65 0 0 0 0
}

# 1 to 10, A0 of 21 elements, A0[i] = A0[i] + A0[i+10] + A0[i+9] + A0[i+1]: the references 3 and 4 meet the destination, 0, in another iteration.
serial_table() {
    printf '\1\25\0\0\0'
    printf '\2\1\0\0\0\12\0\0\0\0\0\0'
    printf '\3\0\0\0\3\0\12\0\5\1\3\0\11\0\5\1\3\0\1\0\5\1\6'
}

# A read before the destination that it meets: 1 to 10, A1[i] = A0[i]; A0[i+1] = 5. Iteration 2 reads A0[2] as reference 1, which iteration 1 stores as reference 2.
serial_statements() {
    printf '\1\14\0\0\0\1\14\0\0\0'
    printf '\2\1\0\0\0\12\0\0\0\1\0\0\3\0\0\0'
    printf '\7\0\1\0\4\5\0\0\0\6'
}

# Sixteen arrays, fifteen of the longest loops that are accepted (four statements with 18 constants and 14 sums in all), and one of 21 constants
# and 11 sums whose last statement leaves seven numbers. The end record, byte 2,361, finds them. No refusal lies further on.
longest_table() {
    longest_loops
    repeat 11 "$constant$sum"
    repeat 3 "$statement$constant"
    repeat 6 "$constant"
    printf '\6'
}

# The same with 20 constants and 10 sums before, of which eight wait, and a ninth: its record begins at byte 2,359 and ends with byte 2,363. No
# record that is looked at ends further on.
deciding_table() {
    longest_loops
    repeat 10 "$constant$sum"
    repeat 3 "$statement$constant"
    repeat 8 "$constant"
}

# The arrays, the fifteen loops, and the sixteenth with its first constant.
constant='\4\1\0\0\0' sum='\5\1' head='\2\0\0\0\0\0\0\0\0\0\0\0' statement='\7\0\0\0'
longest_loops() {
    local n
    repeat 16 '\1\1\0\0\0'
    for n in {1..15}; do
        printf "$head$constant"
        repeat 14 "$constant$sum"
        repeat 3 "$statement$constant"
    done
    printf "$head$constant"
}

# repeat COUNT BYTES
repeat() {
    local n
    for ((n = 0; n < $1; n++)); do printf "$2"; done
}

try_refused() {
    local table=$made/refused.table
    serial_table > "$table"
    says 1 "" "$(refusal facts 9 serial 0 0 3)" "$table" 2
    serial_statements > "$table"
    says 1 "" "$(refusal facts 9 serial 0 1 2)" "$table" 2
    longest_table > "$table"
    [ "$(wc -c < "$table")" -eq 2362 ] || { echo "the longest refused table has $(wc -c < "$table") bytes, not 2362"; exit 1; }
    says 1 "" "$(refusal facts 6 body 2361)" "$table" 2
    head -c 3000 /dev/zero >> "$table"
    says 1 "" "$(refusal facts 6 body 2361)" "$table" 2
    head -c 2361 "$table" > "$made/torn.table"
    says 1 "" "$(refusal facts 1 torn 2361)" "$made/torn.table" 2
    deciding_table > "$table"
    [ "$(wc -c < "$table")" -eq 2364 ] || { echo "the longest that is looked at has $(wc -c < "$table") bytes, not 2364"; exit 1; }
    head -c 3000 /dev/zero >> "$table"
    says 1 "" "$(refusal facts 6 body 2359)" "$table" 2
    head -c 2363 "$table" > "$made/torn.table"
    says 1 "" "$(refusal facts 1 torn 2359)" "$made/torn.table" 2
    : > "$table"
    says 1 "" "$(refusal facts 1 torn 0)" "$table" 2
    head -c 60 examples/example.table > "$table"
    says 1 "" "$(refusal facts 1 torn 60)" "$table" 2
    cat examples/example.table README.md > "$table"
    says 1 "" "$(refusal facts 8 tail 61)" "$table" 2
    says 1 "" "$(refusal facts 2 kind 0)" README.md 2
    says 1 "" "$(refusal listing 10 processors 0)" examples/example.table 4294967295
}

try_words() {
    local word usage="usage: example FILE P [W [SHIFT PEEL]..]"
    [ "$language" != fortran ] || usage="usage: example FILE [P [W [SHIFT PEEL]..]]"
    for word in two '' -1 +2 ' 2' '2 ' 2x 0x2 2.0 4294967296 18446744073709551618; do
        says 2 "" "example: P is a number from 0 to 4294967295, not '$word'" examples/example.table "$word"
        says 2 "" "example: W is a number from 0 to 4294967295, not '$word'" examples/example.table 2 "$word"
        says 2 "" "example: a shift is a number from 0 to 4294967295, not '$word'" examples/example.table 2 1 "$word"
        says 2 "" "example: a peel is a number from 0 to 4294967295, not '$word'" examples/example.table 2 1 0 0 1 "$word"
    done
    says 2 "" "$usage"
    [ "$language" = fortran ] || says 2 "" "$usage" examples/example.table
    says 2 "" "example: cannot read 'no-such-file'" no-such-file 2
    says 2 "" "example: cannot read 'examples'" examples 2
}

# Words that are no UTF-8: a file's name may be one. Rust shows such a byte as the sign for what is no character.
try_bytes() {
    local byte=$'\xff' shown=$'\xff'
    [ "$language" != rust ] || shown=$'\xef\xbf\xbd'
    says 2 "" "example: P is a number from 0 to 4294967295, not '2$shown'" examples/example.table "2$byte"
    says 2 "" "example: cannot read 'no-such-$shown'" "no-such-$byte" 2
    cp examples/example.table "$made/$byte.table"
    says 0 "$typed" "" "$made/$byte.table" 2
    rm "$made/$byte.table"
}

compile
try_tables
try_lines
try_plans
try_typed
try_refused
try_words
try_bytes
echo "the $language example: $runs runs, as the proved program, the texts of the tables and what is typed here say"
