#!/usr/bin/env bash
# tests/openmp.sh: compiles examples/openmp against the library of build/ and runs its checks. What it must print is counted by hand: a size
# has for each count of threads one run of the unfused loops and four of the fused ones. One time step has the shifts and peels 0 0 1 2,
# so the threshold 4; each further step adds 3 to both, so four have 11 and 22. 33 - 2 indices are too few for 8 blocks of 4, and 177 - 2
# for 8 of 22. In lines of 8, 31 and 32 indices are 4 lines; 175 and 176 are 22, of which 8 blocks would leave the last one 2, so 15 or 16 indices.
set -eu
cd "$(dirname "$0")/.."
library=${VEMPALDI_LIB:-build}
made=build/openmp
mkdir -p "$made"
export OMP_WAIT_POLICY=passive # up to eight threads on few cores: those that wait leave the core to others

fail() {
    echo "tests/openmp.sh: $*"
    exit 1
}

# Prints what a command says on both outputs, and last its exit status.
told() {
    local status=0
    "$@" 2>&1 || status=$?
    echo "status $status"
}

same() {
    [ "$2" = "$3" ] && return
    echo "tests/openmp.sh: $1 (expected on the left):"
    diff <(printf '%s\n' "$2") <(printf '%s\n' "$3") || true
    exit 1
}

says=' 4 loops,   33 sections, rivers: 1, lines of 1, threads: 1 to 7, runs: 35, wrong: 0
 4 loops,   34 sections, rivers: 1, lines of 1, threads: 1 to 8, runs: 40, wrong: 0
 4 loops, 1013 sections, rivers: 1, lines of 1, threads: 1 to 8, runs: 40, wrong: 0
 4 loops,   33 sections, rivers: 7, lines of 1, threads: 1 to 7, runs: 35, wrong: 0
 4 loops,   34 sections, rivers: 7, lines of 1, threads: 1 to 8, runs: 40, wrong: 0
 4 loops, 1013 sections, rivers: 7, lines of 1, threads: 1 to 8, runs: 40, wrong: 0
 4 loops,   33 sections, rivers: 1, lines of 8, threads: 1 to 4, runs: 20, wrong: 0
 4 loops,   34 sections, rivers: 1, lines of 8, threads: 1 to 4, runs: 20, wrong: 0
 4 loops, 1013 sections, rivers: 1, lines of 8, threads: 1 to 8, runs: 40, wrong: 0
16 loops,  177 sections, rivers: 1, lines of 1, threads: 1 to 7, runs: 35, wrong: 0
16 loops,  178 sections, rivers: 1, lines of 1, threads: 1 to 8, runs: 40, wrong: 0
16 loops, 1013 sections, rivers: 1, lines of 1, threads: 1 to 8, runs: 40, wrong: 0
16 loops,  177 sections, rivers: 7, lines of 1, threads: 1 to 7, runs: 35, wrong: 0
16 loops,  178 sections, rivers: 7, lines of 1, threads: 1 to 8, runs: 40, wrong: 0
16 loops, 1013 sections, rivers: 7, lines of 1, threads: 1 to 8, runs: 40, wrong: 0
16 loops,  177 sections, rivers: 1, lines of 8, threads: 1 to 7, runs: 35, wrong: 0
16 loops,  178 sections, rivers: 1, lines of 8, threads: 1 to 7, runs: 35, wrong: 0
16 loops, 1013 sections, rivers: 1, lines of 8, threads: 1 to 8, runs: 40, wrong: 0
all have the bits of the plain run
status 0'

# The bits must not depend on how far the compiler goes.
for options in -O2 "-O3 -march=native"; do
    gcc -std=c11 -Wall -Wextra -Werror -pedantic $options -fopenmp -ffp-contract=off -Iinclude examples/openmp/*.c \
        -L"$library" -lvempaldi -o "$made/river"
    same "the checks, compiled with $options" "$says" "$(told "$made/river")"
done

# A plan for eight processors holds on three threads too.
same "the checks with at most three threads" "$says" "$(export OMP_THREAD_LIMIT=3; told "$made/river")"

# Without the peeled parts, or without the barrier, every run of the fused loops with two threads or more goes wrong and no other: 7, 6 or 3
# counts of threads by 4 strip lengths.
for fault in peels barrier; do
    wrong=$(printf '%s\n' "$says" |
        sed -E 's/to 8(.*) wrong: 0/to 8\1 wrong: 28/; s/to 7(.*) wrong: 0/to 7\1 wrong: 24/; s/to 4(.*) wrong: 0/to 4\1 wrong: 12/')
    wrong=$(printf '%s\n' "$wrong" | sed 's/^all have.*/NOT the bits of the plain run: 448 runs/; s/^status.*/status 1/')
    same "the checks without $fault" "$wrong" "$(told "$made/river" --broken "$fault")"
done
# Without the shifts those go wrong that have more strips than one in a block: some in every size.
shiftless=$(told "$made/river" --broken shifts)
[ "$(grep -cE 'wrong: [1-9]' <<< "$shiftless")" -eq 18 ] || fail "without shifts not every size goes wrong: $shiftless"
grep -q '^status 1$' <<< "$shiftless" || fail "without shifts the status is not 1"

"$made/river" --table 200 1 | cmp - examples/river.table || fail "the table of 200 sections is not examples/river.table"
same "five time steps" "joining time steps: refused 4 crowd, place 0
status 1" "$(told "$made/river" --table 200 5)"
for words in "--time 200" "--time 200 x" "--time 200x 1" "--time 0 1" "--broken nothing" "--table 200 1 1" "x"; do
    told "$made/river" $words | grep -q '^status 2$' || fail "'$words' is not a usage error"
done

# The timed runs compare their bits too. A loop touches two arrays and writes one; fused, four are touched and four written.
timed=$(told "$made/river" --time 400 2)
grep -q '^status 0$' <<< "$timed" || fail "the timed runs: $timed"
for sweeps in "4  12 to 8" "8  24 to 8" "16  48 to 8"; do
    [ "$(grep -cE "^ +1 +$sweeps +[0-9]+ " <<< "$timed")" -eq 4 ] || fail "the timed runs don't have four lines of '$sweeps': $timed"
done
echo "examples/openmp: 650 runs, in three ways, have the plain run's bits; without shifts, peels or barrier they don't"
