#!/usr/bin/env bash
# tests/faults.sh [NAME..]: plants the faults of tests/faults/list in the library of build/ (or of the directory that VEMPALDI_LIB names),
# one at a time, and shows that the fuzzer and the programs of tests/ find each, as the list says. Without a fault the same archive passes
# both. All faults are in one archive, and the environment's VEMPALDI_FAULT chooses, so that everything is built once.
set -euo pipefail
cd "$(dirname "$0")/.."
own=$PWD/build/faults
inputs=12000

# Whether a run found something: it failed, and says what is wrong. A run that ends for another cause is not taken for one.
found() {
    local log=$1 sign=$2 status=0
    shift 2
    # In a shell of its own, so that a word on how it ended is not printed.
    (timeout 120 "$@" > "$log" 2>&1; exit "$?") 2> /dev/null || status=$?
    [ "$status" -eq 0 ] && return 1
    grep -qE "$sign" "$log" || { echo "faults: $VEMPALDI_FAULT: status $status with no finding in $log" >&2; exit 2; }
}
by_fuzzer() { found "$own/$VEMPALDI_FAULT.fuzz" '^BREACH in' "$own/driver" "$inputs" 1; }
by_memcheck() {
    found "$own/$VEMPALDI_FAULT.memcheck" '== (Invalid read|Conditional jump or move depends on uninitialised)' \
        valgrind --quiet --error-exitcode=1 --exit-on-first-error=yes "$own/driver" 300 1
}
by_tests() {
    local program=${1%%:*} part=
    [ "$program" = "$1" ] || part=${1#*:}
    found "$own/$VEMPALDI_FAULT.tests" 'disagree|wrong answer|not as alone|panicked at' "$own/$program" $part
}

# One fault, held to its line of the list.
one() {
    export VEMPALDI_FAULT=$1
    local by_inputs=blind checks=blind
    if by_fuzzer; then by_inputs=found; elif [ "$2" = memcheck ] && by_memcheck; then by_inputs=memcheck; fi
    if by_tests "${3#blind:}"; then checks=${3#blind:}; else checks=blind:${3#blind:}; fi
    printf '%-34s fuzzer: %-9s tests: %s\n' "$1" "$by_inputs" "$checks"
    [ "$by_inputs $checks" = "$2 $3" ] || { echo "faults: $1: the list says $2 and $3" >&2; return 1; }
}

programs="reading joining planning running threads"
build() {
    local library=${VEMPALDI_LIB:-build} source program path
    for program in driver $programs; do rm -f "$own/$program"; done
    rm -rf "$own/lib"
    mkdir -p "$own/lib"
    grep -oE '\bvempaldi_[a-z_]+\(' include/vempaldi.h | tr -d '(' | sort -u | sed 's/.*/& real_&/' > "$own/names"
    objcopy --redefine-syms="$own/names" "$library/libvempaldi.a" "$own/lib/libvempaldi.a"
    for source in tests/faults/*.c; do
        ${CC:-cc} -std=gnu11 -Wall -Wextra -O1 -g -Iinclude -c "$source" -o "$own/$(basename "$source" .c).o"
        ar r "$own/lib/libvempaldi.a" "$own/$(basename "$source" .c).o"
    done
    ${CC:-cc} -std=c11 -O1 -g -Iinclude fuzz/*.c -L"$own/lib" -lvempaldi -o "$own/driver"
    VEMPALDI_LIB=$own/lib CARGO_TARGET_DIR=$own/cargo cargo test --release --offline --manifest-path tests/Cargo.toml \
        --features planning,running --tests --no-run 2>&1 | tee "$own/cargo.log" |
        sed -nE 's/^ *Executable tests\/([a-z]+)\.rs \((.*)\)$/\1 \2/p' |
        while read -r program path; do cp "$path" "$own/$program"; done
    for program in $programs; do test -x "$own/$program"; done
}

# Without a fault nothing is found, by any part.
unfaulted() {
    local program
    unset VEMPALDI_FAULT
    "$own/driver" "$inputs" 1 > "$own/none.fuzz" 2>&1 || { cat "$own/none.fuzz"; return 1; }
    for program in $programs; do
        "$own/$program" > "$own/none.$program" 2>&1 || { cat "$own/none.$program"; return 1; }
    done
    # A name that plants nothing, but has the check of a plan done by hands.c: what is found with its faults is not for that code's own sake.
    export VEMPALDI_FAULT=check-plan-nothing
    "$own/driver" "$inputs" 1 > "$own/nothing.fuzz" 2>&1 || { cat "$own/nothing.fuzz"; return 1; }
    "$own/planning" by_hand > "$own/nothing.planning" 2>&1 || { cat "$own/nothing.planning"; return 1; }
    echo "without a fault: nothing found, by the fuzzer and by all programs"
}

# The parts that this script starts once more, so that a failure in them ends them.
case ${1:-} in
--one) one "$2" "$3" "$4"; exit ;;
--build) build; exit ;;
esac
for name in "$@"; do grep -qE "^$name " tests/faults/list || { echo "faults: $name is not in the list" >&2; exit 2; }; done
mkdir -p "$own"
: > "$own/cargo.log"
bash tests/faults.sh --build > "$own/build.log" 2>&1 || { cat "$own/build.log" "$own/cargo.log"; exit 1; }
lines=$(grep -vE '^#|^$' tests/faults/list | awk '{print "--one", $1, $2, $3}')
[ $# -eq 0 ] || lines=$(for name in "$@"; do printf '%s\n' "$lines" | grep -E " $name "; done)
if [ $# -gt 0 ]; then
    printf '%s\n' "$lines" | xargs -L 1 bash tests/faults.sh
    exit
fi
unfaulted & control=$!
failed=0
printf '%s\n' "$lines" | xargs -P 2 -L 1 bash tests/faults.sh || failed=1
wait "$control" || failed=1
[ "$failed" -eq 0 ] && echo "faults: $(printf '%s\n' "$lines" | wc -l) planted, each found as tests/faults/list says"
exit "$failed"
