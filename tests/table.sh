#!/usr/bin/env bash
# What docs/TABLE.md says, tried: the table that it prints byte by byte is examples/example.table; each row of bytes below 'The order of
# tests' has the answer that stands behind it, and so has each plan below 'A plan by hand', for the example and one processor, and the text there
# is examples/example.hand; its Fortran loops,
# compiled as printed, leave the numbers that the table's run leaves; and its examples of the builders in C, Fortran and Rust, as printed, build
# that table.
set -eu
cd "$(dirname "$0")/.."
export CARGO_TARGET_DIR="${CARGO_TARGET_DIR:-$PWD/build/cargo}" VEMPALDI_LIB="${VEMPALDI_LIB:-$PWD/build}"
document=docs/TABLE.md
made=build/table
mkdir -p "$made"

wrong() {
    echo "$document: $1"
    exit 1
}

# The fenced block whose first line is ```NAME in the section of that heading, without its fences.
block() {
    awk -v heading="## $1" -v fence="\`\`\`$2" '
        /^## / { here = $0 == heading }
        open && /^```/ { exit }
        open { print }
        here && $0 == fence { open = 1 }' "$document"
}

# Bytes from hexadecimal digits, blanks between them or not.
bytes() {
    printf '%b' "$(printf '%s' "$1" | tr -d ' ' | sed 's/../\\x&/g')"
}

# A line is the place of the first byte, the bytes, and behind two blanks what they say.
byte_by_byte() {
    local place digits lines=0 at=0
    : > "$made/printed.table"
    while IFS= read -r line; do
        [[ $line =~ ^\ *([0-9]+)\ \ (([0-9a-f]{2}\ )+)\ +[a-z] ]] || wrong "no bytes in this line: $line"
        place=${BASH_REMATCH[1]} digits=${BASH_REMATCH[2]}
        [ "$place" -eq "$at" ] || wrong "this line begins at byte $at: $line"
        bytes "$digits" >> "$made/printed.table"
        at=$(wc -c < "$made/printed.table") lines=$((lines + 1))
    done < <(block 'A table byte by byte' '')
    [ "$lines" -eq 12 ] || wrong "$lines records are printed byte by byte, not 12"
    cmp examples/example.table "$made/printed.table" || wrong "the table printed byte by byte is not examples/example.table"
}

# A line is bytes, and behind two blanks the answer of `check --raw`, and behind two more a remark.
answers() {
    local digits answer rest said
    rows=0
    while IFS= read -r line; do
        [[ $line =~ ^([0-9a-f\ ]*)\ \ (accepted|refused( [0-9]+)+)\ \  ]] || wrong "no answer in this line: $line"
        digits=${BASH_REMATCH[1]} answer=${BASH_REMATCH[2]}
        bytes "$digits" > "$made/row.table"
        said=$("$CARGO_TARGET_DIR/release/vempaldi" check --raw "$made/row.table" || true)
        [ "$said" = "$answer" ] || wrong "the library says '$said' of this: $line"
        rows=$((rows + 1))
    done < <(block 'The order of tests' '')
    [ "$rows" -ge 20 ] || wrong "only $rows rows of bytes with their answers"
}

# A program that takes a table's file and the numbers of a plan, and prints what the library answers for one processor, as `check --raw` does; of an
# accepted plan the threshold too.
plan_program() {
    cat > "$made/plan.c" <<'C'
#include <inttypes.h>
#include <stdio.h>
#include <stdlib.h>
#include "vempaldi.h"
int main(int count, char **words) {
    static uint8_t table[VEMPALDI_DECIDING_BYTES], plan[1024];
    size_t length = 0;
    uint64_t answer[4];
    FILE *file = fopen(words[1], "rb");
    size_t bytes = file ? fread(table, 1, sizeof table, file) : 0;
    for (int i = 2; i < count; i++)
        for (int at = 0; at < 4; at++) plan[length++] = (uint8_t)(strtoul(words[i], NULL, 10) >> 8 * at);
    uint64_t threshold = vempaldi_check_plan(table, bytes, vempaldi_with_plan(vempaldi_for(1), plan, length), answer);
    if (!answer[0]) printf("accepted %" PRIu64 "\n", threshold);
    else if (answer[0] != VEMPALDI_UNMET) printf("refused %" PRIu64 " %" PRIu64 "\n", answer[0], answer[1]);
    else printf("refused %" PRIu64 " %" PRIu64 " %" PRIu64 "\n", answer[0], answer[1], answer[2]);
    return 0;
}
C
    gcc -std=c99 -Wall -Wextra -pedantic -Werror -Iinclude "$made/plan.c" -L"$VEMPALDI_LIB" -lvempaldi -o "$made/plan"
}

# A line is shift and peel of each loop, commas between the loops, the answer, and a remark, which may tell the threshold.
plans() {
    local numbers answer said
    plans=0
    plan_program
    while IFS= read -r line; do
        [[ $line =~ ^([0-9]+\ [0-9]+(, [0-9]+\ [0-9]+)*)\ +(accepted|refused( [0-9]+)+)\ + ]] || wrong "no answer in this line: $line"
        numbers=${BASH_REMATCH[1]} answer=${BASH_REMATCH[3]}
        said=$("$made/plan" examples/example.table ${numbers//,/})
        [ "${said/accepted */accepted}" = "$answer" ] || wrong "the library says '$said' of this: $line"
        [[ ! $line =~ threshold\ ([0-9]+) ]] || [ "$said" = "accepted ${BASH_REMATCH[1]}" ] || wrong "the library says '$said' of this: $line"
        plans=$((plans + 1))
    done < <(block 'A plan by hand' '')
    [ "$plans" -ge 8 ] || wrong "only $plans plans by hand with their answers"
    said=$(printf '2 0\n3 4\n' | "$CARGO_TARGET_DIR/release/vempaldi" plan --raw examples/example.table -p 2 --plan - || true)
    [ "$said" = "refused 11 0" ] || wrong "the library says '$said' of the plan 2 0, 3 4 with two processors"
    sed -n '/^## A plan by hand/,/^## /p' "$document" | sed '1,/^```$/d; 1,/^```$/d' | sed -n '/^```$/,/^```$/p' | sed '1d; $d' |
        diff - examples/example.hand || wrong "the text of a plan that it prints is not examples/example.hand"
}

# The loops that the table is made from, beginning with every element its own index, as `run` begins; the indices there count from 1.
fortran_loops() {
    {
        printf 'program loops\nimplicit none\ninteger :: i, file\n'
        block 'From a Fortran loop to a table' fortran | awk '/^do i/ && !begun++ { print "call begin" } { print }'
        printf "open (newunit=file, file='%s', access='stream', status='replace')\n" "$made/loops.memory"
        printf 'write (file) a0, a1, a2\nclose (file)\ncontains\nsubroutine begin\n'
        printf 'a0 = [(real(i - 1, 8), i = 1, 12)]\na1 = a0\na2 = a0\nend subroutine\nend program\n'
    } > "$made/loops.f90"
    gfortran -std=f2018 -Wall -Wextra -Werror -fcheck=all -J"$made" "$made/loops.f90" -o "$made/loops"
    rm -f "$made/loops.memory"
    "$made/loops"
    "$CARGO_TARGET_DIR/release/vempaldi" run examples/example.table -p 2 -o "$made/run.memory" > /dev/null
    cmp "$made/run.memory" "$made/loops.memory" || wrong "the Fortran loops leave other numbers than the table's run"
}

c_example() {
    {
        printf '#include "vempaldi_builder.h"\n#include <stdio.h>\nint main(void)\n{\n'
        block 'The builders' c
        printf 'return fwrite(b.bytes, 1, b.length, stdout) != b.length;\n}\n'
    } > "$made/c.c"
    gcc -std=c99 -Wall -Wextra -pedantic -Werror -Iinclude "$made/c.c" -o "$made/c"
    "$made/c" > "$made/c.table"
}

fortran_example() {
    {
        printf 'program example\nuse vempaldi_builder\nimplicit none\ninteger :: file\n'
        block 'The builders' fortran
        printf "open (newunit=file, file='%s', access='stream', status='replace')\n" "$made/fortran.table"
        printf 'write (file) b%%bytes(:b%%length)\nclose (file)\nend program\n'
    } > "$made/fortran.f90"
    gfortran -std=f2018 -Wall -Wextra -Werror -J"$made" bindings/fortran/vempaldi_builder.f90 "$made/fortran.f90" -o "$made/fortran"
    "$made/fortran"
}

rust_example() {
    {
        printf 'use std::io::Write;\nuse vempaldi::*;\nfn main() -> Result<(), Box<dyn std::error::Error>> {\n'
        block 'The builders' rust
        printf 'std::io::stdout().write_all(&table)?;\nOk(())\n}\n'
    } > "$made/rust.rs"
    cargo build --quiet --release --offline --manifest-path bindings/rust/Cargo.toml
    rustc --edition 2021 -D warnings --extern "vempaldi=$CARGO_TARGET_DIR/release/libvempaldi.rlib" -L "native=$VEMPALDI_LIB" \
        "$made/rust.rs" -o "$made/rust"
    "$made/rust" > "$made/rust.table"
}

cargo build --quiet --release --offline --manifest-path command/Cargo.toml
byte_by_byte
answers
plans
fortran_loops
for language in c fortran rust; do
    rm -f "$made/$language.table"
    "${language}_example"
    cmp examples/example.table "$made/$language.table" || wrong "the example of the builder in $language builds another table"
done
echo "$document: its bytes are the example's, $rows rows and $plans plans have their answers, its Fortran loops and its builders agree with it"
