#!/usr/bin/env bash
# Compiles and runs the examples of docs/REFUSALS.md that are in C, those of 13, 15, 17, 19 and 20, as they are printed there, on
# examples/example.table. A comment in each says 'answer is' and four numbers: the call must answer these, and the first of them must be the
# section's own number.
set -eu
cd "$(dirname "$0")/.."
library=${VEMPALDI_LIB:-build}
made=build/refusals
mkdir -p "$made"

# The indented lines of a section, but for a command and what it says.
printed() {
    awk -v head="## $1 " '
        /^## / { here = index($0, head) == 1 }
        !/^    / { command = 0 }
        /^    .*bin\/vempaldi / { command = 1 }
        here && /^    / && !command { print substr($0, 5) }' docs/REFUSALS.md
}

# The lines in a program that has what they name. An answer that no call has written is none that an example can say.
program() {
    cat <<'C'
#include <inttypes.h>
#include <stdio.h>

#include "vempaldi.h"

int main(void) {
    static uint8_t table[VEMPALDI_TABLE_BYTES], out[VEMPALDI_LISTING_BYTES];
    static double memory[36];
    uint32_t report[3] = {0, 0, 0};
    uint64_t answer[4] = {UINT64_MAX, UINT64_MAX, UINT64_MAX, UINT64_MAX};
    (void)out, (void)memory, (void)report;
    FILE *file = fopen("examples/example.table", "rb");
    if (!file) return 2;
    size_t length = fread(table, 1, sizeof table, file);
    fclose(file);
C
    printf '%s\n' "$1"
    cat <<'C'
    for (int i = 0; i < 4; i++) printf("%" PRIu64 "%s", answer[i], i < 3 ? ", " : "\n");
    return 0;
}
C
}

wrong() {
    echo "docs/REFUSALS.md, section $1: $2"
    exit 1
}

for number in 13 15 17 19 20; do
    lines=$(printed "$number")
    says=$(printf '%s\n' "$lines" | sed -nE 's/.*answer is ([0-9]+(, [0-9]+){3}) \*\/.*/\1/p')
    case $says in
    "$number, "*) ;;
    *) wrong "$number" "its lines in C must say 'answer is $number, ..' and say '$says'" ;;
    esac
    program "$lines" > "$made/$number.c"
    gcc -std=c11 -Wall -Wextra -Werror -pedantic "$made/$number.c" $(pkg-config --cflags --libs "$library/vempaldi.pc") -o "$made/$number"
    told=$("$made/$number") || wrong "$number" "its program ends with a status other than 0"
    [ "$told" = "$says" ] || wrong "$number" "the answer is $told, not $says"
done
echo "docs/REFUSALS.md: the examples of 13, 15, 17, 19 and 20 answer what they say"
