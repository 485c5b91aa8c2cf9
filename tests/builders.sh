#!/usr/bin/env bash
# The builders of tables in C, Fortran and Rust. Each is given the same scripts of calls, and all must give the same bytes: the tables of
# examples/, calls at the ends of what a field holds (typed, with what they give, in tests/builders/edges.txt), the room's end, and random
# calls. Accepted tables must be what `vempaldi make` writes for the same table as a text, byte for byte.
set -eu
cd "$(dirname "$0")/.."
export CARGO_TARGET_DIR="${CARGO_TARGET_DIR:-$PWD/build/cargo}" VEMPALDI_LIB="${VEMPALDI_LIB:-$PWD/build}"
made=build/builders
mkdir -p "$made/texts"
seed=20 fair=300 wild=300

wrong() {
    echo "builders: $1"
    exit 1
}

# The bytes of a file in hexadecimal, in one line.
hexadecimal() {
    od -An -v -tx1 "$1" | tr -d ' \n'
    echo
}

compile() {
    local strict="-Wall -Wextra -pedantic -Wconversion -Werror -Iinclude"
    gcc -std=c99 $strict tests/builders/build.c -o "$made/c"
    g++ -std=c++11 -x c++ $strict tests/builders/build.c -o "$made/c++"
    gfortran -std=f2018 -Wall -Wextra -Werror -fcheck=all -J"$made" bindings/fortran/vempaldi_builder.f90 tests/builders/build.f90 \
        -o "$made/fortran"
    cargo build --quiet --release --offline --manifest-path command/Cargo.toml
}

build_c() { "$made/c" < "$1" > "$2"; }
build_cxx() { "$made/c++" < "$1" > "$2"; }
build_fortran() { "$made/fortran" < "$1" > "$2"; }
build_rust() {
    VEMPALDI_BUILDER_SCRIPT=$PWD/$1 VEMPALDI_BUILDER_LINES=$PWD/$2 \
        cargo test --quiet --release --offline --manifest-path bindings/rust/Cargo.toml --test builder a_script_is_built > "$made/rust.log" ||
        { cat "$made/rust.log"; wrong "the Rust builder fails on $1"; }
}

# all_build SCRIPT LINES: every builder makes the calls of a script, and what it says must be LINES, a file.
all_build() {
    local language
    for language in c cxx fortran rust; do
        rm -f "$made/lines.$language"
        "build_$language" "$1" "$made/lines.$language"
        cmp "$2" "$made/lines.$language" || wrong "$language builds other tables than $2 has, from $1"
    done
}

# The tables of examples/, from their texts.
examples() {
    local name
    : > "$made/examples.script"
    for name in boundary coast example jacobi ll18 reach river; do
        awk -f tests/builders/from-text.awk "examples/$name.txt" > "$made/one.script"
        cat "$made/one.script" >> "$made/examples.script"
        echo "0 $(wc -l < "$made/one.script") $(wc -c < "examples/$name.table") x$(hexadecimal "examples/$name.table")"
    done > "$made/examples.lines"
    all_build "$made/examples.script" "$made/examples.lines"
}

# Fields' ends as they are typed; then 475 arrays, which fill the room: there is none for an array more nor, after that error, for an end.
edges() {
    grep -v '^#' tests/builders/edges.txt | grep '|\|^end' | sed 's/ | /\n/g' > "$made/edges.script"
    grep '^[0-9]' tests/builders/edges.txt > "$made/edges.lines"
    [ "$(wc -l < "$made/edges.lines")" -eq 26 ] || wrong "edges.txt has not its 26 tables"
    yes 'array 1' | head -n 476 >> "$made/edges.script"
    echo end >> "$made/edges.script"
    echo "2 475 2375 x$(yes 0101000000 | head -n 475 | tr -d '\n')" >> "$made/edges.lines"
    all_build "$made/edges.script" "$made/edges.lines"
}

# Accepted tables, and what `make` writes for their texts.
made_tables() {
    local at
    awk -v seed=$seed -v count=$fair -v wild=0 -f tests/builders/random.awk > "$made/fair.script"
    [ "$(grep -c '^statement ' "$made/fair.script")" -ge 1000 ] || wrong "fewer than 1000 further statements in the random tables"
    awk -v directory="$made/texts" -f tests/builders/to-text.awk "$made/fair.script"
    for ((at = 0; at < fair; at++)); do
        "$CARGO_TARGET_DIR/release/vempaldi" make "$made/texts/$at.txt" -o "$made/one.table" || wrong "make refuses texts/$at.txt"
        echo "x$(hexadecimal "$made/one.table")"
    done > "$made/fair.bytes"
    # A table has as many records as its script has lines.
    awk '{ lines++ } $1 == "end" { print lines; lines = 0 }' "$made/fair.script" > "$made/fair.records"
    paste -d' ' "$made/fair.records" "$made/fair.bytes" | awk '{ print 0, $1, (length($2) - 1) / 2, $2 }' > "$made/fair.lines"
    all_build "$made/fair.script" "$made/fair.lines"
}

# Calls of any kind in any order: no text says them, so the builders are compared with each other. All three outcomes must be met.
wild_tables() {
    local outcome
    awk -v seed=$seed -v count=$wild -v wild=1 -f tests/builders/random.awk > "$made/wild.script"
    build_c "$made/wild.script" "$made/wild.lines"
    for outcome in 0 1 2; do
        [ "$(grep -c "^$outcome " "$made/wild.lines")" -ge 20 ] || wrong "fewer than 20 of the random calls end with $outcome"
    done
    all_build "$made/wild.script" "$made/wild.lines"
}

compile
examples
edges
made_tables
wild_tables
echo "builders: C, C++, Fortran and Rust build 7 examples, 27 edges, $fair tables as make writes them, and $wild rows of any calls alike"
