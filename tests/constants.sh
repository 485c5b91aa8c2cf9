#!/usr/bin/env bash
# The constants of the C headers, of the Fortran modules and of the Rust binding: each stands in all three under one name with one value, and so do
# the words of the grounds (a number that is no ground has none) and the lengths of records' bodies. Names are read off the sources; the values are
# what compiled programs print.
# Where a language has no such constant, `absent` says why.
set -eu
cd "$(dirname "$0")/.."
export LC_ALL=C CARGO_TARGET_DIR="$PWD/build/cargo"
export VEMPALDI_LIB="${VEMPALDI_LIB:-$PWD/build}"
made=build/constants
mkdir -p "$made/rust/src"
bad=0

# LANGUAGE NAME REASON
absent() {
    cat <<'LIST'
rust ACCEPTED an accepted call is Ok
rust WORD_0 an accepted call is Ok
rust NO_REPORT a step gives a Report or a Refusal, and nothing is zeroed before it
fortran VERSION letters have no case there, and vempaldi_version is the function
c MOST_TABLE_BYTES the old name of TABLE_BYTES in Rust alone
fortran MOST_TABLE_BYTES the old name of TABLE_BYTES in Rust alone
rust RECORD_ARRAY a builder's method stands for each kind
rust RECORD_LOOP a builder's method stands for each kind
rust RECORD_READ a builder's method stands for each kind
rust RECORD_CONSTANT a builder's method stands for each kind
rust RECORD_OPERATION a builder's method stands for each kind
rust RECORD_END a builder's method stands for each kind
rust RECORD_STATEMENT a builder's method stands for each kind
rust BUILT a table that was built is Ok
rust NO_FIELD an error says it by BuildFault, which has no numbers
rust NO_ROOM an error says it by BuildFault, which has no numbers
LIST
}

# Every name in the headers, comments and include guards apart.
names_of_c() {
    local header
    for header in include/*.h; do gcc -fpreprocessed -dD -E -P "$header"; done |
        grep -oE '\bVEMPALDI_[A-Z0-9_]+\b' | sed 's/^VEMPALDI_//' | grep -vxE '([A-Z0-9_]+_)?H|WORDS|BODY_LENGTHS' | sort -u
}

program_of_c() {
    local header name
    echo '#include <stdio.h>'
    for header in include/*.h; do echo "#include \"${header#include/}\""; done
    cat <<'C'
static const char *const words[] = VEMPALDI_WORDS;
static const int lengths[] = VEMPALDI_BODY_LENGTHS;
int main(void) {
    for (size_t n = 0; n < sizeof words / sizeof *words; n++)
        if (*words[n]) printf("WORD_%zu %s\n", n, words[n]);
    for (size_t n = 0; n < sizeof lengths / sizeof *lengths; n++) printf("BODY_LENGTH_%zu %d\n", n, lengths[n]);
C
    for name in $(names_of_c); do echo "    printf(\"$name %lld\\n\", (long long)VEMPALDI_$name);"; done
    echo '    return 0;'
    echo '}'
}

# The headers are also C of 1999, and C++ where there is a compiler of it.
values_of_c() {
    program_of_c > "$made/constants.c"
    gcc -std=c11 -Wall -Wextra -Werror -pedantic -Iinclude "$made/constants.c" -o "$made/c"
    gcc -std=c99 -Wall -Wextra -Werror -pedantic -Iinclude -fsyntax-only "$made/constants.c"
    if command -v g++ > /dev/null; then
        g++ -std=c++11 -Wall -Wextra -Werror -pedantic -Iinclude -fsyntax-only -x c++ "$made/constants.c"
    else
        echo "constants: no g++, so the headers are not tried as C++" >&2
    fi
    "$made/c"
}

# The parameters whose names begin with vempaldi_, continued lines joined.
names_of_fortran() {
    sed -E 's/!.*//' bindings/fortran/*.f90 | sed -E ':join; /& *$/ { N; s/& *\n *//; b join }' | grep -E ', *parameter\b' |
        grep -oE '\bvempaldi_[a-z0-9_]+(\([^)]*\))? *=' | sed -E 's/^vempaldi_//; s/[ (=].*//' | grep -vx body_lengths | tr a-z A-Z | sort -u
}

program_of_fortran() {
    local module name
    echo 'program constants'
    for module in $(sed -nE 's/^module ([a-z_]+)$/\1/p' bindings/fortran/*.f90); do echo "  use $module"; done
    cat <<'F'
  use, intrinsic :: iso_c_binding, only: c_int64_t
  implicit none
  integer(c_int64_t) :: n
  do n = 0, 999
    if (vempaldi_word(n) /= 'unknown') print '(a,i0,1x,a)', 'WORD_', n, vempaldi_word(n)
  end do
F
    if grep -q vempaldi_body_lengths bindings/fortran/*.f90; then
        cat <<'F'
  do n = lbound(vempaldi_body_lengths, 1), ubound(vempaldi_body_lengths, 1)
    print '(a,i0,1x,i0)', 'BODY_LENGTH_', n, vempaldi_body_lengths(n)
  end do
F
    fi
    for name in $(names_of_fortran); do echo "  print '(a,1x,i0)', '$name', vempaldi_$name"; done
    echo 'end program'
}

values_of_fortran() {
    program_of_fortran > "$made/constants.f90"
    # A module that uses another stands after it; the shorter name is the one that is used.
    gfortran -J"$made" bindings/fortran/vempaldi.f90 $(ls bindings/fortran/*.f90 | grep -vx bindings/fortran/vempaldi.f90) \
        "$made/constants.f90" -L"$VEMPALDI_LIB" -lvempaldi -o "$made/fortran"
    "$made/fortran"
}

# The public constants, and as TYPE::VARIANT those of enums whose variants have numbers.
names_of_rust() {
    grep -ohE '\bpub const [A-Z0-9_]+:' bindings/rust/src/*.rs | sed 's/^pub const //; s/:$//' | grep -vx BODY_LENGTHS
    awk '/^pub enum / { type = $3 } /^}/ { type = "" } type && /^    [A-Z][A-Za-z]* = [0-9]+,/ { print type "::" $1 }' bindings/rust/src/*.rs
}

program_of_rust() {
    local name
    cat <<'R'
#![allow(deprecated)]
use vempaldi::{Ground, Report};

/// The name of a variant, as constants are written.
fn name(variant: impl std::fmt::Debug) -> String {
    format!("{variant:?}").split([' ', '(']).next().unwrap_or_default().to_uppercase()
}

fn main() {
    for number in 0..1000 {
        let ground = Ground::of_number(number);
        if ground != Ground::Other(number) {
            println!("{} {}", name(ground), ground.number());
            println!("WORD_{number} {}", ground.word());
        }
    }
    for number in 0..1000 {
        let report = Report::of_numbers([number, 0, 0]);
        if report != Report::Other(number) {
            println!("{} {number}", name(report));
        }
    }
R
    if grep -q 'pub const BODY_LENGTHS' bindings/rust/src/*.rs; then
        echo '    for (kind, length) in vempaldi::BODY_LENGTHS.iter().enumerate() {'
        echo '        println!("BODY_LENGTH_{kind} {length}");'
        echo '    }'
    fi
    for name in $(names_of_rust); do
        case $name in
        *::*) echo "    println!(\"{} {}\", name(vempaldi::$name), vempaldi::$name as u64);" ;;
        *) echo "    println!(\"$name {}\", vempaldi::$name);" ;;
        esac
    done
    echo '}'
}

values_of_rust() {
    program_of_rust > "$made/rust/src/main.rs"
    cat > "$made/rust/Cargo.toml" <<'T'
[package]
name = "constants"
version = "0.0.0"
edition = "2021"

[dependencies]
vempaldi = { path = "../../../bindings/rust" }

[workspace]
T
    cargo run --quiet --release --offline --manifest-path "$made/rust/Cargo.toml"
}

# compare: the lines LANGUAGE NAME VALUE; prints what is not alike.
compare() {
    awk '
        FILENAME == ARGV[1] { reason[$1, $2] = 1; next }
        { value[$1, $2] = $3; names[$2]; count[$1, $2]++ }
        END {
            languages = split("c fortran rust", language, " ")
            for (name in names) {
                line = "constants: " name
                wrong = 0
                for (i = 1; i <= languages; i++) {
                    key = language[i] SUBSEP name
                    if (!(key in value) && key in reason) continue
                    line = line ", in " language[i] " " (key in value ? value[key] : "missing")
                    if (key in reason) { wrong = 1; line = line " although it is said to be absent" }
                    if (!(key in value)) { wrong = 1; continue }
                    if (count[key] > 1) { wrong = 1; line = line " " count[key] " times" }
                    if (name in one && one[name] != value[key]) wrong = 1
                    one[name] = value[key]
                }
                if (wrong) print line
            }
        }' <(absent) "$made/all" | sort
}

# once PATTERN FILE..: outside the proved code, tests and documents, a line that matches stands in these files alone.
once() {
    local pattern=$1 found
    shift
    found=$(grep -rlE --exclude-dir=target "$pattern" bin bindings command examples fuzz include $(ls -d share 2> /dev/null) | sort)
    found=$(comm -23 <(printf '%s\n' "$found") <(printf '%s\n' "$@" | sort))
    [ -z "$found" ] || { echo "constants: what has a place of its own is written down again in" $found; bad=1; }
}

# Each ground stands in the documents with its number and its word.
documented() {
    local name word number
    while read -r _ name word; do
        number=${name#WORD_}
        [ "$number" -gt 0 ] || continue
        grep -qE "^\|.*\| *$number $word \|" <(sed 's/|/||/g' README.md) || { echo "constants: README.md has no cell '$number $word'"; bad=1; }
        grep -q "^## $number $word: " docs/REFUSALS.md || { echo "constants: docs/REFUSALS.md has no section '## $number $word: '"; bad=1; }
    done < <(grep '^c WORD_' "$made/all")
}

for language in c fortran rust; do
    "values_of_$language" > "$made/values"
    sed "s/^/$language /; s/  */ /g" "$made/values"
done > "$made/all"
wrong=$(compare)
[ -z "$wrong" ] || { printf '%s\n' "$wrong"; bad=1; }
# The fuzzer's model types its own, so that a header that is wrong is seen.
once '4, *11, *3, *4, *1' include/vempaldi.h bindings/rust/src/builder.rs bindings/fortran/vempaldi_builder.f90 fuzz/reading.c
once "[\"'](torn|crowd|unlike)[\"']" include/vempaldi.h bindings/rust/src/refusal.rs bindings/fortran/vempaldi.f90
documented
[ "$bad" -eq 0 ] || exit 1
echo "constants: $(cut -d' ' -f2 "$made/all" | sort -u | wc -l) of C, Fortran and Rust, alike where they are not said to be absent"
