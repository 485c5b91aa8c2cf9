#!/usr/bin/env bash
# Runs every command that README.md prints, in its order and as printed, but for the gate itself, of which this is a part.
# Indented lines below a command are what it says: they must be just that, the standard output and then the standard error. What stands
# between lines of ``` is a program's text and no command: of each language a call for the blocks of the river in lines of 8, which is compiled
# and run in a program around it.
set -eu
cd "$(dirname "$0")/.."
mkdir -p build
declare -A printed
command='' says='' count=0 compared=0 fenced=0

wrong() {
    echo "README.md: $1"
    exit 1
}

# same WANTED GOT WHAT
same() {
    [ "$1" != "$2" ] || return 0
    diff <(printf '%s\n' "$1") <(printf '%s\n' "$2") || true
    wrong "$3"
}

# The command without its comment.
bare() {
    printf '%s\n' "$1" | sed 's/  *#.*//'
}

# The command of the block so far, and what is printed below it.
finish() {
    [ -n "$command" ] || return 0
    count=$((count + 1))
    if ! sh -c "$command" > build/readme.out 2> build/readme.err < /dev/null; then
        cat build/readme.out build/readme.err
        wrong "this command fails: $command"
    fi
    if [ -n "$says" ]; then
        compared=$((compared + 1))
        same "$says" "$(cat build/readme.out build/readme.err)" "< is what it prints, > what this says: $command"
    fi
    printed[$(bare "$command")]=$says
    command='' says=''
}

while IFS= read -r line; do
    case $fenced,$line in
    *,'```'*) fenced=$((1 - fenced)) ;;
    esac
    [ "$fenced" -eq 0 ] || line=''
    case $line in
    "    .ci/run"*) finish ;;
    "    bin/"* | "    cat "* | "    sed "* | "    build/example-"* | "    gcc "* | "    gfortran "* | "    CARGO_TARGET_DIR="*)
        finish
        command=${line#    }
        ;;
    "    "*)
        [ -n "$command" ] || wrong "no command says this: $line"
        says+=${says:+$'\n'}${line#    }
        ;;
    *) finish ;;
    esac
done < README.md
finish

# The commands on the first example are there, with what follows from docs/TABLE.md: its listing; 10 and 10 iterations on three arrays of
# 12 elements, of which processor 1 has 5 and 4 before the barrier, so that 3 of 12 calls find it waiting.
known() {
    same "${printed[$1]-}" "$2" "< is what it prints, > what is known: $1"
}
known "bin/vempaldi plan examples/example.table -p 2" "$(cat tests/example.listing)"
known "bin/vempaldi check examples/example.table" "examples/example.table: accepted"
known "bin/vempaldi run examples/example.table -p 2 --order 1,1,1,1,1,1,1,1,1,1,1,1" \
    "examples/example.table: 20 iterations on 2 processors, idle 3: agrees with the plain run, all 36 numbers bit for bit"
# The raw answers: byte 0 of README.md is no kind; 10 indices in 6 blocks leave some of 1, below the threshold of 2; the joined table has 15
# bytes of arrays, twice 45 of loops, and one end.
known "bin/vempaldi check --raw examples/example.table README.md || echo \"status \$?\"" $'accepted\nrefused 2 0\nstatus 1'
known "bin/vempaldi plan --raw examples/example.table -p 6 || echo \"status \$?\"" $'refused 11 0\nstatus 1'
known "bin/vempaldi run --raw examples/example.table -p 2 --order 1,1,1,1,1,1,1,1,1,1,1,1" "idle 3"
known "bin/vempaldi join --raw examples/example.table examples/example.table -o build/two.table" "106"
# 198 indices are 25 lines of 8, of which the first block has seven and the others six; the last ends at 198.
river_blocks=$'block 0 1 56\nblock 1 57 104\nblock 2 105 152\nblock 3 153 198'
known "bin/vempaldi plan examples/river.table -p 4 --line 8 | grep block" "$river_blocks"
known "bin/vempaldi run examples/example.table -p 2 --line 4 --order none" \
    "examples/example.table: 20 iterations on 2 processors in lines of 4, idle 0: agrees with the plain run, all 36 numbers bit for bit"
# A plan by hand: the example's own numbers, the run of other ones, and a shift that is one too low.
known "bin/vempaldi plan examples/example.table -p 2 --write-plan build/example.hand | grep loop" "$(grep loop tests/example.listing)"
known "bin/vempaldi run examples/example.table -p 2 --plan examples/example.hand --order none" \
    "examples/example.table: 20 iterations on 2 processors with a plan by hand, idle 0: agrees with the plain run, all 36 numbers bit for bit"

# The text between lines of ``` for one language.
fenced() {
    awk -v fence="\`\`\`$1" '$0 == fence { open = 1; next } /^```/ { open = 0 } open' README.md
}

in_c() {
    cat <<'C'
#include <stdio.h>
#include "vempaldi.h"
static unsigned at(const uint8_t *n) { return n[0] | n[1] << 8u; }
int main(void) {
    static uint8_t table[VEMPALDI_DECIDING_BYTES], out[VEMPALDI_BLOCK_BYTES];
    uint64_t answer[4];
    size_t length = fread(table, 1, sizeof table, stdin);
C
    fenced c
    cat <<'C'
    for (unsigned b = 0; b < written / 8; b++) printf("block %u %u %u\n", b, at(out + 8 * b), at(out + 8 * b + 4));
    return (int)answer[0];
}
C
}

in_rust() {
    echo 'fn main() -> Result<(), Box<dyn std::error::Error>> {'
    echo 'let table = std::fs::read("examples/river.table")?;'
    fenced rust
    echo 'for (b, block) in blocks.iter().enumerate() { println!("block {b} {} {}", block.first, block.last); }'
    echo 'Ok(())'
    echo '}'
}

in_fortran() {
    cat <<'F'
program calls
  use, intrinsic :: iso_c_binding
  use vempaldi
  implicit none
  integer(c_int8_t), allocatable :: table(:)
  integer(c_int32_t), allocatable :: blocks(:, :)
  integer(c_int64_t) :: answer(4)
  integer :: file, length, b
  open (newunit=file, file='examples/river.table', access='stream', form='unformatted', status='old', action='read')
  inquire (unit=file, size=length)
  allocate (table(length))
  read (file) table
F
    fenced fortran
    cat <<'F'
  do b = 1, size(blocks, 2)
    print '(a,3(1x,i0))', 'block', b - 1, blocks(:, b)
  end do
end program
F
}

# What the calls in the three languages give.
made=build/readme
mkdir -p "$made"
in_c > "$made/c.c"
gcc -std=c11 -Wall -Wextra -Werror -pedantic -Iinclude "$made/c.c" build/libvempaldi.a -o "$made/c"
same "$river_blocks" "$("$made/c" < examples/river.table)" "< is known, > what the call in C gives"
in_fortran > "$made/fortran.f90"
gfortran -std=f2018 -Wall -Wextra -Werror -J"$made" bindings/fortran/vempaldi.f90 "$made/fortran.f90" build/libvempaldi.a -o "$made/fortran"
same "$river_blocks" "$("$made/fortran")" "< is known, > what the call in Fortran gives"
in_rust > "$made/rust.rs"
CARGO_TARGET_DIR=build/cargo cargo build --quiet --release --offline --manifest-path bindings/rust/Cargo.toml
rustc --edition 2021 -D warnings --extern vempaldi=build/cargo/release/libvempaldi.rlib -L native=build "$made/rust.rs" -o "$made/rust"
same "$river_blocks" "$("$made/rust")" "< is known, > what the call in Rust gives"
[ "$count" -ge 27 ] || wrong "only $count commands found"
[ "$compared" -ge 13 ] || wrong "only $compared commands found that say something"
echo "README.md: $count commands work as printed, $compared of them with what they say, and the calls in C, Rust and Fortran"
