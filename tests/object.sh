#!/usr/bin/env bash
# Looks at the library as a file. It keeps nothing between calls, and so takes calls in several threads: there is no section that a
# call could write. It needs no more of a C run-time than functions on bytes. It has the header's functions and no other. The bindings and
# README.md have these too.
set -eu
cd "$(dirname "$0")/.."
library=${VEMPALDI_LIB:-build}/libvempaldi.a
export LC_ALL=C

# compare WHAT WANTED GOT
compare() {
    if [ "$2" != "$3" ]; then
        echo "$1:"
        diff <(printf '%s\n' "$2") <(printf '%s\n' "$3") || true
        exit 1
    fi
}

# Name, type, address, place, size and flags of each section; W is writable.
written=$(readelf -SW "$library" | sed -nE 's/^ *\[ *[0-9]+\] //p' | awk '$7 ~ /W/ && $5 !~ /^0+$/ {print $1}')
compare "libvempaldi.a, sections that can be written (none is expected)" "" "$written"

needed=$(nm --undefined-only --format=posix "$library" | sed -nE 's/^([^ ]+) U.*/\1/p' | grep -vxE 'mem(cpy|set|move|cmp)' || true)
compare "libvempaldi.a, what it needs beside memcpy, memset, memmove and memcmp (none is expected)" "" "$needed"

declared=$(sed -nE 's/^(void|uint32_t|uint64_t) (vempaldi_[a-z_]+)\(.*/\2/p' include/vempaldi.h | sort)
same() { compare "functions of $1, those of include/vempaldi.h on the left" "$declared" "$2"; }
same libvempaldi.a "$(nm --defined-only --extern-only --format=posix "$library" | sed -nE 's/^([^ ]+) [A-Z] .*/\1/p' | sort)"
same bindings/rust/src/foreign.rs "$(sed -nE 's/^ *pub fn (vempaldi_[a-z_]+)\(.*/\1/p' bindings/rust/src/foreign.rs | sort)"
same bindings/fortran/vempaldi.f90 "$(sed -nE "s/.*bind\(c, name='(vempaldi_[a-z_]+)'\).*/\1/p" bindings/fortran/vempaldi.f90 | sort)"
same README.md "$(sed -n '/^| function /,/^$/p' README.md | grep -oE 'vempaldi_[a-z_]+' | sort -u)"
count=$(printf '%s\n' "$declared" | wc -l)
echo "libvempaldi.a: nothing that a call could write, and the $count functions of the header, which the bindings have too"
