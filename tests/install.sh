#!/usr/bin/env bash
# Installs into a temporary prefix, moves it, and builds and runs the examples in C, Fortran and Rust from there alone: away from the checkout,
# from the installed sources, with pkg-config, with CMake and with cargo. What they must print is in tests/example.listing, or follows from it.
# A tool that is not there (cmake, pkg-config, ..) is a failure that is said, not a check passed over.
set -eu
cd "$(dirname "$0")/.."
root=$PWD
work=$(mktemp -d)
trap 'rm -rf "$work"' EXIT
unset VEMPALDI_LIB PKG_CONFIG_PATH LD_LIBRARY_PATH CMAKE_PREFIX_PATH DESTDIR CARGO_TARGET_DIR

wrong() {
    echo "tests/install.sh: $1"
    exit 1
}
# same WANTED GOT WHAT
same() {
    [ "$1" != "$2" ] || return 0
    diff <(printf '%s\n' "$1") <(printf '%s\n' "$2") || true
    wrong "$3: < is what should be, > what is"
}
# example NAME PROGRAM..: an example plans the first table and runs it, with the plain run's bits.
example() {
    local name=$1 got
    shift
    got=$("$@" "$prefix/share/vempaldi/examples/example.table" 2 2>&1) || { printf '%s\n' "$got"; wrong "the example $name fails"; }
    case $got in
    "$listing"$'\n'*'same bits as the plain run'*) ;;
    *) printf '%s\n' "$got"; wrong "the example $name does not say what it should" ;;
    esac
}

for tool in cc gfortran cargo pkg-config cmake man nm readelf; do
    command -v "$tool" > /dev/null || wrong "there is no $tool here, so what needs it was not tried"
done

version=$(bin/version) interface=$(bin/version --interface)
listing=$(cat tests/example.listing)

# What a variable of vempaldi.pc says, without the backslashes before blanks.
place() { pkg-config --variable="$1" vempaldi | sed 's/\\//g'; }

# refused PREFIX: with 2, and nothing is written, not even into the checkout's build/.
refused() {
    local told=0
    "$work/tree/bin/install" "$1" > "$work/said" 2>&1 || told=$?
    if [ "$told" -ne 2 ] || ! grep -q '^bin/install: .*checkout' "$work/said"; then
        cat "$work/said"
        wrong "bin/install $1: status $told, not refused"
    fi
    same "$before" "$(find "$work/tree" "$work/linked" | sort)" "what is there after bin/install $1"
}
# Tried in a checkout of nothing but bin/ and the header, which has nothing to build and is no loss.
refuse_checkout() {
    local before
    mkdir -p "$work/tree/include" "$work/linked" "$work/share/vempaldi"
    cp -R bin "$work/tree"
    cp include/vempaldi.h "$work/tree/include"
    ln -s "$work/tree/bin" "$work/linked/bin"
    before=$(find "$work/tree" "$work/linked" | sort)
    cd "$work/tree"
    refused .
    refused "$work/tree"
    refused docs/place
    refused ../tree/builds
    refused "$work/linked"
    (cd "$work" && DESTDIR=. && export DESTDIR && refused /tree) || exit 1
    cd "$root"
    # Where what is removed first has the checkout in it.
    mv "$work/tree" "$work/share/vempaldi/tree"
    ln -s share/vempaldi/tree "$work/tree"
    before=$(find "$work/tree" "$work/linked" | sort)
    refused "$work"
    [ -f "$work/share/vempaldi/tree/bin/install" ] || wrong "the checkout is removed"
    rm -r "$work/tree" "$work/share" "$work/linked"
    bin/install --help | grep -q 'share/vempaldi is removed' || wrong "bin/install --help does not say what is removed"
}

# Below DESTDIR/PREFIX, DESTDIR relative, through a link, from another directory; then moved, with a space in the new path.
install_and_move() {
    ln -s "$root/bin/install" "$work/install"
    (cd "$work" && DESTDIR=stage ./install "$work/place" > "$work/said") || { cat "$work/said"; wrong "bin/install fails"; }
    [ ! -e "$work/place" ] || wrong "DESTDIR is not heeded"
    mv "$work/stage$work/place" "$work/a prefix"
    same '' "$(find "$work/stage" ! -type d)" "what is installed outside the prefix"
    prefix="$work/a prefix"
    mkdir "$work/user"
    cd "$work/user"
    export PKG_CONFIG_PATH="$prefix/lib/pkgconfig" PKG_CONFIG_ALLOW_SYSTEM_LIBS=1
}

# What was installed: every header and module of the checkout, and no path of this machine in any file.
look_around() {
    local file found kit
    for file in bin/vempaldi bin/vempaldi-plan libexec/vempaldi/plan; do
        [ -x "$prefix/$file" ] || wrong "$file is not there, or is no program"
    done
    for file in "$root"/include/*.h; do cmp "$file" "$prefix/include/${file##*/}" || wrong "a header is not installed"; done
    for file in "$root"/bindings/fortran/*.f90; do
        cmp "$file" "$prefix/share/vempaldi/fortran/${file##*/}" || wrong "a module is not installed"
    done
    kit=$(dirname "$(dirname "$(readlink -f "$(command -v rt)")")")
    found=$(grep -rlaF -e "$root" -e "$work" -e "${HOME:-/root}/" -e "$kit/" "$prefix" || true)
    [ -z "$found" ] || wrong "a path of this machine stands in: $found"
    found=$(find "$prefix" -type l ! -exec test -e {} \; -print)
    [ -z "$found" ] || wrong "links that lead nowhere: $found"
    found=$(grep -rlaE '@[a-z_]+@' "$prefix/lib/pkgconfig" "$prefix/lib/cmake" "$prefix/share/man" || true)
    [ -z "$found" ] || wrong "a word was not filled in: $found"
}

# The shared library has its name, the header's functions and no others, and nothing that is relocated in its code.
look_at_shared() {
    local library="$prefix/lib/libvempaldi.so.$version" exported declared
    same "libvempaldi.so.$version" "$(readlink "$prefix/lib/libvempaldi.so.$interface")" "where libvempaldi.so.$interface leads"
    readelf -dW "$library" | grep -qF "[libvempaldi.so.$interface]" || wrong "the shared library's name is not libvempaldi.so.$interface"
    ! readelf -dW "$library" | grep -q TEXTREL || wrong "the shared library's code is relocated"
    exported=$(nm -D --defined-only --format=posix "$library" | cut -d' ' -f1 | sort)
    declared=$(sed -nE 's/^(void|uint32_t|uint64_t) (vempaldi_[a-z_]+)\(.*/\2/p' "$prefix/include/vempaldi.h" | sort)
    same "$declared" "$exported" "functions of the shared library, those of the header"
}

# One version everywhere.
compare_versions() {
    local file
    for file in bindings/rust/Cargo.toml command/Cargo.toml; do
        same "$version" "$(sed -nE 's/^version = "(.*)"$/\1/p' "$root/$file")" "the version in $file"
    done
    same "$version" "$(pkg-config --modversion vempaldi)" "the version that pkg-config says"
    "$prefix/bin/vempaldi" --version | grep -qF "$version" || wrong "vempaldi --version does not say $version"
    cat > version.c <<'C'
#include <stdio.h>
#include "vempaldi.h"
int main(void) {
    int numbers = VEMPALDI_VERSION_MAJOR * 10000 + VEMPALDI_VERSION_MINOR * 100 + VEMPALDI_VERSION_PATCH;
    return printf("%d %d %u\n", numbers, VEMPALDI_VERSION, (unsigned)vempaldi_version()) < 0;
}
C
    eval cc version.c "$(pkg-config --cflags vempaldi)" '"$(place archive)"' -o version
    same "$(awk -F. '{ n = $1 * 10000 + $2 * 100 + $3; print n, n, n }' <<< "$version")" "$(./version)" "the header's numbers, and the library's"
}

# The installed command and the proved program.
run_programs() {
    local said told=0 table="$prefix/share/vempaldi/examples/example.table"
    same "$listing" "$("$prefix/bin/vempaldi" plan "$table" -p 2)" "vempaldi plan"
    same "loop 1 2 1" "$("$prefix/bin/vempaldi" plan "$table" -p 2 --plan "${table%.table}.hand" | grep '^loop 1 ')" "vempaldi plan --plan"
    same "$listing" "$("$prefix/bin/vempaldi-plan" 2 "$table")" "vempaldi-plan"
    ln -sf "$prefix/bin/vempaldi-plan" plan
    same "$listing" "$(./plan 2 - < "$table")" "vempaldi-plan through a link"
    same "vempaldi-plan: P is a number from 0 to 255, not 'x'" "$("$prefix/bin/vempaldi-plan" x "$table" 2>&1)" "vempaldi-plan with a word for P"
    cp "$table" ./-n
    same "$listing" "$("$prefix/bin/vempaldi-plan" 2 -n < /dev/null)" "vempaldi-plan with a file named -n"
    rm ./-n
    said=$("$prefix/bin/vempaldi-plan" 2 /proc/self/mem 2>&1) || told=$?
    same "vempaldi-plan: cannot read '/proc/self/mem', status 2" "$said, status $told" "vempaldi-plan with a file that cannot be read"
}

# The scripts of the checkout, each through a link to a relative link to it.
scripts_through_links() {
    local script table="$prefix/share/vempaldi/examples/example.table"
    mkdir links
    ln -s "$root" links/checkout
    for script in plan vempaldi version crates; do
        ln -s "checkout/bin/$script" "links/to-$script"
        ln -s "links/to-$script" "$script-link"
    done
    same "$listing" "$(./plan-link 2 "$table")" "bin/plan through links"
    same "$listing" "$(./vempaldi-link plan "$table" -p 2)" "bin/vempaldi through links"
    same "$version" "$(./version-link)" "bin/version through links"
    ./crates-link | grep -q '^vempaldi: ' || wrong "bin/crates does not work through links"
}

# The C example by pkg-config: shared, then static, which needs no shared library to run.
c_by_pkg_config() {
    cp "$prefix/share/vempaldi/examples/c/example.c" .
    eval cc example.c "$(pkg-config --cflags --libs vempaldi)" -o c-shared
    readelf -dW c-shared | grep -qF "[libvempaldi.so.$interface]" || wrong "what pkg-config --libs names is not the shared library"
    example 'in C, shared' env LD_LIBRARY_PATH="$prefix/lib" ./c-shared
    eval cc example.c "$(pkg-config --cflags vempaldi)" '"$(place archive)"' -o c-static
    example 'in C, static' ./c-static
}

# cmake_build NAME WORDS..: the project in NAME, with the words, into NAME-build.
cmake_build() {
    local name=$1
    shift
    cmake -S "$name" -B "$name-build" -DCMAKE_PREFIX_PATH="$prefix" "$@" > cmake.log 2>&1 && cmake --build "$name-build" >> cmake.log 2>&1
}

# The C and Fortran examples by CMake, static and shared; versions that fit and that don't.
by_cmake() {
    local kind asked used
    mkdir project
    cp "$prefix/share/vempaldi/examples/c/example.c" "$prefix/share/vempaldi/examples/fortran/example.f90" project
    cat > project/CMakeLists.txt <<'C'
cmake_minimum_required(VERSION 3.13)
project(example C Fortran)
find_package(vempaldi ${asked} REQUIRED)
add_executable(example-c example.c)
target_link_libraries(example-c vempaldi::vempaldi)
add_executable(example-f example.f90 ${vempaldi_FORTRAN_SOURCES})
target_link_libraries(example-f vempaldi::vempaldi)
C
    for kind in OFF ON; do
        rm -rf project-build
        cmake_build project -DBUILD_SHARED_LIBS=$kind -Dasked="$version" || {
            cat cmake.log
            wrong "the project of CMake, BUILD_SHARED_LIBS=$kind, is not built"
        }
        example "in C by CMake, BUILD_SHARED_LIBS=$kind" project-build/example-c
        example "in Fortran by CMake, BUILD_SHARED_LIBS=$kind" project-build/example-f
        used=OFF
        ! readelf -dW project-build/example-c | grep -qF libvempaldi.so || used=ON
        same "$kind" "$used" "whether the shared library is used"
    done
    for asked in "${version%%.*}" "${version%.*}" "0.1...$version"; do
        cmake_finds "$asked" || { cat cmake.log; wrong "CMake does not take $version for $asked"; }
    done
    for asked in 99 "${version%%.*}.99" "$version.1" 0.1 "0.1...<$version"; do
        ! cmake_finds "$asked" || wrong "CMake takes $version for $asked"
    done
}

# Whether CMake takes the installed version for the one asked for.
cmake_finds() {
    mkdir -p asking
    printf 'cmake_minimum_required(VERSION 3.19)\nproject(asking NONE)\nfind_package(vempaldi %s REQUIRED)\n' "$1" > asking/CMakeLists.txt
    rm -rf asking-build
    cmake -S asking -B asking-build -DCMAKE_PREFIX_PATH="$prefix" > cmake.log 2>&1
}

fortran() {
    cp "$prefix/share/vempaldi/examples/fortran/example.f90" .
    gfortran "$(place fortrandir)"/*.f90 example.f90 "$(place archive)" -o fortran-example
    example 'in Fortran' ./fortran-example
}

# A package of a user, which names the installed one by its path and sets nothing else.
rust() {
    mkdir -p rust/src
    cp "$prefix/share/vempaldi/examples/rust/example.rs" rust/src/main.rs
    printf '%s\n' '[package]' 'name = "user"' 'edition = "2021"' '[dependencies]' "vempaldi = { path = \"$(place rustdir)\" }" > rust/Cargo.toml
    cargo build --quiet --offline --manifest-path rust/Cargo.toml || wrong "the Rust example is not built"
    example 'in Rust' rust/target/debug/user
    # The examples of the documentation, where the package is installed.
    CARGO_TARGET_DIR=$PWD/rust/target cargo test --doc --offline --manifest-path "$(place rustdir)/Cargo.toml" > doc.log 2>&1 || {
        cat doc.log
        wrong "an example of the installed Rust package's documentation fails"
    }
    grep -qE '^test result: ok\. [1-9]' doc.log || { cat doc.log; wrong "no example of the installed Rust package's documentation was run"; }
    [ ! -e "$prefix/share/vempaldi/rust/target" ] || wrong "building the user's package writes into the prefix"
}

# The man pages are rendered without a warning.
man_pages() {
    local page said
    for page in "$prefix"/share/man/man1/*.1; do
        said=$(LC_ALL=C.UTF-8 MANWIDTH=100 man --warnings -l "$page" 2>&1 > rendered) || wrong "$page is not rendered: $said"
        [ -z "$said" ] || wrong "$page: $said"
        grep -qF "Vempaldi $version" rendered || wrong "$page does not say its version"
    done
}

# complete WORD..: what bash offers for the last word of this line, one a line.
complete_line() {
    bash -c '
        . "$1"
        shift
        COMP_WORDS=("$@") COMP_CWORD=$(($# - 1)) COMPREPLY=()
        entry=$(complete -p vempaldi)
        [[ $entry =~ -F\ ([^ ]+) ]] && "${BASH_REMATCH[1]}" vempaldi "${!#}" "${@:$#-1:1}"
        printf "%s\n" "${COMPREPLY[@]}"' bash "$prefix/share/bash-completion/completions/vempaldi" "$@" | sort
}
completion() {
    touch file.table
    mkdir -p directory
    same $'draw\ndump' "$(complete_line vempaldi d)" "what d is completed to"
    same plan "$(complete_line vempaldi pl)" "what pl is completed to"
    same --values "$(complete_line vempaldi run --v)" "what run --v is completed to"
    same '' "$(complete_line vempaldi check --v)" "what check --v is completed to"
    touch ./-file.table
    same -file.table "$(complete_line vempaldi check -- -)" "what - behind -- is completed to"
    same '' "$(complete_line vempaldi check -- file.table --r)" "what --r behind -- is completed to"
    same file.table "$(complete_line vempaldi run -- --order 'fi')" "what a file behind -- is completed to"
    same file.table "$(complete_line vempaldi check 'fi')" "what a file is completed to"
    same directory "$(complete_line vempaldi plan -o di)" "what plan -o is completed to"
    same '' "$(complete_line vempaldi plan -o 'fi')" "what plan -o is completed to"
    same falling "$(complete_line vempaldi run --order f)" "what --order is completed to"
    same falling "$(complete_line vempaldi run --order = f)" "what --order= is completed to"
    same @file.table "$(complete_line vempaldi run --memory @fi)" "what --memory @ is completed to"
    same --line "$(complete_line vempaldi draw --l)" "what draw --l is completed to"
    same '' "$(complete_line vempaldi check --l)" "what check --l is completed to"
    same 8 "$(complete_line vempaldi plan --line 8)" "what --line 8 is completed to"
    same $'--plan\n--write-plan' "$(complete_line vempaldi plan - | grep plan)" "which options of plan have a plan"
    same --plan "$(complete_line vempaldi run --p)" "what run --p is completed to"
    same file.table "$(complete_line vempaldi plan --plan 'fi')" "what --plan is completed to"
    same file.table "$(complete_line vempaldi plan --write-plan = 'fi')" "what --write-plan= is completed to"
}

# Every command and option that --help names stands in the man page and is offered by the completion; and nothing is offered that is not there.
options_of() { grep -oE -- '(^|[^A-Za-z0-9_-])--?[a-z]+(-[a-z]+)*' | grep -oE -- '--?[a-z]+(-[a-z]+)*' | sort -u; }
compare_options() {
    local commands command option page offered wanted
    page=$(sed 's/\\-/-/g; s/\\f[BIR]//g' "$prefix/share/man/man1/vempaldi.1")
    commands=$("$prefix/bin/vempaldi" --help | sed -nE 's/^  vempaldi ([a-z]+) .*/\1/p' | sort)
    same "$commands" "$(complete_line vempaldi '' | grep -v -- '^-')" "the commands that --help names, and those offered"
    for command in $commands; do
        grep -q "vempaldi $command" <<< "$page" || wrong "the man page does not have $command"
        wanted=$(usage_of "$command" | options_of)
        for option in $wanted; do
            grep -qE -- "(^|[^a-z-])$option([^a-z-]|$)" <<< "$page" || wrong "the man page does not have $option of $command"
        done
        offered=$(complete_line vempaldi "$command" - | grep -v -- '^--help$')
        same "$wanted" "$offered" "the options of $command that --help names, and those offered"
    done
    for option in $("$prefix/bin/vempaldi" --help | options_of); do
        grep -qE -- "(^|[^a-z-])$option([^a-z-]|$)" <<< "$page" || wrong "the man page does not have $option"
    done
    for option in --help --version; do
        grep -qF -- "$option" <<< "$page" || wrong "the man page does not have $option"
        complete_line vempaldi - | grep -qxF -- "$option" || wrong "$option is not offered"
    done
}

# The usage of a command, as its own help has it.
usage_of() {
    "$prefix/bin/vempaldi" "$1" --help | sed -nE "/^vempaldi $1 /,/^\$/p" | grep -oE -- '(vempaldi|\[| )-.*|vempaldi.*'
}

refuse_checkout
install_and_move
look_around
look_at_shared
compare_versions
run_programs
scripts_through_links
c_by_pkg_config
by_cmake
fortran
rust
man_pages
completion
compare_options
echo "bin/install: the examples are built from the moved prefix alone, with pkg-config, CMake and cargo; man pages, completion, versions"
