#!/usr/bin/env bash
# The scripts of bin/ on a checkout of their own, with two small crates for the library and two that have no part in it: what a first run prints,
# when the library is made anew and when it is not, that a build which fails, is interrupted or has no toolchain leaves no old library, and
# that the scripts work through links. The proofs are real ones (rt), some ten seconds each.
set -eu
cd "$(dirname "$0")/.."
root=$PWD
work=$(mktemp -d)
trap 'rm -rf "$work"' EXIT
# A space in the path, for nobody promises that there is none.
tree="$work/a tree"
mkdir -p "$tree/crates/one/src" "$tree/crates/one/must-fail" "$tree/crates/vempaldi/src" "$tree/crates/other/src" "$tree/crates/plan/src"
cp -R bin share include "$tree"
cd "$tree"
cat > crates.txt <<'C'
# A comment.
one:
other:
vempaldi staticlib: one
plan: one
C
echo 'fn main() {}' > crates/plan/src/main.rt
# rt begins with what it has proved of the same text in another place, so this text stands nowhere else.
own="// $(date +%s%N) $$"
ghost='ghost use Rattle.std.specs.Prelude.{◌≡◌};'
contract='    ensures { result ≡ 7 }'
printf '%s\n' "$own" "$ghost" 'pub fn seven() -> usize' "$contract" '{' '    7' '}' > crates/one/src/lib.rt
printf '%s\n' "$own" "$ghost" '#[unsafe(no_mangle)]' 'pub extern "C" fn vempaldi_seven() -> usize' "$contract" '{' '    one::seven()' '}' \
    > crates/vempaldi/src/lib.rt
cp crates/one/src/lib.rt crates/other/src/lib.rt

wrong() {
    echo "tests/first-run.sh: $1"
    [ ! -f "$work/said" ] || sed 's/^/    /' "$work/said"
    exit 1
}

# builds STATUS COMMAND..: runs it; what it said is then in $work/said.
builds() {
    local status=$1 told=0
    shift
    "$@" > "$work/said" 2>&1 || told=$?
    [ "$told" -eq "$status" ] || wrong "$*: status $told, not $status"
}
says() { grep -qE -- "$1" "$work/said" || wrong "this is not said: $1"; }
silent() { [ ! -s "$work/said" ] || wrong "$1: something is said"; }
library() { [ -f build/libvempaldi.a ] || wrong "$1: there is no library"; }
no_library() { [ ! -e build/libvempaldi.a ] || wrong "$1: there is a library"; }

# From nothing: how long at the start, a line a crate, with the count of those that the library depends on.
builds 0 bin/library
library 'a first run'
sed -n 1p "$work/said" | grep -qE '^build/libvempaldi.a is not there: 2 crates .*minutes' || wrong 'the first line does not say how long'
says '^proved 1 of 2: one, after [0-9]+ s$'
says '^proved 2 of 2: vempaldi, after [0-9]+ s$'
[ "$(wc -l < "$work/said")" -eq 3 ] || wrong 'a first run says three lines'
nm build/libvempaldi.a | grep -q ' T vempaldi_seven$' || wrong 'the library has not the function'
cmp -s build/vempaldi.h include/vempaldi.h || wrong 'the header is not copied'

# Nothing has changed that decides the library.
touch crates/one/src/lib.rt
echo '# another comment' >> crates.txt
echo '// more' >> crates/other/src/lib.rt
echo 'file: src/lib.rt' > crates/one/must-fail/some.edit
builds 0 bin/library
silent 'nothing has changed'

# The header is copied anew, and nothing is proved for it.
echo '/* more */' >> include/vempaldi.h
builds 0 bin/library
silent 'the header has changed'
cmp -s build/vempaldi.h include/vempaldi.h || wrong 'a changed header is not copied'

# Another file in the library's place, or half of it.
truncate -s 100 build/libvempaldi.a
builds 0 bin/library
says '^build/libvempaldi.a is not the file that was made'
says '^1 of 2 crates were proved already$'
[ "$(stat -c %s build/libvempaldi.a)" -gt 100 ] || wrong 'a cut library is kept'
builds 0 bin/library
silent 'it was just made'

# A changed source of a crate below, and through links: a relative one, a link to that, from another directory.
mkdir "$work/links"
ln -s '../a tree/bin/library' "$work/links/first"
ln -s first "$work/links/second"
echo '// more' >> crates/one/src/lib.rt
builds 0 env -C / "$work/links/second"
says '^the sources or the toolchain have changed since build/libvempaldi.a was made'
says '^proved 1 of 2: one, after [0-9]+ s$'
library 'a changed source'

# A new file counts, and so does another toolchain.
before=$(bin/stamp vempaldi)
touch crates/one/src/new.rt
[ "$(bin/stamp vempaldi)" != "$before" ] || wrong 'a new file leaves the stamp'
rm crates/one/src/new.rt
[ "$(bin/stamp vempaldi)" = "$before" ] || wrong 'the stamp does not come back'
mkdir "$work/kit"
printf '#!/bin/sh\necho another kit\n' > "$work/kit/rt"
chmod +x "$work/kit/rt"
[ "$(PATH="$work/kit:$PATH" bin/stamp vempaldi)" != "$before" ] || wrong 'another toolchain leaves the stamp'

# A build that is interrupted: the prover never ends, and the script is killed with all that it started.
printf '#!/bin/sh\n[ "$1" != version ] || { echo another kit; exit; }\n: > "%s/began"\nsleep 600\n' "$work/kit" > "$work/kit/rt"
PATH="$work/kit:$PATH" setsid bin/library > "$work/said" 2>&1 &
for _ in $(seq 100); do [ -f "$work/kit/began" ] || sleep 0.1; done
[ -f "$work/kit/began" ] || wrong 'the prover was not called'
kill -- -$!
wait $! 2> /dev/null || true
no_library 'a build is interrupted'
builds 0 bin/library
library 'after an interrupted build'

# A proof that fails: the crate's name, what the prover said, status 1, and no library; also a second time.
sed -i 's/^    7$/    8/' crates/one/src/lib.rt
builds 1 bin/library
says '^NOT proved: one$'
says 'crates/one/src/lib.rt:[0-9:]+ it is not proved'
says '^fn one::seven: no proof'
no_library 'a proof fails'
builds 1 bin/library
no_library 'a proof fails again'
# bin/vempaldi ends with 2, for 1 would say that a table is refused.
builds 2 bin/vempaldi check
sed -i 's/^    8$/    7/' crates/one/src/lib.rt

# The last crate fails, and as many lines follow the error as crates below it would give: by rt itself, with those lines behind what it says.
cat > "$work/kit/rt" <<R
#!/bin/sh
"$(command -v rt)" "\$@"
status=\$?
[ "\$1" != all ] || for n in \$(seq 60); do echo "library number\$n: modules loaded=0 checked=0"; done
exit \$status
R
sed -i 's/one::seven()/8/' crates/vempaldi/src/lib.rt
builds 1 env PATH="$work/kit:$PATH" bin/library
says '^NOT proved: vempaldi$'
says '^fn vempaldi::vempaldi_seven: no proof'
says 'crates/vempaldi/src/lib.rt:[0-9:]+ it is not proved'
[ "$(wc -l < "$work/said")" -lt 30 ] || wrong 'too much is said of one error'
no_library 'the last proof fails'
echo 'fn broken(' >> crates/vempaldi/src/lib.rt
builds 1 env PATH="$work/kit:$PATH" bin/library
says '^NOT proved: vempaldi$'
says 'crates/vempaldi/src/lib.rt:[0-9:]+ error'
sed -i '/^fn broken($/d' crates/vempaldi/src/lib.rt
# So does one below, of which nothing is known yet.
echo 'fn broken(' >> crates/one/src/lib.rt
builds 1 bin/library
says '^NOT proved: one$'
says 'crates/one/src/lib.rt:[0-9:]+ error'
sed -i '/^fn broken($/d' crates/one/src/lib.rt
# Nothing is proved where rt itself fails; what it said last is shown.
printf '#!/bin/sh\n[ "$1" != version ] || { echo another kit; exit; }\necho the kit is broken\nexit 2\n' > "$work/kit/rt"
builds 1 env PATH="$work/kit:$PATH" bin/library
says '^the kit is broken$'
sed -i 's/^    8$/    one::seven()/' crates/vempaldi/src/lib.rt
builds 0 bin/library
library 'it is mended'

# The program behind bin/plan, in the same way; also where rt has proved it and it is not there any more.
builds 0 bin/build
says '^build/plan is not there: 2 crates '
says '^proved 2 of 2: plan, after [0-9]+ s$'
rm crates/plan/out/plan build/plan
builds 0 bin/build
says '^proved 2 of 2: plan, after [0-9]+ s$'
builds 0 bin/plan 2 /dev/null
silent 'an empty program that is there'
echo 'fn main() { let x = 1; }' > crates/plan/src/main.rt
builds 0 bin/plan 2 /dev/null
says '^the sources or the toolchain have changed since build/plan was made'
builds 0 bin/library
silent 'a program is no part of the library'

# A source that changes while it is proved, by a stand-in for rt: what was made is of neither text, and is not kept.
cat > "$work/kit/rt" <<R
#!/bin/sh
case \$1 in
version) echo another kit ;;
all) echo '// more' >> ../one/src/lib.rt ;;
lib) mkdir -p out; cp ../../crates.txt out/libvempaldi.a ;;
esac
R
builds 1 env PATH="$work/kit:$PATH" bin/library
says '^the sources have changed while they were proved'
no_library 'a source changes while it is proved'

# Two builds at once: the second waits for the first, and then has nothing to do.
cat > "$work/kit/rt" <<R
#!/bin/sh
case \$1 in
version) echo another kit ;;
all) mkdir "$work/kit/busy" || : > "$work/kit/both"; echo check >> "$work/kit/calls"; sleep 2; rmdir "$work/kit/busy" ;;
lib) mkdir -p out; cp ../../crates.txt out/libvempaldi.a ;;
esac
R
PATH="$work/kit:$PATH" bin/library > "$work/first" 2>&1 &
first=$!
for _ in $(seq 100); do [ -d "$work/kit/busy" ] || sleep 0.05; done
builds 0 env PATH="$work/kit:$PATH" bin/library
says '^another build is at work; waiting for it$'
wait "$first" || wrong 'the first of two builds fails'
[ ! -e "$work/kit/both" ] || wrong 'two builds prove at the same time'
[ "$(wc -l < "$work/kit/calls")" -eq 1 ] || wrong 'the second build proves again'
builds 0 bin/library
library 'rt itself again'

# No toolchain: a library that cannot be made again is neither used nor removed.
mkdir "$work/tools"
for tool in bash env dirname readlink sed awk sort sha256sum cut find xargs cat mkdir rm mv cp cmp wc grep flock nproc head tail; do
    ln -s "$(command -v $tool)" "$work/tools/$tool"
done
builds 1 env PATH="$work/tools" bin/library
says 'the Rattle toolchain \(rt\) is not there'
library 'there is no toolchain'
cd "$root"
echo "bin/library, bin/plan: a line a crate, made anew where something has changed and only there, none left where it fails"
