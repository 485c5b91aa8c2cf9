#!/usr/bin/env bash
# The documents stand by themselves: what they link to is there, and no file leans on a paper that is not in the tree. (docs/landings are
# notes of their day, and the comments of crates/ are left out: a changed word there proves the crate again.)
set -eu
cd "$(dirname "$0")/.."
bad=0

say() {
    echo "documents: $1"
    bad=1
}

# The headings of a document, as links name them: small letters, blanks as hyphens, nothing else but letters, digits, - and _.
anchors() {
    sed -nE 's/^#+ (.*)/\1/p' "$1" | tr 'A-Z ' 'a-z-' | tr -cd 'a-z0-9_\n-'
}

# Every [text](target) of a document, but for addresses in the net.
links() {
    grep -oE '\]\([^) ]+\)' "$1" | sed -E 's/^\]\(//; s/\)$//' | grep -vE '^[a-z]+:' || true
}

follow() {
    local document=$1 target file anchor
    for target in $(links "$document"); do
        count=$((count + 1))
        file=${target%%#*} anchor=''
        [ "$file" = "$target" ] || anchor=${target#*#}
        [ -n "$file" ] && file=$(dirname "$document")/$file || file=$document
        if [ ! -e "$file" ]; then
            say "$document links to $target, which is not there"
        elif [ -n "$anchor" ] && ! anchors "$file" | grep -qx -- "$anchor"; then
            say "$document links to $target, and $file has no such heading"
        fi
    done
}

count=0
for document in *.md */*.md bindings/*/*.md examples/*/*.md; do
    [ ! -f "$document" ] || follow "$document"
done
[ "$count" -ge 20 ] || say "only $count links were found"

# A file of a crate, named as CRATE/specs/FILE or CRATE/proofs/FILE, is there. (NAME stands for any; declared is what rt makes; docs/PORT.md has old places.)
named=0
for document in *.md docs/*.md; do
    [ "$document" != docs/PORT.md ] || continue
    for target in $(grep -oE '\b[a-z]+/(specs|proofs)/[A-Za-z_]+' "$document" | grep -vE 'NAME|/declared$' | sort -u); do
        [ -d "crates/${target%%/*}" ] || continue
        named=$((named + 1))
        [ -f "crates/$target.antt" ] || [ -d "crates/$target" ] || say "$document names $target, which is not there"
    done
done

absent="[Tt]he papers?\b|\bpapers' |readings\.md|idioms\.md|\b01's\b|00-demands|01-scope|02-change|\(000,|\brequest [0-9]"
leaning=$(grep -rnIE --exclude-dir={.git,build,target,landings,crates} --exclude=documents.sh "$absent" . || true)
[ -z "$leaning" ] || say "these lean on papers that are not in the tree:"$'\n'"$leaning"
[ "$bad" -eq 0 ] || exit 1
echo "documents: $count links lead somewhere, $named files of crates are there, and nothing leans on a paper that is not in the tree"
