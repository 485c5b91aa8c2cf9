#!/usr/bin/env python3
"""Brings the repository's own words of specs/ and proofs/ to snake case, once, after the kit's port.py.

usage: tools/respell.py [--check]      at the top of the repository

A word that begins with a small letter and has a capital in its middle, as tableIn, becomes table_in: in .antt files, and in .rt files, whose
own words have no such capital. Types (capital first) and the functions of src/ keep their names. With --check nothing is written, and names
that would fall together are listed.
"""

import collections
import os
import re
import sys

# One part of a name between dashes; numerals are passed over whole.
PART = re.compile(r"(?<![A-Za-z0-9_'])[A-Za-z_][A-Za-z0-9_']*")
CAMEL = re.compile(r"^[a-z][A-Za-z0-9_']*[a-z0-9][A-Z]")
# Lemmas and fields, in .antt files alone, that would otherwise fall together with the word that they speak of.
APART = {w: w + "_lem" for w in ("goes_on", "left_by", "no_loop", "none_done", "some_of", "too_long", "zero_by_zero")}


def snake(word):
    return re.sub(r"(?<=[a-z0-9])([A-Z])", lambda m: "_" + m.group(1).lower(), word) if CAMEL.match(word) else word


def files(root):
    for folder, dirs, names in os.walk(os.path.join(root, "crates")):
        dirs[:] = sorted(d for d in dirs if d != "out")
        for name in sorted(names):
            if name.endswith((".antt", ".rt")):
                yield os.path.join(folder, name)


def turned(path, text):
    apart = APART if path.endswith(".antt") else {}
    return PART.sub(lambda m: snake(apart.get(m.group(0), m.group(0))), text)


def main(argv):
    words = collections.defaultdict(set)
    there = collections.defaultdict(set)
    for path in files("."):
        with open(path, encoding="utf-8") as f:
            text = f.read()
        for m in PART.finditer(text):
            word = m.group(0)
            if snake(word) != word:
                words[snake(word)].add(word)
            else:
                there[word].add(path)
        if "--check" not in argv and turned(path, text) != text:
            with open(path, "w", encoding="utf-8") as f:
                f.write(turned(path, text))
    if "--check" in argv:
        for new in sorted(words):
            if len(words[new]) > 1 or new in there:
                print(new, sorted(words[new]), sorted(there[new])[:8])
    return 0


if __name__ == "__main__":
    raise SystemExit(main(sys.argv[1:]))
