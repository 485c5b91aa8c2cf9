#!/usr/bin/env python3
"""Moves files of theorems from a crate's specs/ to its proofs/, as they are, and lets every citation follow.

usage: tools/move_laws.py LIST     LIST: lines 'CRATE FILE FILE ..'; what moved already is passed over, and its citations are brought up to date
"""

import os
import re
import subprocess
import sys


def read(path):
    with open(path, encoding="utf-8") as f:
        return f.read()


def write(path, text):
    os.makedirs(os.path.dirname(path), exist_ok=True)
    with open(path, "w", encoding="utf-8") as f:
        f.write(text)


def groups(text):
    """The lines of a Lib.antt as groups: comments, then the mod lines below them."""
    out = []
    for l in text.split("\n"):
        if l.startswith("--"):
            if not out or out[-1][1]:
                out.append([[], []])
            out[-1][0].append(l)
        elif l.strip():
            if not out:
                out.append([[], []])
            out[-1][1].append(l)
    return out


def move(crate, names):
    base = f"crates/{crate}"
    left, gone = [], []
    for comment, mods in groups(read(f"{base}/specs/Lib.antt")):
        goes = [m for m in mods if m.split()[-1] in names]
        stays = [m for m in mods if m not in goes]
        if stays:
            left += comment + stays
            gone += goes
        else:
            gone += comment + goes
    lib = f"{base}/proofs/Lib.antt"
    there = read(lib).rstrip("\n").split("\n") if os.path.exists(lib) else []
    gone = [re.sub(r"^mod ", "pub mod ", l) for l in gone]
    moved = [n for n in names if os.path.exists(f"{base}/specs/{n}.antt")]
    for n in moved:
        if os.path.exists(f"{base}/proofs/{n}.antt"):
            raise SystemExit(f"{base}/proofs/{n}.antt is there already")
        os.makedirs(f"{base}/proofs", exist_ok=True)
        subprocess.run(["git", "mv", f"{base}/specs/{n}.antt", f"{base}/proofs/{n}.antt"], check=True)
    if moved:
        write(f"{base}/specs/Lib.antt", "\n".join(left) + "\n" if left else "")
        write(lib, "\n".join(there + gone) + "\n")


def follow(moves):
    names = {f"Rattle.{c}.specs.{n}": f"Rattle.{c}.proofs.{n}" for c, ns in moves for n in ns}
    path = re.compile("(" + "|".join(re.escape(n) for n in sorted(names, key=len, reverse=True)) + r")(?![\w'-])")
    for folder, dirs, files in os.walk("crates"):
        dirs[:] = [d for d in dirs if d != "out"]
        for f in files:
            if not f.endswith((".antt", ".rt", ".edit")):
                continue
            p = os.path.join(folder, f)
            old = read(p)
            new = path.sub(lambda m: names[m.group(1)], old)
            crate = p.split(os.sep)[1]
            if f.endswith(".edit"):
                for c, ns in moves:
                    if c == crate:
                        for n in ns:
                            new = re.sub(rf"(?m)^file: specs/{n}\.antt$", f"file: proofs/{n}.antt", new)
            if new != old:
                write(p, new)


def main(argv):
    moves = [(w[0], w[1:]) for w in (l.split("#")[0].split() for l in read(argv[0]).split("\n")) if w]
    for crate, names in moves:
        move(crate, names)
    follow(moves)


main(sys.argv[1:])
