#!/usr/bin/env python3
"""Brings the must-fail edits to today's spelling, once, after the kit's port.py and tools/respell.py, which turn none.

usage: tools/respell_edits.py LANDED LAST [--write]      at the top of the repository

LANDED and LAST are commits before the spelling turned; an edit that came or changed between them is taken from LAST, but for those of BACK, and the
others from LANDED. Of each pair the old text is looked up in the file that it was written for, the line that stands there today is found by the order
of the lines, and old and new text are turned word by word. Where a pair brought words of the library in, or the new text named them by their path,
today's import of the Prelude gets them. With --write an edit is written whose old texts then all stand once, in those lines; the others are listed,
with both lines, for the hand, and left as they are.
"""

import difflib
import os
import re
import subprocess
import sys

sys.path.insert(0, os.path.dirname(os.path.realpath(__file__)))
from respell import PART, snake  # noqa: E402

# Words of the libraries of before, and today's.
WORDS = {"getD": "get_or", "decLt": "dec_lt", "decLe": "dec_le", "ℕ-discrete": "ℕ_discrete", "⊎-elim": "⊎_elim"}
# A library of before, and a name in it; today its words are imported from here.
BEFORE = r"(?:mathlib|native|lib|borrow|Prim)\.(?:\w+\.)+"
PRELUDE = re.compile(r"use Rattle\.std\.specs\.Prelude\.\{([^,}]+)")
PASSED_ON = set("zero suc ◌+◌ ◌-◌ ◌*◌ ◌/◌ ◌%◌ ◌<◌ ◌≤◌ ◌&&◌ ◌||◌ min max cond not eqb ltb leb reverse length get_or take drop set replicate".split())
# Spellings of before that a turned text no longer has.
GONE = re.compile(r"·|(?:mathlib|native|lib|borrow|Prim)\.\w|(?<=\s)\.[a-z0-9]|⌜|⌝|(?<![\w◌])_[^\w\s(){},]+_|′")


def shown(commit, path):
    return subprocess.run(["git", "show", f"{commit}:{path}"], capture_output=True, text=True, check=True).stdout


def edits_of(commit):
    said = subprocess.run(["git", "ls-tree", "-r", "--name-only", commit, "crates"], capture_output=True, text=True, check=True).stdout
    return [path for path in said.split("\n") if path.endswith(".edit")]


def pairs(text):
    place, old, found = None, None, []
    for line in text.split("\n"):
        word, _, rest = line.partition(": ")
        if word == "file":
            place = rest
        elif word == "old":
            old = rest
        elif word == "new":
            found.append((place, old, rest))
    return found


def closing(text, at):
    """Where the bracket that ends at `at` begins."""
    depth = 0
    while at >= 0:
        depth += (text[at] in ")]}") - (text[at] in "([{")
        if depth == 0:
            return at
        at -= 1
    return -1


def applied(text, end):
    """Where the application that ends at `end` begins: names and brackets with single blanks between them."""
    begun = end
    while True:
        at = begun - (begun < end and text[begun - 1] == " ")
        start = closing(text, at - 1) if at and text[at - 1] in ")]}" else at
        start -= len(re.search(r"[\w'′.-]*$", text[:start]).group(0))
        word = text[start:at]
        if start < 0 or not word or word[-1] in ".-" or word in ("λ", "in", "let", "case", "record"):
            return begun
        begun = start
        if not text[:begun].endswith(" "):
            return begun


def fields(text):
    """`x .f` becomes `x.f`, `g x .f` `(g x).f`: a projection is written tight, and brackets round nothing else are left out."""
    while True:
        m = re.search(r"(?<=\S) \.(?=[a-z0-9])", text)
        if not m:
            return text
        start, end = applied(text, m.start()), re.compile(r"[\w'-]+").match(text, m.end()).end()
        term = text[start : m.start()]
        if " " in term and not (term[0] == "(" and closing(term, len(term) - 1) == 0):
            term = f"({term})"
        whole = term + "." + text[m.end() : end]
        if text[start - 1 : start] == "(" and text[end : end + 1] == ")":
            start, end = start - 1, end + 1
        text = text[:start] + whole + text[end:]


def turned(path, text):
    if path.endswith(".antt"):
        text = re.sub(r"(?<![\w◌])_([^\w\s(){},.]+)_(?!\w)", r"◌\1◌", text)
        text = re.sub(r"Rattle·(\w+)·specs\.specs\.", r"Rattle.\1.specs.", text)
        text = re.sub(r"Rattle·(\w+)\.", r"Rattle.\1.", text)
        text = fields(text)
        text = re.sub(r"(?<![\w'])(" + "|".join(map(re.escape, WORDS)) + r")(?![\w'])", lambda m: WORDS[m.group(1)], text)
        text = text.replace("′", "'")
    return PART.sub(lambda m: snake(m.group(0)), text)


def dashed(text, today):
    """Words with dashes of which today's file has the ones with low lines alone."""
    def now(m):
        word = m.group(0)
        low = word.replace("-", "_")
        return word if re.search(rf"(?<![\w'-]){re.escape(word)}(?![\w'-])", today) or not re.search(rf"(?<![\w'-]){re.escape(low)}(?![\w'-])", today) else low
    return re.sub(r"[a-z]\w*(?:-\w+)+", now, text)


def imported(text):
    """The names that a file's `use` lines bring in."""
    return {name.split(" as ")[-1].strip() for m in re.finditer(r"^(?:pub )?use [^{\n]*\{([^}]*)\}", text, re.M) for name in m.group(1).split(",")}


def tokens(text):
    return re.findall(r"[\w'′]+|[^\w\s]", text)


def lines_matched(old, new):
    """For each line of old, the line of new that stands for it, by their order and by what they say."""
    found = {}
    a, b = [re.sub(r"[\s()]", "", x) for x in old], [re.sub(r"[\s()]", "", x) for x in new]
    for tag, i, k, j, m in difflib.SequenceMatcher(None, a, b, autojunk=False).get_opcodes():
        if tag == "equal":
            found |= {i + n: j + n for n in range(k - i)}
        elif tag == "replace":
            for n in range(i, k):
                best = max(range(j, m), key=lambda r: difflib.SequenceMatcher(None, tokens(a[n]), tokens(b[r])).ratio())
                if difflib.SequenceMatcher(None, tokens(a[n]), tokens(b[best])).ratio() > 0.5:
                    found[n] = best
    return found


def line_of(text, part):
    return text[: text.index(part)].count("\n")


def turn(commit, name):
    """The edit's text in today's spelling, and what of it is left for the hand."""
    crate = name.split("/must-fail/")[0]
    said = shown(commit, name)
    before, today, left, made, wanted = {}, {}, [], [], {}
    for place, old, new in pairs(said):
        path = f"{crate}/{place}"
        if place not in before:
            before[place] = shown(commit, path)
            if os.path.exists(path):
                with open(path, encoding="utf-8") as f:
                    today[place] = f.read()
            else:
                left.append(f"there is no {path} today")
        if place not in today:
            made.append((place, old, new))
            continue
        assert before[place].count(old) == 1, (name, old)
        brought = re.fullmatch(rf"use {BEFORE}\{{([^}}]*)(\}}?)", old)
        if brought and path.endswith(".antt"):
            more = {turned(path, w.strip()) for w in new[new.index("{") + 1 :].rstrip("}").split(",")} - {turned(path, w.strip()) for w in old[old.index("{") + 1 :].rstrip("}").split(",")}
            wanted.setdefault(place, set()).update(more - {""})
            before[place] = before[place].replace(old, new)
            continue
        match = lines_matched([dashed(turned(path, x), today[place]) for x in before[place].split("\n")], today[place].split("\n"))
        n = line_of(before[place], old)
        there = match.get(n)
        now = today[place].split("\n")
        spoken = new
        if path.endswith(".antt"):
            for m in re.finditer(rf"(?<![\w.]){BEFORE}([^\s.;()\[\]]+)", new):
                wanted.setdefault(place, set()).add(turned(path, m.group(1)))
            spoken = re.sub(rf"(?<![\w.]){BEFORE}(?=[\w\[])(?!_)", "", new)
        a, b = dashed(turned(path, old), today[place]), dashed(turned(path, spoken), today[place])
        if today[place].count(a) != 1 or there is None or line_of(today[place], a) != there:
            left.append(f"{place}: old line  {before[place].split(chr(10))[n].strip()}\n      today     {'(none)' if there is None else now[there].strip()}\n      text      {a}  [stands {today[place].count(a)} times]\n      new       {b}")
        elif GONE.search(b) or GONE.search(a):
            left.append(f"{place}: a word of before in\n      new       {b}")
        made.append((place, a, b))
        before[place] = before[place].replace(old, new)
        today[place] = today[place].replace(a, b, 1)
    for place, words in wanted.items():
        words = sorted(words - imported(today[place]))
        line = PRELUDE.search(today[place])
        if words and (set(words) - PASSED_ON or not line or today[place].count(line.group(0)) != 1):
            left.append(f"{place}: to be imported: {', '.join(words)}")
        elif words:
            last = max(k for k, x in enumerate(made) if x[0] == place)
            made.insert(last + 1, (place, line.group(0), line.group(0).replace(line.group(1), ", ".join(words + [line.group(1)]))))
    out = [line for line in said.split("\n") if line.startswith("#")]
    place = None
    for p, a, b in made:
        out += ([f"file: {p}"] if p != place else []) + [f"old: {a}", f"new: {b}"]
        place = p
    return "\n".join(out) + "\n", left


def main(argv):
    landed, last = argv[0], argv[1]
    chosen = {name: landed for name in edits_of(landed)}
    for name in edits_of(last):
        if name not in chosen or (shown(landed, name) != shown(last, name) and name not in BACK):
            chosen[name] = last
    hand = 0
    for name in sorted(chosen):
        text, left = turn(chosen[name], name)
        hand += bool(left)
        for x in left:
            print(f"{name}\n    {x}")
        if "--write" in argv and not left:
            with open(name, "w", encoding="utf-8") as f:
                f.write(text)
    print(f"{len(chosen)} edits, {hand} left for the hand")
    return 0


# Changed after LANDED by work that is not to change them.
BACK = {"crates/sweeps/must-fail/last_destination_alone.edit"}

if __name__ == "__main__":
    raise SystemExit(main(sys.argv[1:]))
