#!/usr/bin/env python3
"""Turns the walked proofs of a crate, proofs/F/Proof.antt, into Invariants.antt and Answers.antt, once, after port.py.

usage: tools/answers.py CRATE NAMES     NAMES: the names.json that `rt check --generated FOLDER --old-names` writes in the crate

A goal gets today's name, a step of the code too, and the chain .before.before falls away. What it can't place is marked LOST_.
"""

import json
import os
import re
import sys

IDENT = r"[^\s(){}\[\].,;:]+"
OWN = "own"
# By function, the names of its clauses.
CLAUSES = {}
# By function, its parameters.
PARAMS = {}
ROOTS = {"args", "requires", "ranges", "type_inv", "utf8", "well_formed"}


def read_clauses():
    for folder, _, files in os.walk("crates"):
        for f in files:
            if not f.endswith(".rt"):
                continue
            crate = folder.split(os.sep)[1]
            inside, function = "", None
            with open(os.path.join(folder, f), encoding="utf-8") as it:
                for l in it:
                    m = re.match(r"impl (\w+)", l)
                    if m:
                        inside = m.group(1) + "::"
                    elif l.startswith("}"):
                        inside = "" if inside else inside
                    m = re.match(r'\s*(?:pub )?(?:extern "C" )?fn (\w+)', l)
                    if m:
                        function = f"{crate}::{inside}{m.group(1)}"
                        CLAUSES[function] = {"requires": [], "ensures": []}
                        PARAMS[function], heading = [], True
                    if function and heading:
                        inner = l.split("(", 1)[-1] if m else l
                        PARAMS[function] += re.findall(r"(?:mut )?\b(\w+): |\b(self)\b", inner.split(" -> ")[0])
                        heading = ")" not in inner.split(" -> ")[0] or (inner.rstrip().endswith(",") and "->" not in inner)
                    m = re.match(r"\s*(requires|ensures) (?:(\w+) )?\{", l)
                    if m and function:
                        CLAUSES[function][m.group(1)].append(m.group(2))


def top_tuple(text):
    """The text before a tuple that ends it, and the tuple's parts."""
    s = text.rstrip()
    if not s.endswith(")"):
        return None
    depth, k = 0, len(s) - 1
    while k >= 0:
        depth += (s[k] == ")") - (s[k] == "(")
        if depth == 0:
            break
        k -= 1
    inner, parts, depth, last = s[k + 1:-1], [], 0, 0
    for i, ch in enumerate(inner):
        depth += (ch in "([{") - (ch in ")]}")
        if ch == "," and depth == 0:
            parts.append(inner[last:i].strip())
            last = i + 1
    if inner[last:].strip():
        parts.append(inner[last:].strip())
    return (s[:k], parts) if len(parts) > 1 else None


def as_record(body, names, steps):
    """An answer that was a tuple, nested to the right, as a record of the clauses."""
    fields, rest = [], body
    got = top_tuple(body)
    if got and re.search(r"(=|in|refl|\)|\w)\s*$", got[0] or "="):
        head, parts = got
        values = []
        while len(values) < len(names) - 1:
            values.append(parts[0])
            more = parts[1:]
            if len(values) == len(names) - 1:
                values.append(more[0] if len(more) == 1 else "(" + ", ".join(more) + ")")
                break
            nested = top_tuple(more[0]) if len(more) == 1 else None
            if not nested or nested[0].strip():
                return body + "\n    -- LOST_record " + " ".join(names)
            parts = nested[1]
        return head + "record { " + "; ".join(f"{n} = {v}" for n, v in zip(names, values)) + " }"
    m = re.fullmatch(r"(.*[\s=])(c\.([^\s.]+)\.ensures)\s*", body, re.S)
    if m:
        theirs = next((CLAUSES[f]["ensures"] for f in steps.callee.values() if f in CLAUSES and any(steps.field[p][1] == m.group(3) and steps.callee[p] == f for p in steps.field)), [])
        if len(theirs) == len(names):
            return m.group(1) + "record { " + "; ".join(f"{n} = {m.group(2)}.{u}" for n, u in zip(names, theirs)) + " }"
    m = re.fullmatch(r"(\s*(?:let .*? in\s+)*)rw (\((?:[^()]|\([^()]*\))*\)|\S+)\s+\((.*)\)\s*", body, re.S)
    if m and len(names) == 2:
        return m.group(1).rstrip() + f"\n    let both = {m.group(3)} in\n    rw {m.group(2)} record {{ {names[0]} = both.0; {names[1]} = both.1 }}"
    if len(names) == 2:
        return "\n    let both =" + body.rstrip() + f" in\n    record {{ {names[0]} = both.0; {names[1]} = both.1 }}"
    return body + "\n    -- LOST_record " + " ".join(names)


def norm(s):
    return s.replace("_", "-").lower()


def need_key(s):
    s = norm(s)
    return s[len("overflow-"):] if s.startswith("overflow-") else s


def blocks(text):
    """The use lines, and the declarations: each with its comments, its name, its signature and its body."""
    uses, items, comment, lines = [], [], [], text.split("\n")
    k = 0
    while k < len(lines):
        l = lines[k]
        if l.startswith("use ") or l.startswith("pub use "):
            uses.append(l)
            k += 1
        elif not l.strip():
            k += 1
        elif l.startswith("--"):
            comment.append(l)
            k += 1
        else:
            m = re.match(r"^((?:abbrev |unfoldable )?(?:pub )?)(" + IDENT + r") :(?: |$)", l)
            if not m:
                items.append([comment, None, [l]])
                comment = []
                k += 1
                while k < len(lines) and (lines[k].startswith(" ") or lines[k] == ""):
                    if lines[k]:
                        items[-1][2].append(lines[k])
                    k += 1
                continue
            name, own = m.group(2), [l]
            k += 1
            while k < len(lines) and (lines[k] == "" or lines[k].startswith((" ", "unfolding", ")")) or re.match(re.escape(name) + r"(\s|$)", lines[k])):
                if lines[k] == "":
                    # A blank line ends the declaration, unless its own text goes on.
                    nxt = next((x for x in lines[k + 1:] if x), "")
                    if not nxt.startswith(" ") and not re.match(re.escape(name) + r"(\s|$)", nxt):
                        break
                else:
                    own.append(lines[k])
                k += 1
            items.append([comment, name, own])
            comment = []
    return uses, items


class Steps:
    def __init__(self, d):
        self.before = {p[0]: p[1] for p in d["places"]}
        self.field = {p[0]: p[2] for p in d["places"]}
        self.new_place = {p[0]: n for p, n in zip([p for p in d["places"] if p[0] != "Untold"], [n for n in d["places_by_name"] if n != "Untold"])}
        self.callee = {p[0]: p[3] for p in d["places"]}
        self.new_arm = {}
        for arm in d["arms"]:
            if arm:
                for f, old, path in arm[2]:
                    self.new_arm.setdefault(norm(old), []).append((arm[0], f, path))
        self.d = d

    def back(self, place, n):
        for _ in range(n):
            place = self.before.get(place) or place
        return place

    def chain(self, place):
        while place:
            yield place
            place = self.before.get(place)

    def turn(self, place, rest, asked):
        """c.REST at the place, as today's path; None where no step has that name. Older chains have more steps, so those after the place are
        looked at last."""
        # port.py takes a step that is called size-of for the library's.
        first = re.sub("^type_size", "size-of", rest[0])
        if first == "pre":
            first, rest = "requires", ["requires"] + rest[1:]
        if first in ROOTS:
            m = re.fullmatch(r"t(\d+)", rest[1]) if first == "args" and len(rest) > 1 else None
            if m and int(m.group(1)) <= len(PARAMS.get(OWN, [])):
                rest = [first, PARAMS[OWN][int(m.group(1)) - 1]] + rest[2:]
            return ["c"] + self.clause(rest, "requires", OWN)
        for p in list(self.chain(place)) + list(self.chain(asked)):
            old, new = self.field[p]
            if old and norm(old) in (norm(first), norm(re.sub("_lem$", "", first))):
                for arm, f, path in self.new_arm.get(norm(old), []):
                    if path and rest[1:1 + len(path)] == path:
                        return ["c", arm, f] + rest[1 + len(path):]
                if rest[1:3] == ["kept", "0"]:
                    rest = [rest[0], "auto", "0"] + rest[3:]
                if rest[1:] in (["taken"], ["left"]):
                    rest = [rest[0], "true" if rest[1] == "taken" else "false"]
                return ["c", new] + self.lent(self.clause(rest[1:], "ensures", self.callee.get(p)), self.callee.get(p))
        return None

    def lent(self, rest, function):
        """What a lent argument holds after a call, by the parameter's name and no longer by its place."""
        if len(rest) > 1 and rest[0] in ("new", "auto") and function in self.d["params"]:
            k, n = 1, 0
            while k < len(rest) and rest[k] == "1":
                k, n = k + 1, n + 1
            if k < len(rest) and rest[k] == "0" and n < len(self.d["params"][function]):
                return [rest[0], self.d["params"][function][n]] + rest[k + 1:]
        return rest

    @staticmethod
    def clause(rest, kind, function):
        """A clause by its name, where there are two or more: an older Rattle numbered them, nested to the right."""
        names = CLAUSES.get(function or "", {}).get(kind, [])
        if len(rest) < 2 or rest[0] != kind or len(names) < 2:
            return rest
        k, tail = 0, rest[1:]
        while tail and tail[0] in ("0", "1"):
            if tail[0] == "0" or k == len(names) - 2:
                return [kind, names[k + int(tail[0])]] + tail[1:]
            k, tail = k + 1, tail[1:]
        return rest

    def record(self, goal, place, asked):
        """The record of what is known at a place, at a goal."""
        if place == asked:
            return "c"
        return f"(goal.at.{goal} c).{self.new_place.get(place, place)}" if goal else f"LOST_{place}"

    def callee_of(self, goal):
        """The function whose requires an older goal, as keep-requires-2, is."""
        m = re.fullmatch(r"(.*)-requires(?:-(\d+))?", goal)
        if m:
            for p, (old, _) in self.field.items():
                if norm(old) == norm(m.group(1) + (m.group(2) or "")):
                    return self.callee[p]
        return None


PATH = re.compile(r"(?<![\w'.\-₀-₉])(" + r"[A-Za-z_][\w'₀-₉-]*" + r")((?:\.[\w'₀-₉λκ-]+)+)")


def paths(body, steps, place, goal):
    """The body with each path from c, or from a name bound to a chain of c's, in today's form."""
    alias = {"c": place}
    lost = 0

    def bind(m):
        nonlocal lost
        name, who, tail = m.group(1), m.group(2), [x for x in m.group(3).split(".") if x]
        if who in alias and all(x == "before" for x in tail):
            alias[name] = steps.back(alias[who], len(tail))
            return ""
        return m.group(0)

    out, pos = [], 0
    # Bindings come before their uses, so one pass over the text serves.
    token = re.compile(r"let (\w+) = (\w+)((?:\.before)*) in ?|" + PATH.pattern)
    # Names bound to the requires, or to a step.
    parts = {}
    for m in token.finditer(body):
        out.append(body[pos:m.start()])
        pos = m.end()
        if m.group(1):
            if m.group(2) in alias:
                alias[m.group(1)] = steps.back(alias[m.group(2)], m.group(3).count(".before"))
                if m.group(1) == "c":
                    out.append(m.group(0))
            else:
                out.append(m.group(0))
            continue
        who, tail = m.group(4), m.group(5).split(".")[1:]
        if who not in alias:
            if who in parts:
                kind, function = parts[who]
                m2 = re.fullmatch(r"t(\d+)", tail[0]) if kind == "args" else None
                if kind == "args":
                    if m2 and int(m2.group(1)) <= len(PARAMS.get(OWN, [])):
                        tail = [PARAMS[OWN][int(m2.group(1)) - 1]] + tail[1:]
                    out.append(".".join([who] + tail))
                    continue
                if kind in ("requires", "its"):
                    word = "requires" if kind == "requires" else "ensures"
                    out.append(".".join([who] + steps.clause([word] + tail, word, function)[1:]))
                else:
                    out.append(".".join([who] + steps.lent(steps.clause(tail, "ensures", function), function)))
            else:
                out.append(m.group(0))
            continue
        p = alias[who]
        n = 0
        while n < len(tail) and tail[n] == "before":
            n += 1
        if n == len(tail):
            out.append(steps.record(goal, steps.back(p, n), place))
            continue
        t = steps.turn(steps.back(p, n), tail[n:], place)
        if t is None:
            out.append("LOST_" + m.group(0))
            lost += 1
        else:
            out.append(".".join(t))
            b = re.search(r"let (\w+) = $", "".join(out[-2:-1]))
            if b and body[pos:pos + 3] == " in":
                if t == ["c", "args"]:
                    parts[b.group(1)] = ("args", OWN)
                elif t == ["c", "requires"]:
                    parts[b.group(1)] = ("requires", OWN)
                elif len(t) == 2 or len(t) == 3 and t[2] == "ensures":
                    function = next((steps.callee[q] for q in steps.field if steps.field[q][1] == t[1] and steps.callee[q]), None)
                    if function:
                        parts[b.group(1)] = ("ensures" if len(t) == 2 else "its", function)
    out.append(body[pos:])
    text = "".join(out)
    text = re.sub(r"\n[ \t]+\n", "\n", "\n" + text)[1:]
    # A bare name of a record that is gone.
    for a in alias:
        if a != "c" and re.search(r"(?<![\w.'-])" + a + r"(?![\w'-])", text):
            text = re.sub(r"(?<![\w.'-])" + a + r"(?![\w'.-])", lambda m: steps.record(goal, alias[a], place), text)
    return text, lost


def loop_of(d, name):
    for k, ((old, new), variables) in enumerate(d["loops"]):
        if norm(old) == norm(name):
            return new, variables, d["changed"][k]
    return None


def invariant(kind, name, own, d):
    """One invariant or measure, over l."""
    new, variables, changed = loop_of(d, name)
    text = "\n".join(own[1:])
    m = re.match(r"\s*" + re.escape(kind + "-" + name) + r"((?:\s+" + IDENT + r")*)\s*=(.*)", text, re.S)
    unf = "".join(l + "\n" for l in own[1:] if l.startswith("unfolding"))
    if unf:
        text = "\n".join(l for l in own[1:] if not l.startswith("unfolding"))
        m = re.match(r"\s*" + re.escape(kind + "-" + name) + r"((?:\s+" + IDENT + r")*)\s*=(.*)", text, re.S)
    params, body = m.group(1).split(), m.group(2)
    want = [("l.initial." if c else "l.") + v for v, c in zip(variables, changed)] + ["l." + v for v, c in zip(variables, changed) if c]
    note = "" if len(params) == len(want) else f"-- LOST_parameters {params} {want}\n"
    by = {p: w for p, w in zip(params, want) if p != "_"}
    if by:
        body = re.sub(r"(?<![\w.'₀-₉-])(" + "|".join(map(re.escape, sorted(by, key=len, reverse=True))) + r")(?![\w'₀-₉-])", lambda m: by[m.group(1)], body)
    body = re.sub(r"(l\.[\w.]+)\.now\b", r"\1", body)
    return note + f"abbrev pub {kind}-{new} : goal.{kind}-{new}\n" + unf + f"{kind}-{new} l ={body}"


def turn(crate, folder, d):
    path = os.path.join(folder, "Proof.antt")
    with open(path, encoding="utf-8") as f:
        uses, items = blocks(f.read())
    steps = Steps(d)
    asked = {need_key(o): (n, a[0]) for (o, n), a in zip(d["needs"], d["asked_at"])}
    inv, ans, lost, helpers, records = [], [], 0, [], set()
    for comment, name, own in items:
        sig = own[0]
        head = "".join(c + "\n" for c in comment)
        m = re.search(r": tie\.(invariant|decreases)-([\w-]+)", sig)
        if m:
            inv.append(head + invariant(m.group(1), m.group(2), own, d))
            continue
        m = re.search(r": tie\.Need-([\w-]+)", sig)
        if m:
            key = need_key(m.group(1))
            if key not in asked:
                ans.append(head + "-- LOST_GOAL " + m.group(1) + "\n" + "\n".join("-- " + l for l in own))
                lost += 1
                continue
            new, place = asked[key]
            unf = [l for l in own[1:] if l.startswith("unfolding") or (l.startswith("    ") and own[own.index(l) - 1].startswith("unfolding"))]
            body = "\n".join(l for l in own[1:] if l not in unf)
            m2 = re.match(re.escape(name) + r"\s+(\S+)((?:\s+" + IDENT + r")*?)\s*=(.*)", body, re.S)
            if not m2:
                ans.append(head + "-- LOST_GOAL " + m.group(1) + "\n" + "\n".join("-- " + l for l in own))
                lost += 1
                continue
            extra = m2.group(2).replace("κs", "").strip()
            rest = m2.group(3)
            if not unf and re.fullmatch(r"\s*search rules\s*|\s*omega arith\s*", rest):
                continue
            rest, n = paths(rest, steps, place, new)
            rest = re.sub(r"^\s*\n[ \t]*\n", "\n", rest)
            lost += n
            c = m2.group(1)
            names = CLAUSES.get(OWN, {}).get("ensures", []) if new.startswith("returns") else CLAUSES.get(steps.callee_of(m.group(1)) or "", {}).get("requires", [])
            if len(names) > 1:
                rest = as_record(rest, names, steps)
            ans.append(head + f"pub {new} : goal.{new}\n" + "".join(l + "\n" for l in unf) + f"{new} {c}{' ' + extra if extra else ''} ={rest}")
            continue
        if re.search(r"M : Type 1\} → statement M", sig):
            continue
        text = "\n".join(own)
        m = re.search(r"\(c : tie\.([\w-]+)[^)]*\)", text)
        if m:
            # A lemma over what is known at one place.
            place = next((p for p in steps.field if norm(p) == norm(m.group(1))), None)
            records.add(steps.new_place.get(place, m.group(1)))
            k = next((i for i, l in enumerate(own) if i and re.match(re.escape(name) + r"(\s|$)", l)), 1)
            said, n1 = paths("\n".join(own[:k]).replace(m.group(0), f"(c : {steps.new_place.get(place, m.group(1))})"), steps, place, None)
            did, n2 = paths("\n".join(own[k:]), steps, place, None)
            text = said + "\n" + did
            lost += n1 + n2
        if "tie." in text:
            lost += 1
            text = "-- LOST_HELPER\n" + text
        helpers.append(head + text)
    mine = os.path.relpath(folder, os.path.join("crates", crate, "proofs")).replace("/", ".")
    kept = [u for u in uses if not re.search(r"\.Statement\.\{statement\}|\.Tie as tie$", u)]
    goal = f"use Rattle.{crate}.proofs.{mine}."
    if inv:
        with open(os.path.join(folder, "Invariants.antt"), "w", encoding="utf-8") as f:
            f.write("\n".join(kept + [goal + "Given as goal"]) + "\n\n" + "\n\n".join(inv) + "\n")
    if ans or helpers:
        with open(os.path.join(folder, "Answers.antt"), "w", encoding="utf-8") as f:
            also = [goal + "Goals.{" + ", ".join(sorted(records)) + "}"] if records else []
            f.write("\n".join(kept + [goal + "Goals as goal"] + also) + "\n\n" + "\n\n".join(helpers + ans) + "\n")
    os.remove(path)
    return lost


def main(argv):
    crate, names = argv
    read_clauses()
    with open(names, encoding="utf-8") as f:
        d = json.load(f)
    for folder, dirs, fs in os.walk(os.path.join("crates", crate, "proofs")):
        if "Proof.antt" not in fs:
            continue
        mine = os.path.relpath(folder, os.path.join("crates", crate, "proofs")).replace("/", ".")
        key = f"Rattle-{crate}-proofs.{mine}.Lts"
        if key not in d:
            print("answers: no names for", mine)
            continue
        PARAMS[OWN] = [a or b for a, b in PARAMS.get(crate + "::" + mine.replace(".", "::"), [])]
        CLAUSES[OWN] = CLAUSES.get(crate + "::" + mine.replace(".", "::"), {})
        lost = turn(crate, folder, d[key])
        print("answers:", mine, "lost", lost) if lost else None


main(sys.argv[1:])
