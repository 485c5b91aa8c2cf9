#!/usr/bin/env python3
"""Lists the places in crates/*/src that docs/DESIGN-PASS.md counts, a line for each: point, kind of place, file:line, text.
usage: tools/forms.py [COMMIT] [-c | -f | -o]     (the checkout, or the sources at a commit; -c: the numbers alone; -f: the facts that the clauses
`requires` of three functions or more have, with how many; -o: counted in another way,
by what a line says and not by names: steps of a count, comments that name a value for nothing, functions that answer a number beside such a comment,
numbers compared with numbers that name a case, and pairs of parameters that stand together in three functions of a crate or more)"""
import re
import subprocess
import sys

# Parameters that stand side by side in the lists of three functions or more, as the page names them.
TOGETHER = [
    ('shifts', 'peels'), ('froms', 'pasts'), ('counts', 'ends'), ('ends', 'processors'), ('ends', 'lists'), ('store', 'bases'), ('vs', 'n'),
    ('blk', 'blocks'), ('first', 'last'), ('out', 'at'), ('first', 'last', 'array'), ('processors', 'phases'),
]
# point, kind of place, what a line of code has
LINES = [
    (1, 'a field or a case for a refusal beside others, or an enum of the shape of Option', r'^\s*(pub )?refusal: Refusal,$|^\s*Refused\(Refusal\),$|\benum (Collision|Step) \{'),
    (1, 'a refusal answered as a value', r'-> (Refusal|Outcome|Plan|Hand|Ran|Asked|Tested|Collision|Step)\b(?! \{$)|-> (Refusal|Outcome|Plan|Hand|Ran|Asked|Tested|Collision|Step)$'),
    (1, 'a test of a ground\'s number', r'ground != 0|\bground == 0|!= 0 \{$'),
    (1, 'a number for a ground', r'^pub const (TORN|KIND|FIELD|CROWD|ARRAY|BODY|EDGE|TAIL|SERIAL|PROCESSORS|SHORT|MEMORY|BUFFER|UNLIKE|STATE|LINE|PLAN|UNMET): u32|^\s*(pub )?ground: u32\b'),
    (1, 'a ground answered as a number', r'^fn \w*(early|tests|early_ground|edge_ground|fields_ground|item_early)\b.*-> u32'),
    (1, 'a number for a kind, an operation or a state', r'^(pub )?const (READ|DESTINATION|CONSTANT|OPERATION|STORED): |\b(op|kind): u32|\bo == 5|\bop == \d'),
    (1, 'a number for nothing', r'^(pub )?const (NONE|NO_PAIR)\b|if \w+ < 16 \{|^\s*16$|past <= other|other < past \{$|processors <= b \{$|^\s+past$|^\s+b$'),
    (2, 'a twin', r'\bfn (?!narrow\((?!x))(wide|widened|narrow|lesser|greater|smaller|larger|minus|above|length_of|put_line_of_two|put_line_of_three|put_line_of_four|read_tests|statement_tests|two_at|four_at)\('),
    (2, 'a call of a twin', r'(?<!fn )(?<!\.)(?<!s = )\b(wide|widened|narrow|lesser|greater|smaller|larger|minus|above|length_of|put_line_of_two|put_line_of_three|put_line_of_four)\((?!\s*$)'),
    (3, 'a loop by hand', r'^\s*(while|loop)\b'),
    (4, 'copying, comparing or converting by hand', r'\bfn (?!narrow\((?!x))(same_lengths|copy|kind_of|one_at|two_at|four_at|put_number|widened|wide|narrow)\('),
    (4, 'printing by hand', r'\bfn (put_byte|put_word|put_decimal|put_field|put_head)\('),
    (6, 'a store of numbers with named places', r'^(pub )?const [A-Z_]+_AT: |^(pub )?const (PASTS|SHIFTS|PHASE|LISTS|ALL_LISTS|ENDS): |^pub type \w+ = \[u\d+; '),
    (7, 'a switch on a step', r'\bmatch (step|found|hit|part|x|op|kind)\b'),
]


def sources(commit):
    if commit is None:
        names = subprocess.run(['git', 'ls-files', 'crates/*/src/*.rt'], capture_output=True, text=True, check=True).stdout.split()
        return [(n, open(n).read()) for n in names]
    names = subprocess.run(['git', 'ls-tree', '-r', '--name-only', commit, 'crates'], capture_output=True, text=True, check=True).stdout.split()
    names = [n for n in names if re.fullmatch(r'crates/[^/]+/src/[^/]+\.rt', n)]
    return [(n, subprocess.run(['git', 'show', f'{commit}:{n}'], capture_output=True, text=True, check=True).stdout) for n in names]


def code(text):
    """The lines of code: no comment, no clause."""
    for number, line in enumerate(text.split('\n'), 1):
        if re.match(r'\s*(//|ghost |requires |ensures |use )', line):
            continue
        yield number, line


def parameters(text):
    """Of each function its line, its name and its parameters' names."""
    for m in re.finditer(r'^\s*(?:pub )?(?:extern "C" )?fn (\w+)(?:<[^>]*>)?\(([^{}]*?)\)\s*(?:->|\n|\{|requires|ensures)', text, re.M):
        yield text.count('\n', 0, m.start()) + 1 + (1 if m.group(0).startswith('\n') else 0), m.group(1), re.findall(r'(?:^|,)\s*(?:mut )?(\w+):', m.group(2))


def facts(clause):
    """The facts of a clause: what stands between the products, without brackets around it, and without `now` and `old`."""
    parts, depth, start = [], 0, 0
    for i, letter in enumerate(clause):
        depth += letter in '([{'
        depth -= letter in ')]}'
        if letter == '×' and depth == 0:
            parts.append(clause[start:i])
            start = i + 1
    parts.append(clause[start:])
    for part in parts:
        part = re.sub(r'\.(now|old)\b', '', part).strip()
        if part.startswith('(') and part.endswith(')') and part.count('(') == part.count(')'):
            inner = part[1:-1]
            if '×' in inner:
                yield from facts(inner)
                continue
            part = inner
        yield part


def repeated_facts(files):
    found = {}
    for name, text in files:
        for m in re.finditer(r'^\s*requires (?:\w+ )?\{ (.*) \}$', text, re.M):
            for fact in facts(m.group(1)):
                found.setdefault(fact, []).append(name.split('/')[1])
    for fact, crates in sorted(found.items(), key=lambda f: (-len(f[1]), f[0])):
        if len(crates) >= 3:
            print(f'5\t{len(crates)}\t{fact}\t{" ".join(sorted(set(crates)))}')


def another_way(files):
    """What the lines above might pass over, found by the form of a line alone."""
    for name, text in files:
        for number, line in enumerate(text.split('\n'), 1):
            at = f'{name}:{number}'
            if re.search(r'^\s*\w+(\.\w+)? [+-]= 1;', line):
                print(f'3\ta step of a count\t{at}\t{line.strip()}')
            if re.search(r'^\s*//', line) and re.search(r'\b(if there is none|where there is none|past the last|0 where|none of them|nowhere|stands for no)\b', line):
                print(f'1\ta comment on a value for nothing\t{at}\t{line.strip()}')
            if re.search(r'\bif \w+(\.\w+)? == \d+ \{', line):
                print(f'1\ta number that names a case\t{at}\t{line.strip()}')
            if re.search(r'^\s*match \w+ \{', line):
                print(f'7\ta match\t{at}\t{line.strip()}')
    together = {}
    for name, text in files:
        for _, function, names in parameters(text):
            for i, a in enumerate(names):
                for b in names[i + 1:]:
                    together.setdefault((name.split('/')[1], a, b), []).append(function)
    for (crate, a, b), functions in sorted(together.items()):
        if len(functions) >= 3:
            print(f'5\tparameters {a}, {b}\t{crate}\t{" ".join(functions)}')


def main():
    arguments = [a for a in sys.argv[1:] if a not in ('-c', '-f', '-o')]
    files = sources(arguments[0] if arguments else None)
    if '-f' in sys.argv:
        repeated_facts(files)
        return
    if '-o' in sys.argv:
        another_way(files)
        return
    found = []
    for name, text in files:
        for number, line in code(text):
            for point, kind, pattern in LINES:
                if re.search(pattern, line):
                    found.append((point, kind, f'{name}:{number}', line.strip()))
        for number, function, names in parameters(text):
            for group in TOGETHER:
                if all(g in names for g in group):
                    found.append((5, 'parameters ' + ', '.join(group), f'{name}:{number}', function))
    counts = {}
    for point, kind, _, _ in found:
        counts[point, kind] = counts.get((point, kind), 0) + 1
    if '-c' not in sys.argv:
        for f in sorted(found, key=lambda f: (f[0], f[1])):
            print('\t'.join(map(str, f)))
    for (point, kind), n in sorted(counts.items()):
        print(f'{point}\t{n}\t{kind}')


main()
