#!/usr/bin/env python3
# Counts, in crates/*/src, the places that docs/DESIGN-PASS.md speaks of: `tools/design.py`, or `tools/design.py COMMIT` for an earlier state,
# with -v also where each stands. It reads text: a number is where to look, not a verdict.
import collections
import re
import subprocess
import sys

args = [a for a in sys.argv[1:] if a != "-v"]
verbose = "-v" in sys.argv


def shell(*command):
    return subprocess.run(command, capture_output=True, text=True, check=True).stdout


def files(suffix, part):
    names = shell("git", "ls-tree", "-r", "--name-only", args[0]) if args else shell("git", "ls-files")
    for name in names.split("\n"):
        if name.startswith("crates/") and f"/{part}/" in name and name.endswith(suffix):
            yield name, shell("git", "show", f"{args[0]}:{name}") if args else open(name).read()


sources = list(files(".rt", "src"))
places = collections.defaultdict(list)


def found(point, name, text, start, what):
    places[point].append(f"{name}:{text.count(chr(10), 0, start) + 1} {what}")


def parts(clause):
    out, depth, last = [], 0, 0
    for i, c in enumerate(clause):
        depth += (c in "({") - (c in ")}")
        if c == "×" and depth == 0:
            out.append(clause[last:i])
            last = i + 1
    return [p.strip() for p in out + [clause[last:]]]


HAND = r"\bfn (wide\d+|from\d+|same|equal|clear|fill|copy\w*|lesser\w*|least|stopped|either|starts_name|in_name|digit\w*|decimal\w*|read_digits|put_decimal|put_digits|number_size|side_\w+)\("
clauses, bunches = collections.defaultdict(list), collections.Counter()
for name, text in sources:
    for m in re.finditer(r"enum (\w+) \{(.*?)\n\}", text, re.S):
        variants = re.findall(r"^    (\w+)(\(.*\))?,", m[2], re.M)
        if len(variants) == 2 and any(v[1] for v in variants):
            found("1 enums like Option or Result", name, text, m.start(), m[1])
    for m in re.finditer(r"struct (\w+) \{(.*?)\n\}", text, re.S):
        if re.search(r": bool,", m[2]) and m[1] != "Atoms":
            found("1 flags beside values", name, text, m.start(), m[1])
    for m in re.finditer(r"^pub const (\w+): usize = \d+;", text, re.M):
        found("1 numbers for kinds", name, text, m.start(), m[1])
    for m in re.finditer(r"^// .*(\b0 where|\b0 if\b|, or 0\b|; 0 |; `at` where|\bor 0\.|\b0 for a yes|and one; 0|length \+ 1 after|from the table's count on).*$", text, re.M):
        found("1 numbers that say none", name, text, m.start(), m[0][3:60])
    for m in re.finditer(r"^( *)(while|loop)\b([^\n]*)\{\n(.*?)^\1\}", text, re.M | re.S):
        counted = re.findall(r"(\w+) [+-]= 1;", m[4])
        by_hand = any(re.search(rf"\b{c}\b", m[3]) for c in counted)
        found("3 loops that count by hand" if by_hand else "3 other while and loop", name, text, m.start(), m[3].strip())
    for m in re.finditer(HAND, text):
        found("4 written by hand", name, text, m.start(), m[1])
    for m in re.finditer(r"\b(from8|from16|from32|wide16|wide32|wide64)\(", text):
        found("4 calls of conversions of our own", name, text, m.start(), m[1])
    for m in re.finditer(r"^ +if .*\{\n +return .*;\n +\}\n", text, re.M):
        found("4 if and return", name, text, m.start(), "")
    for m in re.finditer(r"fn (\w+)(?:<[^>]*>)?\(([^{]*?)\)[^{]*?requires \{(.*)\}\n", text):
        for p in parts(m[3]):
            clauses[p].append(f"{name} {m[1]}")
    for m in re.finditer(r"fn (\w+)(?:<[^>]*>)?\(([^{]*?)\)", text):
        types = re.sub(r"&('a )?(mut )?", "&", " ".join(m[2].split()))
        for bunch in ("tape: &[u8], work: &[u8], m: Map", "tape: &[u8], work: &[u8], g: Ground", "lim: usize, to: usize"):
            bunches[bunch] += bunch in types
    for m in re.finditer(r"fn (?:\w+_)?(stage|resolved|admitted|items|call)\(|^pub fn (resolve|levels|macros|whole)\(tape", text, re.M):
        if name.startswith(("crates/stages", "crates/normalize")):
            found("7 the same steps for each pass", name, text, m.start(), m[0])

for clause, users in clauses.items():
    if len(users) >= 3 and len(clause) > 4:
        places["5 facts in three contracts or more"] += [f"{u}: {clause}" for u in users]
for bunch, n in bunches.items():
    places["5 parameters that travel together"] += [bunch] * n
for name, text in files("Answers.antt", "proofs"):
    places["8 answers"] += [f"{name} {g}" for g in re.findall(r"^pub (\S+) :", text, re.M)]

for point in sorted(places):
    print(f"{point}: {len(places[point])}")
    if verbose and not point.startswith(("8", "5")):
        print("\n".join("    " + p for p in places[point]))
