#!/usr/bin/env python3
"""tools/plain_tier.py [--list]: counts the plain tier, the definitions of specs/ that a reader must believe: those which the public
contracts and the statements of demand 3 reach. Lines are counted without blank ones, imports and comments. --list names each with its lines.
With --check, the count must be the one that docs/TRUST.md prints and at most LIMIT, and no working definition may be among them."""
import glob
import os
import re
import sys

ROOT = os.path.dirname(os.path.dirname(os.path.abspath(__file__)))
LIMIT = 1250
# where the statements stand: the public functions of these files, exported to Rust or called from Rattle, and demand 3
EXPORTS = ["crates/exports/src/export.rt", "crates/normalize/src/calls.rt"]
DEMAND_3 = "crates/meaning/proofs/**/OnBytes.antt"
THEOREMS = ["demand_3", "demand_3_flat", "higher_answer", "higher_bytes"]

DECLARED = re.compile(r"^\s*(?:abbrev |unfoldable )?(?:pub )?(?:data |record )?([^\s(){}:]+)(?:\s[^:=]*)? :")
BLOCK = re.compile(r"^\s*(?:(?:abbrev |unfoldable )?mutual|module _.*|where)\b")
TOKEN = re.compile(r"[^\s(){}.;,@\"«»\[\]|↦]+")


class Definition:
    def __init__(self, path, name):
        self.path, self.name, self.lines, self.makes = path, name, [], []


def lines_of(path):
    with open(path) as f:
        return [l.rstrip("\n") for l in f if l.strip() and not l.strip().startswith("--")]


def imports(lines):
    """Local name → the module's path and the name there; and module aliases."""
    names, modules = {}, {}
    for line in lines:
        m = re.match(r"^(?:ghost )?use (Rattle\.[^{\s]+?)\.\{(.*)\};?$", line)
        if m:
            for part in m.group(2).split(", "):
                name, _, local = part.partition(" as ")
                names[local or name] = (m.group(1), name)
        m = re.match(r"^(?:ghost )?use (Rattle\.\S+) as (\S+?);?$", line)
        if m:
            modules[m.group(2)] = m.group(1)
    return names, modules


def file_of(module):
    """Rattle.passes.specs.Calls → crates/passes/specs/Calls.antt"""
    _, crate, *rest = module.split(".")
    return f"crates/{crate}/{'/'.join(rest)}.antt"


def definitions(path):
    """The definitions of a file, in order; heads of blocks count with the definition behind them, data and records with their parts."""
    found, waiting, current = [], [], None
    for line in lines_of(f"{ROOT}/{path}"):
        if line.startswith("use ") or re.match(r"^(pub )?mod ", line):
            continue
        inside = current and not BLOCK.match(line) and re.match(r"^\s*pub (?:data|record) ", current.lines[0]) and indent(line) > indent(current.lines[0])
        m = DECLARED.match(line)
        if not inside and BLOCK.match(line):
            waiting.append(line)
            current = None
        elif not inside and m and (line.lstrip().startswith(("abbrev", "unfoldable", "pub "))):
            current = Definition(path, m.group(1))
            current.lines, waiting = [line] + waiting, []
            found.append(current)
        else:
            current.lines.append(line)
            if inside and " : " in line and "data" in current.lines[0]:
                current.makes += [n for n in line.split(" : ")[0].split()]
    return found


def indent(line):
    return len(line) - len(line.lstrip())


class Specs:
    def __init__(self):
        self.files = {}

    def of(self, path):
        if path not in self.files:
            exists = os.path.exists(f"{ROOT}/{path}") and "/specs/" in path
            own = definitions(path) if exists else []
            names, modules = imports(lines_of(f"{ROOT}/{path}")) if exists else ({}, {})
            by_name = {d.name: d for d in own}
            for d in own:
                for made in d.makes:
                    by_name.setdefault(made, d)
            self.files[path] = (by_name, names, modules)
        return self.files[path]

    def find(self, path, name):
        by_name, names, _ = self.of(path)
        if name in by_name:
            return by_name[name]
        if name in names:
            module, there = names[name]
            return self.find(file_of(module), there)
        return None

    def uses(self, definition):
        by_name, names, modules = self.of(definition.path)
        text = "\n".join(definition.lines)
        for token in set(TOKEN.findall(text)):
            found = self.find(definition.path, token)
            if found and found is not definition:
                yield found
        for alias, module in modules.items():
            for name in re.findall(rf"\b{alias}\.([^\s(){{}}.;,]+)", text):
                found = self.find(file_of(module), name)
                if found:
                    yield found


def contracts():
    """What the public functions promise: the text of each ensures, with the file's imports."""
    for path in EXPORTS:
        lines, public, text = lines_of(f"{ROOT}/{path}"), False, []
        for line in lines:
            if " fn " in f" {line}":
                public = line.startswith("pub ")
            if public and "ensures" in line:
                text.append(line)
        yield imports(lines)[0], "\n".join(text)


def statements():
    """The theorems of demand 3, with what their modules assume."""
    for path in glob.glob(f"{ROOT}/{DEMAND_3}", recursive=True):
        lines = lines_of(path)
        text = "\n".join(line for line in lines if not line.startswith("use "))
        heads = re.findall(r"^module _.*?where$", text, re.M | re.S)
        theorems = [re.search(rf"^  pub {name} : .*?(?=^  \S)", text, re.M | re.S).group(0) for name in THEOREMS]
        yield imports(lines)[0], "\n".join(heads + theorems)


def roots(specs):
    for names, text in list(contracts()) + list(statements()):
        for token in set(TOKEN.findall(text)):
            if token in names and ".specs." in names[token][0]:
                yield specs.find(file_of(names[token][0]), names[token][1])


def reached(specs):
    seen, todo = {}, [r for r in roots(specs) if r]
    while todo:
        d = todo.pop()
        if (d.path, d.name) not in seen:
            seen[d.path, d.name] = d
            todo += list(specs.uses(d))
    return list(seen.values())


def check(total, files):
    """What is wrong: a working definition that a reader would need, more lines than LIMIT, or another number on the page."""
    wrong = [f"{path} is reached, and is no plain file" for path in files if "/Working/" in path]
    if total > LIMIT:
        wrong.append(f"{total} lines are more than {LIMIT}")
    printed = re.search(r"plain tier: ([\d,]+) lines", open(f"{ROOT}/docs/TRUST.md").read())
    if not printed or int(printed.group(1).replace(",", "")) != total:
        wrong.append(f"docs/TRUST.md does not say 'plain tier: {total:,} lines'")
    return wrong


def main():
    found = reached(Specs())
    files = {}
    for d in found:
        files.setdefault(d.path, []).append(d)
    total = 0
    for path in sorted(files):
        n = sum(len(d.lines) for d in files[path])
        total += n
        print(f"{n:5} {path}")
        if "--list" in sys.argv:
            for d in files[path]:
                print(f"      {len(d.lines):4} {d.name}")
    print(f"{total:5} lines, {len(found)} definitions")
    wrong = check(total, files) if "--check" in sys.argv else []
    for line in wrong:
        print(f"plain tier: {line}")
    return 1 if wrong else 0


if __name__ == "__main__":
    sys.exit(main())
