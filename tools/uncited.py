#!/usr/bin/env python3
"""tools/uncited.py: the lemmas and definitions that nothing cites, in every crate's specs and proofs (imports are rt tidy's): neither another declaration of
their file, nor a file that imports them, nor a function's attribute. A lemma is removed by hand. Exit status 1 if there is any. A theorem that is a statement
of its own, cited by documents only, is named in README.md or docs/."""
import glob
import os
import re

from findings import ROOT, end

TOKEN = re.compile(r"[^\s(){}.;,@\"«»]+")
SIGNATURE = re.compile(r"^(\s*)(?:(?:abbrev |unfoldable )?(?:pub )?([^\s(){}:=]+) : |(?:pub )?(?:record|data|ruleset) ([^\s(){}:=]+))")
IMPORT = re.compile(r"^\s*(?:pub )?(?:ghost )?use Rattle\.([\w.+]+?)(?:\.\{([^}]*)\}| as (\w[\w-]*))?;?$", re.M)
# what is written of the proof of one function
OF_A_FUNCTION = ("/Invariants.antt", "/Answers.antt")


def without_comments(text):
    return "\n".join(line for line in text.split("\n") if not re.match(r"^\s*(--|//)", line))


def module(path):
    """The path by which other files import a file."""
    return os.path.relpath(path, f"{ROOT}/crates")[: -len(".antt")].replace("/", ".")


def block(lines, at, indent, name):
    """The lines of a declaration: its signature, and what stands further in or goes on with its name."""
    last = at + 1
    for number in range(at + 1, len(lines)):
        line = lines[number]
        far = len(line) - len(line.lstrip())
        if line.strip() and far <= indent and not re.match(re.escape(name) + r"\s|unfolding\b|\}", line.strip()):
            break
        last = number + 1
    return lines[at:last]


def declared(text):
    """The top-level names of a file that have a signature, each with whether it is a record's field, and with what is left of the file without it."""
    lines = text.split("\n")
    in_record = False
    for number, line in enumerate(lines):
        if line and not line.startswith(" "):
            in_record = re.match(r"(pub )?(record|data) ", line) is not None
        match = SIGNATURE.match(line)
        if match and len(match.group(1)) <= 2:
            name = match.group(2) or match.group(3)
            own = block(lines, number, len(match.group(1)), name)
            yield name, in_record and line.startswith(" "), "\n".join(lines[:number] + lines[number + len(own):])


def words(text):
    return {part for token in TOKEN.findall(text) for part in token.split("::")}


def imported(texts):
    """For each module the names that other files take from it; a whole module that is taken under a name gives all that stand behind that name."""
    found = {}
    for text in texts.values():
        for source, names, other in IMPORT.findall(text):
            taken = found.setdefault(source, set())
            if names:
                taken |= {name.strip().split(" as ")[0].strip("@ ") for name in names.split(",")}
            elif other:
                taken |= set(re.findall(re.escape(other) + r"\.([^\s(){}.;,@\"«»]+)", text))
    return found


def uncited(paths, documents):
    """Names that occur nowhere but in their own declaration."""
    texts = {path: without_comments(open(path).read()) for path in paths}
    taken = imported(texts)
    own = {path: words(IMPORT.sub("", text)) for path, text in texts.items()}
    attributes = words("\n".join(re.findall(r"^\s*#!?\[.*$", "\n".join(text for path, text in texts.items() if path.endswith(".rt")), re.M)))
    for path in paths:
        if not path.endswith(".antt") or path.endswith(OF_A_FUNCTION):
            continue
        for name, is_field, rest in declared(texts[path]):
            elsewhere = any(name in found for other, found in own.items() if other != path) if is_field else name in taken.get(module(path), ())
            if not elsewhere and name not in attributes and name not in words(IMPORT.sub("", rest)) and f"`{name}`" not in documents:
                yield f"{os.path.relpath(path, ROOT)}: {name}"


def main():
    inside = [path for part in ("src", "specs", "proofs") for path in glob.glob(f"{ROOT}/crates/*/{part}/**", recursive=True)]
    paths = sorted(path for path in inside if path.endswith((".antt", ".rt")))
    documents = "".join(open(path).read() for path in [f"{ROOT}/README.md"] + glob.glob(f"{ROOT}/docs/*.md"))
    left = list(uncited(paths, documents))
    end(left, f"uncited: {len(left)}")


if __name__ == "__main__":
    main()
