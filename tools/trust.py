#!/usr/bin/env python3
"""Holds the references of docs/TRUST.md, `name` path:line, to the files: the line must have the name. With --write, sets the line numbers anew."""
import os
import re
import sys

from findings import ROOT, end

page = f"{ROOT}/docs/TRUST.md"
reference = re.compile(r"`([^`]+)` (crates/[^\s:,)]+):(\d+)")


def line_of(name, path):
    """The line that declares the name: its signature, record, field or function."""
    start = re.compile(
        r"^\s*(?:unfoldable |abbrev |pub |data |record |extern \"C\" |const )*(?:fn )?" + re.escape(name) + r"(?=[\s:({\[<])"
    )
    if not os.path.exists(f"{ROOT}/{path}"):
        return None
    with open(f"{ROOT}/{path}") as f:
        for number, line in enumerate(f, 1):
            if start.match(line):
                return number
    return None


def main():
    text, wrong = open(page).read(), []

    def check(match):
        name, path, number = match.group(1), match.group(2), int(match.group(3))
        found = line_of(name, path)
        if found != number:
            wrong.append(f"{name}: {path}:{number}, found at {found}")
        return f"`{name}` {path}:{found or number}"

    new = reference.sub(check, text)
    if "--write" in sys.argv:
        open(page, "w").write(new)
        wrong = [w for w in wrong if w.endswith("None")]
    end(wrong, f"docs/TRUST.md: {len(reference.findall(text))} references, {len(wrong)} wrong")


if __name__ == "__main__":
    main()
