#!/usr/bin/env python3
"""tools/cost.py: for each crate the number of functions and the lines of code, specs, laws and what is written of each
function's proof, as docs/ARCHITECTURE.md has them. Lines without blank ones; in code without comments, imports and
tests, which stand last in a file."""
import re
from pathlib import Path

TOP = Path(__file__).resolve().parent.parent
IMPORT = re.compile(r"(ghost )?use ")
OF_A_FUNCTION = ("Invariants.antt", "Answers.antt")
TESTS = "\n#[cfg(test)]\n"


def lines(texts, skipped=lambda line: False):
    """How many lines of the texts are neither blank nor skipped."""
    return sum(1 for text in texts for line in text.splitlines() if line.strip() and not skipped(line.strip()))


def lines_of(paths):
    """The same of files."""
    return lines(path.read_text() for path in paths)


def is_left_out(line):
    return line.startswith("//") or IMPORT.match(line) is not None


def row(crate):
    """A line of the table."""
    sources = [path.read_text().split(TESTS)[0] for path in crate.glob("src/**/*.rt")]
    written = [path for path in crate.glob("proofs/**/*.antt") if path.name in OF_A_FUNCTION]
    laws = [path for path in crate.glob("proofs/**/*.antt") if path not in written]
    functions = sum(len(re.findall(r"^\s*(?:pub )?(?:extern \"C\" )?fn ", text, re.M)) for text in sources)
    specs = crate.glob("specs/**/*.antt")
    figures = [functions, lines(sources, is_left_out), lines_of(specs), lines_of(laws), lines_of(written)]
    return f"| {crate.name} | " + " | ".join(f"{figure:,}" if figure else "–" for figure in figures) + " |"


def main():
    names = [line.split(":")[0].split()[0] for line in (TOP / "crates.txt").read_text().splitlines() if line and not line.startswith("#")]
    print("| | functions | code | specs | laws | invariants and answers |")
    print("|---|---|---|---|---|---|")
    for name in names:
        print(row(TOP / "crates" / name))


if __name__ == "__main__":
    main()
