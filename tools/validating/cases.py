"""A case: the line that the program `cases` puts to the call for validating, and its answer, yes or the number of the question; and lines that are none."""
from validating.commands import length, word

HERE = object()                  # stands among a case's commands where the refusal points
WORK, ROOM = 8, 400000           # bytes of work for each byte of the tape; room for a tape in the program
lines, answers, names = [], [], set()


def add(case, parts, work, answer):
    assert case not in names and " " not in case and sum(map(length, parts)) <= ROOM, case
    names.add(case)
    lines.append(" ".join(["validate", case] + [word(p) for p in parts if length(p)] + ([] if work is None else [f"w{work}"])))
    answers.append(f"validate {case} {answer}")


def yes(case, *parts, work=None):
    """ "A yes gives the length of the tree written", here that of the tape"""
    assert HERE not in parts, case
    add(case, parts, work, f"yes {sum(map(length, parts))}")


def no(number, case, *parts, work=None):
    """ "2 to 4 the command's offset twice, the tape's length where a command is missing at its end" """
    assert parts.count(HERE) == 1, case
    k = parts.index(HERE)
    at = sum(map(length, parts[:k]))
    add(case, parts[:k] + parts[k + 1:], work, f"refused {number} {at} {at}")


def malformed(line):
    lines.append(line)
    answers.append("bad")


def lines_that_are_none():
    for line in ["", " ", "validate", "validate ", "validate  00", " validate none", "valid none", "Validate none", "level none", "levels",
                 "macro none", "macros", "wholes none", "whole", "whole ", "resolve", "resolve "]:
        malformed(line)
    for words in ["odd 0", "odd3 000", "letter 0G", "low aa", "two  00", "behind 00 ", "no-number a", "no-length w", "no-output o",
                  "no-limit l", "limit l1A", "no-times x41", "word-in a1b", "times-in 1x2x41", "odd-times 2x4", "too-many a70305",
                  "too-far 400001x00", "too-far2 400000x00 00", "too-much w3200001", "too-much-output o16385", "large w10000000", "larger w99999999999999999999", "stray -"]:
        malformed(f"validate {words}")
