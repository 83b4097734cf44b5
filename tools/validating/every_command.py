"""One tape with all commands: every prefix of it; and spans of any two numbers."""
from validating.cases import HERE, no, yes
from validating.places import *


def prefixes():
    spans = iter([(0, 0), (1, 2), (2, 1), (0xFFFFFFFF, 0xFFFFFFFF), (0x01020304, 0x05060708), (0, 0xFFFFFFFF), (0x10203040, 0x31302010)] * 4)

    def placed(command):
        s, e = next(spans)
        return [command[0], u32(s), u32(e)] + command[3:]
    # each command, and whether the tape may end before it: between atoms and items
    tape = [(N, True), (atom(b"M_1"), True), (atom(b"+"), True), (atom(b"\n\x7f"), True), (placed(named(0x30)), True),
            (placed(nonterminal(1, 3, 1, 2)), True), (argument(0), False), (placed(alternative(2, 1, 1, 3, 6)), False),
            (attribute(1, 1, 3, 3), False), (attribute(0, 0, 0, 0), False), (placed(condition(0, 1, 2)), False),
            (placed(repeat(2)), False), (placed(choose()), False), (placed(name(1, 1)), False), (placed(group(2)), False),
            (placed(named(0x20, 1)), False), (placed(named(0x21, 0)), False), (placed(named(0x22, 2)), False), (placed(named(0x23, 1)), False),
            (placed(named(0x24, 1)), False), (placed(macro(1, 2)), False), (placed(bare(0x2A)), False), (placed(bare(0x2B)), False),
            (placed(bare(0x2C)), False), (placed(alternative(0, 0, 3, 0, 0)), False), (placed(named(0x31, 1)), True)]
    assert {c[0][0] for c, _ in tape} == set(WHOLE)
    done = []
    for command, may_end in tape:
        whole = b"".join(command)
        if may_end:
            yes(f"prefix-{sum(map(length, done))}", *done)
        else:
            no(2, f"prefix-{sum(map(length, done))}", *done, HERE)
        for k in range(1, len(whole)):
            no(2, f"prefix-{sum(map(length, done)) + k}", *done, HERE, [whole[:k]])
        done.append(command)
    yes(f"prefix-{sum(map(length, done))}", *done)
    yes("every-command-twice", *done, *done[4:])


def spans():
    for case, s, e in [("last", 0xFFFFFFFF, 0xFFFFFFFF), ("zero", 0, 0), ("ordered", 1, 2), ("not-ordered", 2, 1), ("not-ordered-far", 0xFFFFFFFF, 0)]:
        at = [u32(s), u32(e)]

        def put(c):
            return c[:1] + at + c[3:]
        yes(f"span-{case}", N, put(nonterminal(alts=1)), put(alternative(cond=1, syms=2)), put(condition()), put(repeat()), put(bare(0x2B)),
            put(named(0x22)), put(named(0x30)), put(named(0x31)))
