"""4: "Does each text suit its use?" """
from validating.cases import HERE, no, yes
from validating.places import *


# each use of the text of an atom: what stands before the command, the command, what stands inside; atom 0 is a name
def in_alternative(c, *inside, attrs=0, cond=0, syms=0):
    return ([nonterminal(alts=1), alternative(attrs, cond, syms=syms)], c, list(inside))


def name_uses(k):
    return {
        "10": ([], nonterminal(k), []), "11": ([nonterminal(args=1)], argument(k), []), "30": ([], named(0x30, k), []), "31": ([], named(0x31, k), []),
        "13-id": in_alternative(attribute(k), attrs=1), "13-id-kind-1": in_alternative(attribute(k, 1), attrs=1),
        "14-lhs": in_alternative(condition(k), cond=1), "20": in_alternative(named(0x20, k), syms=1), "21": in_alternative(named(0x21, k), syms=1),
        "24": in_alternative(named(0x24, k), syms=1), "25": in_alternative(macro(k), LEAF, syms=1), "28": in_alternative(name(0, k), LEAF, syms=1),
        "28-mut": in_alternative(name(1, k), LEAF, syms=1)}


def literal_uses(k):
    return {
        "22": in_alternative(named(0x22, k), syms=1), "23": in_alternative(named(0x23, k), syms=1),
        "14-rhs": in_alternative(condition(0, 0, k), cond=1), "14-rhs-not": in_alternative(condition(0, 1, k), cond=1)}


def ascii_uses(k):
    return {
        "12-user": ([nonterminal(alts=1)], alternative(act=1, text=k), []), "12-fallible": ([nonterminal(alts=1)], alternative(act=2, text=k), []),
        "13-key": in_alternative(attribute(0, 1, k, 0), attrs=1), "13-value": in_alternative(attribute(0, 1, 0, k), attrs=1)}


# "Names are nonempty: letter or `_`, then letters, digits, `_`; `mut` and `error` are refused": beside each range, first and later
BESIDE = [b"/", b":", b"@", b"[", b"^", b"`", b"{"]
NOT_NAMES = [b"", b"0", b"9", b"0a", b"\x00", b"\x7f", b"\x80", b"\xc1"] + BESIDE + [b"a" + c for c in BESIDE]
NOT_NAMES += [b"a\x00", b"a ", b"a\x7f", b"a\x80", b"a\xe1", b"aa-a", b"mut", b"error"]
ARE_NAMES = [b"A", b"Z", b"a", b"z", b"_", b"r", b"aA", b"aZ", b"aa", b"az", b"a_", b"a0", b"a9", b"_0", b"__", b"mutt", b"error1", b"mu", b"erro"]
ARE_NAMES += [b"Mut", b"Error", b"mut_", b"_mut", b"emut", b"errors", b"mur", b"errot", b"muterror", b"n" * 300]
# "Quoted and regex texts and rhs use bytes 20 to 7e"
NOT_LITERALS = [b"\x1f", b"\x7f", b"\x80", b"\x00", b"\xff", b"a\x1f", b"a\x7f", b"a\x80a", b"\n"]
ARE_LITERALS = [b"", b" ", b"~", b" ~", b"mut", b"error", b"0", b"\"", b"\\", bytes(range(0x20, 0x7F))]
# "action texts, keys and values bytes 00 to 7f"
NOT_ASCII = [b"\x80", b"\xff", b"a\x80", b"\x80a", b"\xc3\xa9"]
ARE_ASCII = [b"", b"\x00", b"\x1f", b" ", b"~", b"\x7f", b"mut", b"error", b"0", bytes(range(0x80))]


def shown(text):
    return "empty" if text == b"" else text.hex()[:16]


def texts():
    for uses, bad, good in [(name_uses, NOT_NAMES, ARE_NAMES), (literal_uses, NOT_LITERALS, ARE_LITERALS), (ascii_uses, NOT_ASCII, ARE_ASCII)]:
        for use, (front, command, inside) in uses(1).items():
            for text in bad:
                no(4, f"text-{use}-not-{shown(text)}", N, atom(text), *front, HERE, command, *inside)
            every = []
            for k in range(len(good)):
                front, command, inside = uses(k + 1)[use]
                every += front + [command] + inside
            yes(f"text-{use}-good", N, *[atom(t) for t in good], *every)
    # the texts that others use are not asked
    yes("text-unused", N, *[atom(t) for t in NOT_NAMES], nonterminal(0, alts=1), alternative(syms=1), named(0x20, 0))
    no(4, "text-at-the-use", atom(b"-"), N, named(0x30, 1), HERE, named(0x30, 0), named(0x30, 1))
