"""What stands around a command: a whole command of each code, the places of a tape, and which codes are allowed there."""
from validating.commands import *

N = atom(b"N")                   # atom 0: a name, so a literal and an action text too
LEAF = bare(0x2A)
ALT = [nonterminal(alts=1), alternative(syms=1)]
SYMBOLS = list(range(0x20, 0x2D))
ITEMS = [0x10, 0x30, 0x31]
# a whole command of each code, with valid operands, and what stands inside of it
WHOLE = {
    0x01: [atom(b"O")], 0x10: [nonterminal()], 0x11: [argument()], 0x12: [alternative()], 0x13: [attribute()], 0x14: [condition()],
    0x20: [named(0x20)], 0x21: [named(0x21)], 0x22: [named(0x22)], 0x23: [named(0x23)], 0x24: [named(0x24)],
    0x25: [macro(), LEAF], 0x26: [repeat(), LEAF], 0x27: [choose(), LEAF], 0x28: [name(), LEAF], 0x29: [group()],
    0x2A: [bare(0x2A)], 0x2B: [bare(0x2B)], 0x2C: [bare(0x2C)], 0x30: [named(0x30)], 0x31: [named(0x31)],
}
CAN_BE_UNDEFINED = [c for c in WHOLE if c not in [0x01, 0x27, 0x29, 0x2A, 0x2B, 0x2C]]
# the commands before a place, and the codes that are allowed there
PLACES = {
    "atom": ([], [0x01] + ITEMS),                      # "All atoms come first"
    "item": ([named(0x30)], ITEMS),
    "argument": ([nonterminal(args=1)], [0x11]),       # "then args, then alternatives"
    "argument2": ([nonterminal(args=2), argument()], [0x11]),
    "alternative": ([nonterminal(alts=1)], [0x12]),
    "alternative2": ([nonterminal(alts=2), alternative()], [0x12]),
    "alternative-behind": ([nonterminal(args=1, alts=1), argument()], [0x12]),
    "attribute": ([nonterminal(alts=1), alternative(attrs=1)], [0x13]),      # "then attributes, condition, symbols"
    "attribute2": ([nonterminal(alts=1), alternative(attrs=2), attribute()], [0x13]),
    "condition": ([nonterminal(alts=1), alternative(cond=1)], [0x14]),
    "condition-behind": ([nonterminal(alts=1), alternative(attrs=1, cond=1), attribute()], [0x14]),
    "symbol": (ALT, SYMBOLS),
    "symbol2": ([nonterminal(alts=1), alternative(syms=2), LEAF], SYMBOLS),
    "symbol-behind": ([nonterminal(alts=1), alternative(cond=1, syms=1), condition()], SYMBOLS),
    "macro": (ALT + [macro(n=1)], SYMBOLS),
    "macro2": (ALT + [macro(n=2), LEAF], SYMBOLS),
    "repeat": (ALT + [repeat()], SYMBOLS),
    "choose": (ALT + [choose()], SYMBOLS),
    "name": (ALT + [name()], SYMBOLS),
    "group": (ALT + [group(1)], SYMBOLS),
    "group2": (ALT + [group(2), LEAF], SYMBOLS),
    "item-behind-symbols": (ALT + [LEAF], ITEMS),
    "item-behind-group": (ALT + [group(1), LEAF], ITEMS),
    "item-behind-arguments": ([nonterminal(args=1), argument()], ITEMS),
    "item-behind-attributes": ([nonterminal(alts=1), alternative(attrs=1), attribute()], ITEMS),
}
UNKNOWN = [0x00, 0x02, 0x0F, 0x15, 0x1F, 0x2D, 0x2F, 0x32, 0x81, 0xFF]   # beside the known codes, and two that are far away
# where a command of each code may stand
PLACE_OF = {0x01: "atom", 0x10: "item", 0x30: "item", 0x31: "item", 0x11: "argument", 0x12: "alternative", 0x13: "attribute", 0x14: "condition"}
PLACE_OF.update({c: "symbol" for c in SYMBOLS})


def before(code):
    return [N] + PLACES[PLACE_OF[code]][0]


def out_of_values(code):
    """a command with every operand undefined or out of its values"""
    return [u8(code)] + [b"\xff" * len(c) for c in WHOLE[code][0][1:]]
