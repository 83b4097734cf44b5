"""3: "Is each operand defined, in its values, each atom new, nesting in bounds?" """
from validating.cases import HERE, no, yes
from validating.places import *

A = [N, atom(b"M")]              # two atoms, so number 2 is undefined
alts = A + [nonterminal(alts=1)]
attr = alts + [alternative(attrs=1)]
cond = alts + [alternative(cond=1)]
sym = A + ALT


def operands_out():
    bad = {
        "10-name": (A, nonterminal(name=2)), "10-name-high": (A, nonterminal(name=256)),
        "10-flags-4": (A, nonterminal(flags=4)), "10-flags-ff": (A, nonterminal(flags=255)),      # "flags 1 inline, 2 pub, added together"
        "11-name": (A + [nonterminal(args=1)], argument(2)),
        "12-cond-2": (alts, alternative(cond=2)),                                                  # "cond8 is 0 or 1"
        "12-act-5": (alts, alternative(act=5)), "12-act-ff": (alts, alternative(act=255)),
        "12-text-act-0": (alts, alternative(act=0, text=1)), "12-text-act-3": (alts, alternative(act=3, text=1)),   # "text16 is 0 for 0, 3, 4"
        "12-text-act-4": (alts, alternative(act=4, text=1)), "12-text-act-0-high": (alts, alternative(act=0, text=256)),
        "12-text-act-1": (alts, alternative(act=1, text=2)), "12-text-act-2": (alts, alternative(act=2, text=2)),
        "13-id": (attr, attribute(id=2)), "13-kind-2": (attr, attribute(kind=2)), "13-kind-ff": (attr, attribute(kind=255)),
        "13-key-kind-0": (attr, attribute(kind=0, key=1)), "13-value-kind-0": (attr, attribute(kind=0, value=1)),   # "key and value 0, no atoms"
        "13-key-kind-0-high": (attr, attribute(kind=0, key=256)), "13-value-kind-0-high": (attr, attribute(kind=0, value=256)),
        "13-key": (attr, attribute(kind=1, key=2)), "13-value": (attr, attribute(kind=1, value=2)),
        "14-lhs": (cond, condition(lhs=2)), "14-op-2": (cond, condition(op=2)), "14-rhs": (cond, condition(rhs=2)),
        "25-name": (sym, macro(name=2)), "25-n-0": (sym, macro(n=0)),                              # "n8 (at least 1)"
        "26-op-3": (sym, repeat(3)), "26-op-ff": (sym, repeat(255)),                               # "op8 (0 `*`, 1 `+`, 2 `?`)"
        "28-mut-2": (sym, name(mut=2)), "28-name": (sym, name(name=2)),                            # "mut8 (0 or 1)"
        "30-name": (A, named(0x30, 2)), "31-name": (A, named(0x31, 2)),
    }
    for code in range(0x20, 0x25):
        bad[f"{code:02x}-name"] = (sym, named(code, 2))
        bad[f"{code:02x}-name-high"] = (sym, named(code, 256))
    for case, (front, command) in bad.items():
        inside = WHOLE[command[0][0]][1:]      # 25, 26, 28 have a symbol inside
        no(3, f"operand-{case}", *front, HERE, command, *inside)
    no(3, "operand-no-atoms-10", HERE, nonterminal())
    no(3, "operand-no-atoms-30", HERE, named(0x30))
    no(3, "operand-ffff", N, HERE, named(0x30, 65535))


def operands_in():
    """the last values that are in"""
    for f in range(4):
        yes(f"operand-10-flags-{f}", N, nonterminal(flags=f))
    for act in range(5):
        yes(f"operand-12-act-{act}", *alts, alternative(act=act))
    for act in [1, 2]:
        yes(f"operand-12-act-{act}-last", *alts, alternative(act=act, text=1))
    yes("operand-13-last", *attr, attribute(1, 1, 1, 1))
    for op in [0, 1]:
        yes(f"operand-14-op-{op}", *cond, condition(1, op, 1))
        yes(f"operand-28-mut-{op}", *sym, name(op, 1), LEAF)
    for op in range(3):
        yes(f"operand-26-op-{op}", *sym, repeat(op), LEAF)
    for code in [0x20, 0x21, 0x22, 0x23, 0x24]:
        yes(f"operand-{code:02x}-last", *sym, named(code, 1))
    yes("operand-25-last", *sym, macro(1), LEAF)
    yes("operand-items-last", *A, nonterminal(1, args=1), argument(1), named(0x30, 1), named(0x31, 1))


def zeros_that_are_no_atoms():
    """ "text16 is 0 for 0, 3, 4 and names no atom then", "kind 0 (key and value 0, no atoms)": atom 0 suits neither use"""
    front = [atom(b"\x80"), N, nonterminal(1, alts=1)]
    for act in [0, 3, 4]:
        yes(f"zero-act-{act}", *front, alternative(act=act))
    for act in [1, 2]:
        no(4, f"zero-act-{act}", *front, HERE, alternative(act=act))
    yes("zero-kind-0", *front, alternative(attrs=1), attribute(1, 0))
    no(4, "zero-kind-1-key", *front, alternative(attrs=1), HERE, attribute(1, 1, 0, 1))
    no(4, "zero-kind-1-value", *front, alternative(attrs=1), HERE, attribute(1, 1, 1, 0))


def repeated_atoms():
    """ "All atoms come first, no two equal" """
    no(3, "twice-adjacent", N, HERE, N)
    no(3, "twice-then-more", N, HERE, N, atom(b"M"), named(0x30))
    no(3, "twice-apart", N, atom(b"M"), atom(b"L"), HERE, N)
    no(3, "twice-second-of-three", N, atom(b"M"), HERE, atom(b"M"), N)
    no(3, "twice-empty", atom(b""), N, HERE, atom(b""))
    no(3, "twice-of-any-bytes", atom(b"\xff\x00"), HERE, atom(b"\xff\x00"))
    no(3, "twice-long", atom(b"A" * 300), HERE, atom(b"A" * 300))
    no(3, "twice-far-apart", Atoms(65536), HERE, Atoms(1))
    no(3, "twice-far-apart-last", Atoms(65535), atom(b"*"), HERE, atom(b"*"))
    no(3, "twice-thousand-apart", Atoms(1000), HERE, Atoms(1000))
    yes("once-prefixes", atom(b""), atom(b"A"), atom(b"AA"), atom(b"AAA"), atom(b"AAAA"))
    yes("once-zero-behind", atom(b"A"), atom(b"A\0"), atom(b"\0A"), atom(b"\0"))
    yes("once-one-hash", atom(b"Aa"), atom(b"BB"), atom(b"AaAa"), atom(b"BBBB"), atom(b"AaBB"), atom(b"BBAa"))   # 31 * 65 + 97 = 31 * 66 + 66
    no(3, "twice-one-hash", atom(b"AaAa"), atom(b"BBBB"), atom(b"AaBB"), HERE, atom(b"AaAa"))
    yes("once-last-byte", atom(b"A" * 300 + b"B"), atom(b"A" * 300 + b"C"))
    yes("once-first-byte", atom(b"B" + b"A" * 300), atom(b"C" + b"A" * 300))


def nesting():
    """ "Symbols nest at most 64 deep, one straight in an alternative being 1 deep" """
    front = [N] + ALT
    over = {"repeat": repeat(), "choose": choose(), "name": name(), "group": group(1), "macro": macro(n=1)}
    for kind, c in over.items():
        yes(f"deep-{kind}-64", *front, Times(63, c), LEAF)
        no(3, f"deep-{kind}-65", *front, Times(64, c), HERE, LEAF)
        no(3, f"deep-{kind}-66", *front, Times(64, c), HERE, c, LEAF)
        no(2, f"deep-{kind}-65-cut", *front, Times(64, c), HERE, bare(0x2A)[:2])
        no(2, f"deep-{kind}-65-missing", *front, Times(64, c), HERE)
        no(2, f"deep-{kind}-65-unknown", *front, Times(64, c), HERE, [u8(0xFF)])
        no(2, f"deep-{kind}-64-missing", *front, Times(63, c), HERE)
        no(3, f"deep-{kind}-65-undefined", *front, Times(64, c), HERE, named(0x20, 9))
        no(3, f"deep-{kind}-65-nothing-inside", *front, Times(64, c), HERE, repeat())
    for code in WHOLE:
        if code not in SYMBOLS:
            no(2, f"deep-65-not-allowed-{code:02x}", *front, Times(64, repeat()), HERE, *WHOLE[code])
            if code in CAN_BE_UNDEFINED:
                no(2, f"deep-65-not-allowed-{code:02x}-undefined", *front, Times(64, repeat()), HERE, out_of_values(code))
    no(3, "deep-65-unsuited", atom(b"-"), N, nonterminal(1, alts=1), alternative(syms=1), Times(64, choose()), HERE, named(0x20, 0))
    yes("deep-group-empty-64", *front, Times(63, group(1)), group(0))
    no(3, "deep-group-empty-65", *front, Times(64, group(1)), HERE, group(0))
    mixed = macro(n=1) + repeat() + choose() + name() + group(1)      # five deep
    yes("deep-mixed-64", *front, Times(12, mixed), Times(3, repeat()), LEAF)
    no(3, "deep-mixed-65", *front, Times(12, mixed), Times(4, repeat()), HERE, LEAF)
    # what stands beside does not count
    two = [N, nonterminal(alts=1), alternative(syms=2)]
    yes("deep-beside-64", *two, Times(63, repeat()), LEAF, Times(63, group(1)), LEAF)
    no(3, "deep-beside-65", *two, Times(63, repeat()), LEAF, Times(64, group(1)), HERE, LEAF)
    yes("deep-group-of-two-64", *front, group(2), Times(62, repeat()), LEAF, Times(62, choose()), LEAF)
    no(3, "deep-group-of-two-65", *front, group(2), Times(62, repeat()), LEAF, Times(63, choose()), HERE, LEAF)
    yes("deep-macro-of-two-64", *front, macro(n=2), LEAF, Times(62, macro(n=1)), LEAF)
    no(3, "deep-macro-of-two-65", *front, macro(n=2), LEAF, Times(63, macro(n=1)), HERE, LEAF)
    yes("deep-last-of-group-64", *front, Times(62, repeat()), group(3), LEAF, LEAF, LEAF)
    no(3, "deep-last-of-group-65", *front, Times(63, repeat()), group(3), HERE, LEAF, LEAF, LEAF)
    yes("deep-twice", N, *ALT, Times(63, repeat()), LEAF, *ALT, Times(63, repeat()), LEAF)


def many_atoms():
    """more than 65,536 atoms pass 2 to 4; an operand can't name those behind"""
    every = [nonterminal(65535, args=1, alts=1), argument(65535), alternative(1, 1, 1, 65535, 4), attribute(65535, 1, 65535, 65535),
             condition(65535, 0, 65535), named(0x20, 65535), named(0x22, 65535), macro(65535, 1), LEAF, name(0, 65535), LEAF, named(0x31, 65535)]
    yes("atoms-65535", Atoms(65535))
    yes("atoms-65536", Atoms(65536))
    yes("atoms-65537", Atoms(65537))
    yes("atoms-65536-last", Atoms(65536), *every)
    yes("atoms-65537-last", Atoms(65537), *every)
    no(3, "atoms-65535-undefined", Atoms(65535), HERE, named(0x30, 65535))
    yes("atoms-65535-last", Atoms(65535), named(0x30, 65534))
    no(4, "atoms-last-unsuited", Atoms(65535), atom(b"-"), HERE, named(0x30, 65535))
    yes("atoms-257-last", Atoms(257), named(0x30, 256))                       # "Numbers are little-endian"
    no(3, "atoms-257-undefined", Atoms(257), HERE, named(0x30, 257))
    yes("atoms-258-low-byte-only", Atoms(258), named(0x30, 257), named(0x30, 1))
