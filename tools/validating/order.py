"""The order of the questions: work is asked first, then "One pass over the tape asks 2, 3, 4 of each command before the next"."""
from validating.cases import HERE, WORK, add, no, yes
from validating.places import *

A = [N, atom(b"-"), atom(b"\x80")]             # 0 a name, 1 a literal and no name, 2 neither; 3 is undefined
alts = A + [nonterminal(alts=1)]
sym = A + ALT
bad2, bad3, bad4 = [u8(0xFF)], named(0x30, 3), named(0x30, 1)


def of_one_command():
    """2 before 3 and 4, and 3 before 4"""
    for code, c in {0x20: named(0x20, 3), 0x11: argument(3), 0x13: attribute(3, 2), 0x14: condition(3, 2, 3), 0x12: alternative(cond=2), 0x26: repeat(3)}.items():
        no(2, f"order-not-allowed-undefined-{code:02x}", *A, HERE, c)
    for code, c in {0x20: named(0x20, 1), 0x11: argument(1), 0x13: attribute(1), 0x14: condition(1, 0, 2), 0x12: alternative(act=1, text=2)}.items():
        no(2, f"order-not-allowed-unsuited-{code:02x}", *A, HERE, c)
    no(3, "order-10-flags", *A, HERE, nonterminal(1, flags=4))
    no(3, "order-12-cond", *alts, HERE, alternative(cond=2, act=1, text=2))
    no(3, "order-13-kind", *alts, alternative(attrs=1), HERE, attribute(1, 2))
    no(3, "order-13-key", *alts, alternative(attrs=1), HERE, attribute(1, 1, 3, 0))
    no(3, "order-13-value", *alts, alternative(attrs=1), HERE, attribute(1, 1, 2, 3))
    no(3, "order-13-value-kind-0", *alts, alternative(attrs=1), HERE, attribute(1, 0, 0, 1))
    no(3, "order-14-op", *alts, alternative(cond=1), HERE, condition(1, 2, 0))
    no(3, "order-14-rhs", *alts, alternative(cond=1), HERE, condition(1, 0, 3))
    no(3, "order-14-lhs", *alts, alternative(cond=1), HERE, condition(3, 0, 2))
    no(3, "order-25-n", *sym, HERE, macro(1, 0))
    no(3, "order-28-mut", *sym, HERE, name(2, 1), LEAF)


def of_two_commands():
    """the earlier one"""
    for q, first in [(3, bad3), (4, bad4)]:
        for r, second in [(2, bad2), (3, bad3), (4, bad4)]:
            no(q, f"order-{q}-then-{r}", *A, named(0x30), HERE, first, second)
        no(q, f"order-{q}-then-cut", *A, HERE, first, named(0x30)[:2])
        no(q, f"order-{q}-then-late-atom", *A, HERE, first, N)
    no(2, "order-2-then-3", *A, HERE, bad2, bad3)
    no(3, "order-repeated-then-cut", N, HERE, N, [u8(1)])
    no(3, "order-repeated-then-unknown", N, HERE, N, bad2)
    no(2, "order-cut-atom-then", N, HERE, [u8(1), u16(9), b"N"])


def outside_first():
    """a command before what stands inside of it, and that in its order"""
    no(4, "order-10-then-argument", *A, HERE, nonterminal(1, args=1), bad2)
    no(3, "order-10-then-missing", *A, HERE, nonterminal(3, args=1))
    no(4, "order-12-then-inside", *alts, HERE, alternative(1, 1, 1, 2, 1), bad2)
    no(3, "order-12-then-missing", *alts, HERE, alternative(1, 2))
    no(4, "order-25-then-inside", *sym, HERE, macro(1), bad2)
    no(3, "order-25-then-missing", *sym, HERE, macro(3))
    no(3, "order-26-then-inside", *sym, HERE, repeat(3), bad2)
    no(4, "order-28-then-inside", *sym, HERE, name(0, 1), bad2)
    no(4, "order-11-then-12", *A, nonterminal(args=1, alts=1), HERE, argument(1), bad2)
    no(4, "order-11-then-11", *A, nonterminal(args=2), HERE, argument(1), argument(3))
    no(4, "order-13-then-14", *alts, alternative(1, 1), HERE, attribute(1), bad2)
    no(4, "order-14-then-symbol", *alts, alternative(0, 1, syms=1), HERE, condition(1), bad2)
    no(4, "order-symbol-then-symbol", *alts, alternative(syms=2), HERE, named(0x20, 1), bad2)
    no(4, "order-inside-then-beside", *alts, alternative(syms=2), repeat(), HERE, named(0x20, 1), bad2)
    no(4, "order-alternative-then-alternative", *A, nonterminal(alts=2), HERE, alternative(act=1, text=2), bad2)
    no(4, "order-in-group", *sym, group(2), HERE, named(0x21, 1), named(0x21, 3))
    no(3, "order-last-of-group", *sym, group(2), named(0x21), HERE, named(0x21, 3))
    no(4, "order-last-item", *A, *ALT, LEAF, named(0x30), HERE, named(0x31, 2))


# ---- work: "Is work at least 8 × (tape + output) bytes? 1, work untouched"

def work():
    tapes = {"item": [N, named(0x30)], "atom": [N], "unknown": [[u8(0xFF)]], "repeated": [N, N], "undefined": [N, named(0x30, 1)],
             "unsuited": [atom(b"-"), named(0x30)], "deep": [N] + ALT + [Times(64, repeat()), LEAF]}
    for case, parts in tapes.items():
        n = WORK * sum(map(length, parts))
        for w in sorted({0, 1, n - 8, n - 1}):
            add(f"work-{case}-{w}", parts, w, "refused 1 0 0")
    whole = [N, named(0x30)]     # 15 bytes
    for w in [120, 121, 127, 128, 1000]:
        yes(f"work-item-{w}", *whole, work=w)
    no(2, "work-unknown-8", HERE, [u8(0xFF)], work=8)
    no(3, "work-repeated-64", N, HERE, N, work=64)
    no(3, "work-repeated-100", N, HERE, N, work=100)
    no(4, "work-unsuited-120", atom(b"-"), HERE, named(0x30), work=120)
    no(4, "work-unsuited-3200000", atom(b"-"), HERE, named(0x30), work=3200000)
    yes("work-empty-0", work=0)
    yes("work-empty-1", work=1)
    yes("work-empty-100", work=100)
    add("work-many-one-short", [Atoms(65536)], 8 * 6 * 65536 - 1, "refused 1 0 0")
    yes("work-many-exact", Atoms(65536), work=8 * 6 * 65536)
    yes("work-many-longer", Atoms(65536), work=8 * 6 * 65536 + 5)
