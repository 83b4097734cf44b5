"""2: "Is each command known, allowed there and whole?" """
from validating.cases import HERE, no, yes
from validating.places import *


def commands_by_places():
    for place, (front, allowed) in PLACES.items():
        is_main = place in ["atom", "item", "argument", "alternative", "attribute", "condition", "symbol", "group"]
        for code, command in WHOLE.items():
            if code in allowed:
                yes(f"place-{place}-{code:02x}", N, *front, *command)
            else:
                no(2, f"place-{place}-{code:02x}", N, *front, HERE, *command)
            if is_main and code not in allowed and code in CAN_BE_UNDEFINED:          # 2 comes before 3
                no(2, f"place-{place}-{code:02x}-undefined", N, *front, HERE, out_of_values(code))
        for code in UNKNOWN if is_main else []:
            no(2, f"place-{place}-{code:02x}", N, *front, HERE, [u8(code)] + [bytes(20)])
        if 0x30 in allowed:      # "The empty tape is a grammar without items"; a tape may end between items
            yes(f"place-{place}-end", N, *front)
        else:                    # "the tape's length where a command is missing at its end"
            no(2, f"place-{place}-end", N, *front, HERE)


def unknown_codes():
    for code in range(256):
        if code not in WHOLE and code not in UNKNOWN:
            no(2, f"unknown-{code:02x}", N, HERE, [u8(code), bytes(20)])


def cut_off():
    """cut off before and in each operand, where all operands that stand there are out of their values too: 2 comes before 3"""
    for code, command in WHOLE.items():
        chunks = out_of_values(code)
        for k in range(1, len(chunks)):
            no(2, f"cut-{code:02x}-before-{k}", *before(code), HERE, chunks[:k])
            if len(chunks[k]) > 1:
                no(2, f"cut-{code:02x}-in-{k}", *before(code), HERE, chunks[:k] + [chunks[k][:-1]])
        if code != 0x01:         # and whole operands that are valid, one byte short
            no(2, f"cut-{code:02x}-last", *before(code), HERE, [b"".join(command[0])[:-1]])


def atoms_whole():
    no(2, "atom-one-short", HERE, [u8(1), u16(3), b"AB"])
    no(2, "atom-none-of-one", N, HERE, [u8(1), u16(1)])
    no(2, "atom-long-one-short", HERE, [u8(1), u16(65535)], Times(65534, [b"A"]))
    no(2, "atom-high-byte", HERE, [u8(1), u16(256), b"A"])                    # "Numbers are little-endian"
    yes("atom-empty", atom(b""))
    yes("atom-long", [u8(1), u16(65535)], Times(65535, [b"A"]))
    yes("atom-long-name", [u8(1), u16(65535)], Times(65535, [b"A"]), named(0x30))
    no(4, "atom-long-not-a-name", [u8(1), u16(65535)], Times(65534, [b"A"]), [b"-"], HERE, named(0x30))
    yes("atom-any-bytes", atom(bytes(range(256))))                            # nothing uses it
    yes("atom-of-commands", atom(b"\x01\x01\x00N"), N, named(0x30, 1))        # its bytes are no commands


def behind_an_item():
    """01 behind an item is 2, whatever it holds"""
    no(2, "late-atom-new", N, named(0x30), HERE, atom(b"O"))
    no(2, "late-atom-repeated", N, named(0x30), HERE, N)
    no(2, "late-atom-cut", N, named(0x30), HERE, [u8(1)])
    no(2, "late-atom-then-use", N, named(0x30), HERE, atom(b"O"), named(0x30, 1))
    no(2, "item-then-unknown", N, named(0x30), named(0x31), HERE, [u8(0xFF)])
    yes("items-many", N, Times(1000, named(0x30)), nonterminal(), Times(1000, named(0x31)))


def counts():
    """as many as the operand says, no more and no fewer; "Numbers are little-endian" """
    for n in [0, 1, 2, 255]:
        yes(f"count-args-{n}", N, nonterminal(args=n), Times(n, argument()))
        yes(f"count-attrs-{n}", N, nonterminal(alts=1), alternative(attrs=n), Times(n, attribute()))
    for n in [1, 2, 255]:
        yes(f"count-macro-{n}", N, *ALT, macro(n=n), Times(n, LEAF))
        no(2, f"count-macro-{n}-fewer", N, *ALT, macro(n=n), Times(n - 1, LEAF), HERE)
        no(2, f"count-macro-{n}-more", N, *ALT, macro(n=n), Times(n, LEAF), HERE, LEAF)
        no(2, f"count-args-{n}-fewer", N, nonterminal(args=n), Times(n - 1, argument()), HERE, named(0x30))
        no(2, f"count-args-{n}-more", N, nonterminal(args=n), Times(n, argument()), HERE, argument())
        no(2, f"count-attrs-{n}-fewer", N, nonterminal(alts=1), alternative(attrs=n), Times(n - 1, attribute()), HERE)
        no(2, f"count-attrs-{n}-more", N, nonterminal(alts=1), alternative(attrs=n), Times(n, attribute()), HERE, attribute())
    for n in [1, 256, 258, 0x3210]:
        yes(f"count-alts-{n}", N, nonterminal(alts=n), Times(n, alternative()))
        no(2, f"count-alts-{n}-fewer", N, nonterminal(alts=n), Times(n - 1, alternative()), HERE)
        no(2, f"count-alts-{n}-more", N, nonterminal(alts=n), Times(n, alternative()), HERE, alternative())
    for n in [1, 256, 258, 33000]:
        yes(f"count-syms-{n}", N, nonterminal(alts=1), alternative(syms=n), Times(n, LEAF))
        no(2, f"count-syms-{n}-fewer", N, nonterminal(alts=1), alternative(syms=n), Times(n - 1, LEAF), HERE)
        no(2, f"count-syms-{n}-more", N, nonterminal(alts=1), alternative(syms=n), Times(n, LEAF), HERE, LEAF)
        yes(f"count-group-{n}", N, *ALT, group(n), Times(n, LEAF))
        no(2, f"count-group-{n}-fewer", N, *ALT, group(n), Times(n - 1, LEAF), HERE)
        no(2, f"count-group-{n}-more", N, *ALT, group(n), Times(n, LEAF), HERE, LEAF)
    no(2, "count-cond-1-more", N, nonterminal(alts=1), alternative(cond=1), condition(), HERE, condition())
    yes("group-empty", N, *ALT, group(0))
