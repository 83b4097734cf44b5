"""The commands of a tape, each a list of its code and its operands in bytes; and what stands in a case many times."""


def u8(n):
    return bytes([n])


def u16(n):
    return n.to_bytes(2, "little")


def u32(n):
    return n.to_bytes(4, "little")


S, E = u32(0xFFFFFFFF), u32(0)   # "`s e` is a span, two 32-bit numbers, and need not be ordered"


def atom(text):
    return [u8(0x01), u16(len(text)), text]


def nonterminal(name=0, flags=0, args=0, alts=0):
    return [u8(0x10), S, E, u16(name), u8(flags), u8(args), u16(alts)]


def argument(name=0):
    return [u8(0x11), u16(name)]


def alternative(attrs=0, cond=0, act=0, text=0, syms=0):
    return [u8(0x12), S, E, u8(attrs), u8(cond), u8(act), u16(text), u16(syms)]


def attribute(id=0, kind=0, key=0, value=0):
    return [u8(0x13), u16(id), u8(kind), u16(key), u16(value)]


def condition(lhs=0, op=0, rhs=0):
    return [u8(0x14), S, E, u16(lhs), u8(op), u16(rhs)]


def named(code, name=0):         # 20 to 24, 30, 31
    return [u8(code), S, E, u16(name)]


def macro(name=0, n=1):
    return [u8(0x25), S, E, u16(name), u8(n)]


def repeat(op=0):
    return [u8(0x26), S, E, u8(op)]


def choose():
    return [u8(0x27), S, E]


def name(mut=0, name=0):
    return [u8(0x28), S, E, u8(mut), u16(name)]


def group(n=0):
    return [u8(0x29), S, E, u16(n)]


def bare(code):                  # 2a, 2b, 2c
    return [u8(code), S, E]


class Times:
    """a command so many times"""

    def __init__(self, n, command):
        self.n, self.bytes = n, b"".join(command)


class Atoms:
    """the word aN: N atoms of three letters, no two equal, six bytes each"""

    def __init__(self, n):
        self.n = n


def length(part):
    if isinstance(part, Atoms):
        return 6 * part.n
    if isinstance(part, Times):
        return part.n * len(part.bytes)
    return len(b"".join(part))


def word(part):
    if isinstance(part, Atoms):
        return f"a{part.n}"
    if isinstance(part, Times):
        return f"{part.n}x{part.bytes.hex().upper()}"
    return b"".join(part).hex().upper()
