#!/usr/bin/env python3
"""Writes the rows that crates/arithmetic_table runs: tools/arithmetic_table.py > crates/arithmetic_table/stdin

A row is NAME SOURCE DESTINATION FLAGS RESULT FLAGS: numbers in octal, the flags before and after as NZVC, "none" for
an operation without a result. Each rule below is the processor handbook's own sentence on the flag, over bits written
out, and shares nothing with the library that the rows test.
"""

WORDS = [0, 1, 2, 0o177, 0o200, 0o377, 0o400, 0o52525, 0o77776, 0o77777, 0o100000, 0o100001, 0o177776, 0o177777]
BYTES = [0, 1, 2, 0o125, 0o176, 0o177, 0o200, 0o201, 0o376, 0o377]
OLD = ["0000", "1111", "0001", "1110", "1010", "0101"]
CONDITIONS = {
    "BR": lambda n, z, v, c: True, "BNE": lambda n, z, v, c: not z, "BEQ": lambda n, z, v, c: z,
    "BGE": lambda n, z, v, c: n == v, "BLT": lambda n, z, v, c: n != v,
    "BGT": lambda n, z, v, c: not z and n == v, "BLE": lambda n, z, v, c: z or n != v,
    "BPL": lambda n, z, v, c: not n, "BMI": lambda n, z, v, c: n,
    "BHI": lambda n, z, v, c: not c and not z, "BLOS": lambda n, z, v, c: c or z,
    "BVC": lambda n, z, v, c: not v, "BVS": lambda n, z, v, c: v,
    "BCC": lambda n, z, v, c: not c, "BCS": lambda n, z, v, c: c,
}


def bits(x, width):
    return format(x, "0%db" % width)


def flip(text):
    return "".join("10"[int(b)] for b in text)


def bit(truth):
    return "1" if truth else "0"


def adder(a, b, carry):
    """The sum of two bit strings and a carry, bit by bit, and the carry out of the top."""
    out = ""
    for x, y in zip(reversed(a), reversed(b)):
        ones = int(x) + int(y) + carry
        out, carry = str(ones % 2) + out, ones // 2
    return out, carry


def single(op, x, old, width):
    """Result bits, V and C of an operation of one operand."""
    c = old[3]
    zero, low, high = "0" * width, "0" * (width - 1) + "1", "1" + "0" * (width - 1)
    most = "0" + "1" * (width - 1)
    if op == "CLR":
        return zero, "0", "0"
    if op == "COM":
        return flip(x), "0", "1"
    if op == "INC":
        return adder(x, low, 0)[0], bit(x == most), c
    if op == "DEC":
        return adder(x, "1" * width, 0)[0], bit(x == high), c
    if op == "NEG":
        r = adder(flip(x), low, 0)[0]
        return r, bit(r == high), bit(r != zero)
    if op == "ADC":
        if c == "0":
            return x, "0", "0"
        return adder(x, low, 0)[0], bit(x == most), bit("0" not in x)
    if op == "SBC":
        if c == "0":
            return x, "0", "0"
        return adder(x, "1" * width, 0)[0], bit(x == high), bit("1" not in x)
    if op == "TST":
        return x, "0", "0"
    r, out = {
        "ROR": (c + x[:-1], x[-1]), "ROL": (x[1:] + c, x[0]),
        "ASR": (x[0] + x[:-1], x[-1]), "ASL": (x[1:] + "0", x[0]),
    }[op]
    return r, bit(r[0] != out), out


def double(op, s, d, old, width):
    """Result bits, V and C of an operation of two operands."""
    c = old[3]
    if op == "MOV":
        return s, "0", c
    if op == "CMP":
        r, carry = adder(s, flip(d), 1)
        return r, bit(s[0] != d[0] and d[0] == r[0]), bit(not carry)
    if op == "SUB":
        r, carry = adder(d, flip(s), 1)
        return r, bit(s[0] != d[0] and s[0] == r[0]), bit(not carry)
    if op == "ADD":
        r, carry = adder(s, d, 0)
        return r, bit(s[0] == d[0] and s[0] != r[0]), bit(carry)
    rule = {
        "BIT": lambda a, b: a == "1" and b == "1", "BIC": lambda a, b: a == "0" and b == "1",
        "BIS": lambda a, b: a == "1" or b == "1", "XOR": lambda a, b: a != b,
    }[op]
    return "".join(bit(rule(a, b)) for a, b in zip(s, d)), "0", c


def flagged(r, v, c):
    return bit(r[0] == "1") + bit("1" not in r) + v + c


def row(name, s, d, old, result, new):
    shown = result if result == "none" else "%06o" % int(result, 2)
    print(name, "%06o" % s, "%06o" % d, old, shown, new)


def old_flags(k):
    return OLD[k % len(OLD)]


def singles():
    for op in "CLR COM INC DEC NEG ADC SBC TST ROR ROL ASR ASL".split():
        for width, xs, suffix in ((16, WORDS, ""), (8, BYTES, "B")):
            for x in xs:
                for old in OLD[:4]:
                    r, v, c = single(op, bits(x, width), old, width)
                    row(op + suffix, 0, x, old, "none" if op == "TST" else r, flagged(r, v, c))
        # of a byte operation's operand only the low byte counts
        r, v, c = single(op, bits(0o201, 8), "0001", 8)
        row(op + "B", 0, 0o125201, "0001", "none" if op == "TST" else r, flagged(r, v, c))


def doubles():
    k = 0
    for op in "MOV CMP BIT BIC BIS ADD SUB XOR".split():
        sizes = [(16, WORDS, "")] + ([(8, BYTES, "B")] if op in "MOV CMP BIT BIC BIS".split() else [])
        for width, xs, suffix in sizes:
            for s in xs:
                for d in xs:
                    old, k = old_flags(k), k + 1
                    r, v, c = double(op, bits(s, width), bits(d, width), old, width)
                    row(op + suffix, s, d, old, "none" if op in ("CMP", "BIT") else r, flagged(r, v, c))
            if suffix:
                r, v, c = double(op, bits(0o303, 8), bits(0o145, 8), "1010", 8)
                row(op + "B", 0o52303, 0o125145, "1010", "none" if op in ("CMP", "BIT") else r, flagged(r, v, c))


def others():
    every = [bits(f, 4) for f in range(16)]
    for k, x in enumerate(WORDS):
        r = bits(x, 16)[8:] + bits(x, 16)[:8]
        row("SWAB", 0, x, old_flags(k), r, bit(r[8] == "1") + bit("1" not in r[8:]) + "00")
    for old in every:
        row("SXT", 0, 0, old, old[0] * 16, old[0] + flip(old[0]) + "0" + old[3])
    # the status word as source; MTPS gives the new status word
    for status in WORDS + list(range(0o340, 0o360)):
        low = bits(status, 16)[8:]
        row("MFPS", status, 0, low[4:], low, flagged(low, "0", low[7]))
        for x in (0, 0o252, 0o377, 0o177525):
            new = bits(status, 16)[:8] + bits(x, 16)[8:]
            row("MTPS", status, x, low[4:], new, new[12:])
        # the flags put into a status word: its other bits stay
        for new in ("0000", "1001", "0110", "1111"):
            row("PUT", status, 0, new, bits(status, 16)[:12] + new, new)
    for word in range(0o240, 0o300):
        for old in ("0000", "1111", "1001"):
            mask = bits(word, 16)[12:]
            on = "1" if word >= 0o260 else "0"
            row("FLAGS", word, 0, old, "none", "".join(on if m == "1" else f for m, f in zip(mask, old)))
    for name, rule in CONDITIONS.items():
        for old in every:
            row(name, 0, 0, old, bit(rule(*(f == "1" for f in old))), old)
    for byte in range(256):
        text = bits(byte, 8)
        row("SPREAD", byte, 0, "0000", text[0] * 8 + text, "0000")
        row("BRANCH", byte, 0, "0000", text[0] * 7 + text + "0", "0000")
    row("SPREAD", 0o177601, 0, "0000", "1" * 8 + "10000001", "0000")


singles()
doubles()
others()
