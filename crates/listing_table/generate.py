#!/usr/bin/env python3
"""Writes the generated part of the table: every addressing mode through every register, on either side.

It knows nothing of the crates: texts are put together from the forms of the modes as a handbook prints them.
`(cat by-hand.txt; ./generate.py) > stdin` makes the program's input.
"""

REGISTERS = "R0 R1 R2 R3 R4 R5 SP PC".split()
FORMS = ["{r}", "({r})", "({r})+", "@({r})+", "-({r})", "@-({r})", "{n}({r})", "@{n}({r})"]
THROUGH_PC = {2: "#{n}", 3: "@#{n}"}


def operand(mode, register, number):
    """The text of an operand, and whether it has a number."""
    form = FORMS[mode]
    if register == 7:
        form = THROUGH_PC.get(mode, form)
    return form.format(r=REGISTERS[register], n="%06o" % number), "{n}" in form


def row(address, word, numbers, text):
    # Words that are not used have values that a listing must not show.
    words = (numbers + [0o52525, 0o125252])[:2]
    print("%06o %06o %06o %06o %d %s" % (address, word, words[0], words[1], 1 + len(numbers), text))


print("# Every addressing mode through every register, as the destination of INC and of JSR, and as the source of MOVB.")
for mode in range(8):
    for register in range(8):
        number = (mode * 0o12345 + register * 0o4321 + 0o17) % 0o200000
        text, numbered = operand(mode, register, number)
        taken = [number] if numbered else []
        row(0o2000, 0o5200 + mode * 8 + register, taken, "INC " + text)
        row(0o2000, 0o4100 + mode * 8 + register, taken, "JSR R1," + text)
        row(0o2000, 0o110000 + (mode * 8 + register) * 64 + 2, taken, "MOVB " + text + ",R2")

print("# Each pair of modes, with two numbers where both take one.")
for source in range(8):
    for destination in range(8):
        for left, right in ((1, 4), (7, 5), (3, 7), (7, 7)):
            a, b = 0o100001 + source * 0o111, 0o70007 + destination * 0o1010
            first, one = operand(source, left, a)
            second, two = operand(destination, right, b)
            word = 0o60000 + (source * 8 + left) * 64 + destination * 8 + right
            row(0o177770, word, [a] * one + [b] * two, "ADD " + first + "," + second)

print("# Branches and SOB over the whole range of their offsets.")
for offset in range(-128, 128, 15):
    for address in (0o0, 0o376, 0o100000, 0o177770):
        row(address, 0o103400 + offset % 256, [], "BCS %06o" % ((address + 2 + 2 * offset) % 0o200000))
for count in range(0, 64, 9):
    for address in (0o0, 0o76, 0o100000, 0o177776):
        row(address, 0o77300 + count, [], "SOB R3,%06o" % ((address + 2 - 2 * count) % 0o200000))
