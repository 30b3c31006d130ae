#!/usr/bin/env python3
"""Writes data/board.img, the image of a board with a small game at 001000, and stdout, the listing expected of it.

It knows nothing of the crates: the game below is written in assembler, and this script assembles it by the tables of a
handbook. The listing is the source, line by line, with labels as addresses, beside the words assembled from it.
Run it in its own folder: ./make_image.py
"""

import re

REGISTERS = {name: number for number, name in enumerate("R0 R1 R2 R3 R4 R5 SP PC".split())}
SINGLE = {"CLR": 0o050, "COM": 0o051, "INC": 0o052, "DEC": 0o053, "NEG": 0o054, "ADC": 0o055, "SBC": 0o056, "TST": 0o057,
          "ROR": 0o060, "ROL": 0o061, "ASR": 0o062, "ASL": 0o063}
DOUBLE = {"MOV": 1, "CMP": 2, "BIT": 3, "BIC": 4, "BIS": 5}
BARE = {"HALT": 0, "WAIT": 1, "RTI": 2, "BPT": 3, "IOT": 4, "RESET": 5, "RTT": 6, "NOP": 0o240, "CLC": 0o241, "CLV": 0o242,
        "CLZ": 0o244, "CLN": 0o250, "CCC": 0o257, "SEC": 0o261, "SEV": 0o262, "SEZ": 0o264, "SEN": 0o270, "SCC": 0o277}
BRANCH = {name: base for base, names in ((0o400, "BR BNE BEQ BGE BLT BGT BLE"), (0o100000, "BPL BMI BHI BLOS BVC BVS BCC BCS"))
          for name, base in zip(names.split(), range(base, base + 0o4000, 0o400))}
MODES = [r"(R\d|SP|PC)", r"\((R\d|SP|PC)\)", r"\((R\d|SP|PC)\)\+", r"@\((R\d|SP|PC)\)\+", r"-\((R\d|SP|PC)\)",
         r"@-\((R\d|SP|PC)\)", r"(\d+)\((R\d|SP|PC)\)", r"@(\d+)\((R\d|SP|PC)\)"]


def operand(text):
    """Mode and register digits, and the words behind the instruction."""
    for sign, mode in (("@#", 3), ("#", 2)):
        if text.startswith(sign):
            return mode * 8 + 7, [int(text[len(sign):], 8)]
    for mode, form in enumerate(MODES):
        match = re.fullmatch(form, text)
        if match:
            parts = match.groups()
            return mode * 8 + REGISTERS[parts[-1]], [int(part, 8) for part in parts[:-1]]
    raise ValueError(text)


def assemble(address, line):
    """The words of one instruction."""
    name, _, rest = line.partition(" ")
    fields = rest.split(",") if rest else []
    if name == ".WORD":
        return [int(rest, 8)]
    if name in BARE:
        return [BARE[name]]
    if name in BRANCH:
        return [BRANCH[name] + (int(rest, 8) - address - 2) // 2 % 256]
    if name == "SOB":
        return [0o77000 + REGISTERS[fields[0]] * 64 + (address + 2 - int(fields[1], 8)) // 2]
    if name in ("EMT", "TRAP", "MARK"):
        return [{"EMT": 0o104000, "TRAP": 0o104400, "MARK": 0o6400}[name] + int(rest, 8)]
    if name == "RTS":
        return [0o200 + REGISTERS[rest]]
    if name in ("JSR", "XOR"):
        code, words = operand(fields[1])
        return [{"JSR": 0o4000, "XOR": 0o74000}[name] + REGISTERS[fields[0]] * 64 + code] + words
    if name in ("JMP", "SWAB", "SXT", "MTPS", "MFPS"):
        code, words = operand(rest)
        return [{"JMP": 0o100, "SWAB": 0o300, "SXT": 0o6700, "MTPS": 0o106400, "MFPS": 0o106700}[name] + code] + words
    if name in ("ADD", "SUB"):
        base = {"ADD": 0o60000, "SUB": 0o160000}[name]
    else:
        byte = name.endswith("B") and name[:-1] in SINGLE | DOUBLE
        stem = name[:-1] if byte else name
        if stem in SINGLE:
            code, words = operand(rest)
            return [byte * 0o100000 + SINGLE[stem] * 64 + code] + words
        base = byte * 0o100000 + DOUBLE[stem] * 0o10000
    source, first = operand(fields[0])
    destination, second = operand(fields[1])
    return [base + source * 64 + destination] + first + second


# A three-reel game: it waits for a coin, spins, compares the reels, pays, and lowers the credit. 177600 is the coin
# switch, 177602 to 177606 are the reels, 177610 the lamp, 177612 the hopper. Behind it stand words that it never runs.
PROGRAM = """
        MOV #001000,SP
        MTPS #000340
        RESET
        CLR @#177610
        CLR R5
idle:   BIS #000001,@#177610
coin:   TSTB @#177600
        BPL coin
        INC R5
spin:   MOV #177602,R2
        MOV #000003,R1
reel:   MOV (R2)+,-(SP)
        SOB R1,reel
        MOV 000004(SP),R3
        CMP R3,000002(SP)
        BNE lost
        CMP (SP),R3
        BNE lost
        JSR PC,@#pays
        BR next
lost:   DEC R5
next:   ADD #000006,SP
        TST R5
        BGT spin
        BEQ idle
        BIC #000001,@#177610
stop:   WAIT
        BR stop
pays:   MOV R3,R0
        ASL R0
        BCS over
        BVS over
        MOVB prizes(R0),R0
        BEQ over
coins:  MOV R0,@#177612
        SOB R0,coins
        SEC
        RTS PC
over:   CLC
        RTS PC
prizes: .WORD 177001
        .WORD 007012
        MOVB @(R2)+,@-(R3)
        BICB 177776(R4),@000010(R5)
        SUB @000012(PC),000014(PC)
        BITB (R0),@(SP)+
        CMPB @#177600,#000101
        BISB -(R1),(R2)
        COM -(R0)
        NEGB (R1)+
        ADC @-(R2)
        SBCB @(R3)+
        ROR R4
        ROLB 000003(R5)
        ASR @000005(SP)
        ASLB @#001400
        SWAB (R0)
        SXT R1
        MFPS -(SP)
        XOR R2,@#001402
        BLT ahead
        BGE ahead
        BLE ahead
        BHI ahead
        BLOS ahead
        BVC ahead
ahead:  BCC ahead
        BMI stop
        CLV
        CLZ
        CLN
        CCC
        SEV
        SEZ
        SEN
        SCC
        NOP
        .WORD 000243
        .WORD 000260
        EMT 000001
        TRAP 000377
        MARK 000002
        BPT
        IOT
        RTI
        RTT
        JMP @001300(R0)
        JMP #001000
        JSR R5,(R4)+
        JMP R1
        .WORD 000077
        .WORD 000210
        .WORD 107777
        .WORD 177777
        HALT
        HALT
"""
START = 0o1000


def statements():
    """The labels' addresses, and the statements without labels."""
    labels, lines = {}, []
    address = START
    for line in PROGRAM.strip("\n").split("\n"):
        label, statement = line[:8].strip().rstrip(":"), line[8:]
        if label:
            labels[label] = address
        lines.append(statement)
        # A label stands for some number: how many words there are does not hang on which.
        address += 2 * len(assemble(address, re.sub(r"\b[a-z]+\b", "%06o" % address, statement)))
    return labels, lines


def main():
    labels, lines = statements()
    image = bytearray(65536)
    listing = []
    address = START
    for line in lines:
        text = re.sub(r"\b[a-z]+\b", lambda found: "%06o" % labels[found.group()], line)
        words = assemble(address, text)
        columns = "".join("%06o " % word for word in words).ljust(21)
        listing.append("%06o  %s %s\n" % (address, columns, text))
        for word in words:
            image[address:address + 2] = word.to_bytes(2, "little")
            address += 2
    with open("data/board.img", "wb") as file:
        file.write(image)
    with open("stdout", "w") as file:
        file.writelines(listing)
    with open("args", "w") as file:
        file.write("%o\n%d\n" % (START, len(lines)))


if __name__ == "__main__":
    main()
