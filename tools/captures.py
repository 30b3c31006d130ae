#!/usr/bin/env python3
"""Makes the captures that programs are run on, and what they must print, from the layout in docs/capture-format.md alone.

Usage: tools/captures.py        (in the repository's folder)
Writes crates/inspect/{data/capture.cap,stdout} and crates/capture_tests/{data/*,stdout}. Shares no code with the crates.
"""
from pathlib import Path

ROOT = Path(__file__).resolve().parent.parent
READ, WRITE, BYTE, LINES, VECTOR, INIT = range(1, 7)
NAMES = {READ: "word read", WRITE: "word write", BYTE: "byte write", LINES: "lines", VECTOR: "vector", INIT: "INIT"}


def low_first(word):
    return bytes([word & 0xFF, word >> 8])


def record(kind, mark, address, word, added=b"", spare=0, header=None):
    length = 4 + len(added) if header is None else header
    return bytes([length, kind, mark, spare]) + added + low_first(address) + low_first(word)


def block(number, body, unused=b"", used=None, sum_off=0):
    front = low_first(number) + low_first(len(body) if used is None else used) + body + unused
    front += bytes(510 - len(front))
    total = sum(front[i] | front[i + 1] << 8 for i in range(0, 510, 2))
    return front + low_first((-total + sum_off) & 0xFFFF)


def write(path, data):
    path.parent.mkdir(parents=True, exist_ok=True)
    path.write_bytes(data if isinstance(data, bytes) else data.encode())


def line(number, kind, mark, address, word, added):
    text = f"{number}: {NAMES[kind]}, {'answered' if mark else 'timed out'}, address {address:06o}, word {word:06o}"
    return text + (", added " + added.hex(" ").upper() if added else "")


def inspect():
    """Three blocks, the middle one empty: every kind, time-outs, and headers of 4, 6 and 32 bytes."""
    first = [(INIT, 1, 0, 0, b""), (LINES, 1, 0, 0o17, b""), (READ, 1, 0o177640, 0o12, b"\x07\x00"),
             (WRITE, 1, 0o177642, 0o177777, b"\x07\x00"), (BYTE, 1, 0o177777, 0o377, b"")]
    last = [(READ, 0, 0o177600, 0, bytes(range(28))), (WRITE, 0, 0o177776, 1, b"\xff"), (BYTE, 0, 0o177601, 0, b""),
            (VECTOR, 1, 0, 0o100, b"\x01\x02\x03"), (VECTOR, 0, 0, 0, b""), (LINES, 1, 0, 0, b"")]
    body = lambda rs: b"".join(record(k, m, a, w, x, spare=i) for i, (k, m, a, w, x) in enumerate(rs))
    write(ROOT / "crates/inspect/data/capture.cap", block(0, body(first)) + block(1, b"", b"\xaa" * 506) + block(2, body(last), b"\x55"))
    records = first + last
    out = [line(i + 1, *r) for i, r in enumerate(records)]
    many = lambda kind: sum(1 for r in records if r[0] == kind)
    out.append(f"records: {len(records)}, timed out: {sum(1 for r in records if not r[1])}")
    out.append(f"word read: {many(READ)}, word write: {many(WRITE)}, byte write: {many(BYTE)}")
    out.append(f"lines: {many(LINES)}, vector: {many(VECTOR)}, INIT: {many(INIT)}")
    write(ROOT / "crates/inspect/stdout", "\n".join(out) + "\n")


def cases():
    """Each case: its name, its bytes, and the refusal's number, block and byte, or the records."""
    one = [(INIT, 1, 0, 0, b"")]
    good = lambda rs: b"".join(record(*r) for r in rs)
    yield "nothing", b"", (3,)
    yield "a_byte_short", block(0, b"")[:-1], (3,)
    yield "a_byte_long", block(0, b"") + b"\0", (3,)
    yield "half_a_block", bytes(256), (3,)
    yield "block_1_first", block(1, b""), (5, 0, 0)
    yield "block_0_twice", block(0, b"") + block(0, b""), (5, 1, 0)
    yield "number_high_byte", block(256, b""), (5, 0, 0)
    yield "used_507", block(0, b"", used=507), (6, 0, 2)
    yield "used_65535", block(0, b"", used=65535), (6, 0, 2)
    yield "number_before_used", block(1, b"", used=507), (5, 0, 0)
    yield "used_before_sum", block(0, b"", used=507, sum_off=1), (6, 0, 2)
    yield "sum_one_high", block(0, good(one), sum_off=1), (7, 0, 510)
    yield "sum_one_low", block(0, good(one), sum_off=-1), (7, 0, 510)
    yield "all_zero_block_is_empty", bytes(512), []
    yield "a_flipped_unused_bit", bytes([0] * 300 + [4] + [0] * 211), (7, 0, 510)
    yield "sum_before_records", block(0, b"\0", sum_off=1), (7, 0, 510)
    yield "first_block_first", block(0, b"\0") + block(7, b""), (8, 0, 4)
    yield "header_3", block(0, record(INIT, 1, 0, 0, header=3)), (8, 0, 4)
    yield "header_0", block(0, bytes(8)), (8, 0, 4)
    yield "header_33", block(0, record(INIT, 1, 0, 0, bytes(29))), (8, 0, 4)
    yield "header_255", block(0, record(INIT, 1, 0, 0, bytes(251))), (8, 0, 4)
    yield "ends_a_byte_late", block(0, good(one)[:-1]), (8, 0, 4)
    yield "second_ends_late", block(0, good(one) + b"\x06" + bytes(8)), (8, 0, 12)
    yield "one_stray_byte", block(0, good(one) + b"\x04"), (8, 0, 12)
    yield "length_before_fields", block(0, record(0, 9, 1, 1, header=3)), (8, 0, 4)
    wrong = {
        "kind_0": (0, 1, 0, 0), "kind_7": (7, 1, 0, 0), "kind_255": (255, 1, 0, 0), "mark_2": (VECTOR, 2, 0, 0), "mark_255": (READ, 255, 0o177600, 0),
        "read_odd": (READ, 1, 0o177601, 0), "read_below_page": (READ, 1, 0o177576, 0), "read_timed_out_with_word": (READ, 0, 0o177600, 1),
        "write_odd": (WRITE, 1, 0o177777, 0), "write_below_page": (WRITE, 0, 0o177576, 0), "byte_below_page": (BYTE, 1, 0o177577, 0),
        "byte_of_nine_bits": (BYTE, 1, 0o177600, 256), "lines_with_address": (LINES, 1, 2, 0), "lines_timed_out": (LINES, 0, 0, 0),
        "five_lines": (LINES, 1, 0, 0o20), "vector_with_address": (VECTOR, 1, 0o177600, 0), "vector_timed_out_with_word": (VECTOR, 0, 0, 4),
        "init_with_address": (INIT, 1, 1, 0), "init_timed_out": (INIT, 0, 0, 0), "init_with_word": (INIT, 1, 0, 1),
    }
    for name, fields in wrong.items():
        yield name, block(0, good(one) + record(*fields, b"\x09\x09")), (9, 0, 12)
    yield "wrong_in_the_last_block", block(0, b"") + block(1, good(one)) + block(2, record(INIT, 1, 0, 1)), (9, 2, 4)
    lawful = [(READ, 1, 0o177600, 0o177777, b""), (READ, 0, 0o177776, 0, b""), (WRITE, 1, 0o177600, 0o177777, b""), (WRITE, 0, 0o177776, 1, b""),
              (BYTE, 1, 0o177777, 255, b""), (BYTE, 0, 0o177600, 255, b""), (LINES, 1, 0, 0, b""), (LINES, 1, 0, 0o17, b""),
              (VECTOR, 1, 0, 0o177777, b""), (VECTOR, 0, 0, 0, b""), (INIT, 1, 0, 0, b"")]
    yield "every_kind_at_its_limits", block(0, good(lawful)), lawful
    for h in (5, 6, 31, 32):
        added = bytes((h + i) % 256 for i in range(h - 4))
        yield f"header_{h}", block(0, good([(k, m, a, w, added) for k, m, a, w, _ in lawful])), [(k, m, a, w, added) for k, m, a, w, _ in lawful]
    yield "spare_bytes_free", block(0, b"".join(record(*r, spare=255 - i) for i, r in enumerate(lawful))), lawful
    yield "unused_bytes_free", block(0, good(lawful), bytes(range(1, 200))), lawful
    yield "empty_blocks_between", block(0, b"") + block(1, good(lawful[:3])) + block(2, b"", b"\xff" * 506) + block(3, b"") + block(4, good(lawful[3:])) + block(5, b""), lawful
    full = [(READ, 1, 0o177600, n, b"") for n in range(63)]
    yield "full_block", block(0, good(full)), full
    brim = [(READ, 1, 0o177600, n, b"") for n in range(62)] + [(READ, 1, 0o177602, 1, b"\x01\x02")]
    yield "full_to_the_last_byte", block(0, good(brim)), brim
    yield "full_then_more", block(0, good(brim)) + block(1, good(lawful)), brim + lawful


def tests():
    folder = ROOT / "crates/capture_tests"
    names, out = [], []
    for name, data, expected in cases():
        names.append(name)
        write(folder / f"data/{name}.cap", data)
        if isinstance(expected, tuple):
            number, at, byte = expected if len(expected) == 3 else (3, len(data) // 512, 0)
            out.append(f"{name}: refused {number}, block {at}, byte {byte}, left 0")
        else:
            out.append(f"{name}: {len(expected)} records")
            out += [f"  {k} {m} {a:o} {w:o} {x.hex()}".rstrip() for k, m, a, w, x in expected]
    write(folder / "data/cases.txt", "\n".join(names) + "\n")
    out += ["1 blocks of zeros: 0", "2 blocks of zeros: 5", "4096 blocks of zeros: 5", "4097 blocks of zeros: 3"]
    return out + recordings(folder)


def exchange(i):
    """The i-th exchange of the recordings as a record: kind, mark, address, word."""
    address, word, mark = 0o177600 + 2 * (i % 64), i * 257 % 65536, 0 if i % 4 == 3 else 1
    return [(INIT, 1, 0, 0), (LINES, 1, 0, i % 16), (READ, mark, address, word * mark), (WRITE, mark, address, word),
            (BYTE, mark, address + 1, word % 256), (VECTOR, mark, 0, word * mark)][i % 6]


def recordings(folder):
    out = []
    for size, header, number in [(0, 4, 3), (511, 4, 3), (513, 6, 3), (512, 5, 4), (100, 5, 3), (512, 4, 0), (2097152, 6, 0), (2097664, 6, 3), (2097664, 7, 3)]:
        out.append(f"opening over {size} bytes with header {header}: {number}")
    for blocks, header in [(1, 4), (2, 4), (3, 6)]:
        each = 63 if header == 4 else 50
        added = b"" if header == 4 else low_first(0x1234)
        many = each * blocks
        packed = [b"".join(record(*exchange(i), added) for i in range(each * b, each * b + each)) for b in range(blocks)]
        write(folder / f"data/recorded_{blocks}_{header}.cap", b"".join(block(b, body) for b, body in enumerate(packed)))
        out.append(f"header {header}, {blocks} blocks: place {many}, odd read refused, noted {many}, count {many}, place 0, bytes the same")
        out.append(f"  checked true, another request gone true, answered {many}, used {many}")
    return out


if __name__ == "__main__":
    inspect()
    write(ROOT / "crates/capture_tests/stdout", "\n".join(tests()) + "\n")
