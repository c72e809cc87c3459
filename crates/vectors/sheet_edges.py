#!/usr/bin/env python3
"""Prints the list `data/sheet_edges.txt`: tables and sheets at their edges, and what the documents answer to each, with `layout.py` of the program `examples` for texts, `edges.py` for floats and `write_edges.py` for formats, and with no code of this repository:

    python3 crates/vectors/sheet_edges.py | diff - crates/vectors/data/sheet_edges.txt

With the name of a list it says of how many of its lines it gives the answer again:

    python3 crates/vectors/sheet_edges.py crates/vectors/data/sheets.txt
"""
import os
import struct
import sys
from fractions import Fraction
from types import SimpleNamespace

sys.dont_write_bytecode = True
sys.path.insert(0, os.path.join(os.path.dirname(os.path.abspath(__file__)), "..", "examples"))
import edges
import layout
from edges import PAIRS, refused
from write_edges import NAMES, float_of, reading_checks, writing_checks

INFINITY = 0x7FF0000000000000
SIGN = 1 << 63


class Refused(Exception):
    """Number and place, 0 unless given."""


def checked(refusals):
    for number, refuses in refusals:
        if refuses:
            raise Refused(number, 0)


# ---- formats

def sheet_checks(f):
    """5 for any digit limit too."""
    for number, refuses in writing_checks(f):
        yield number, refuses or (number == 5 and f.most != 0)


# ---- table to sheet

def value_of(bits):
    """Both zeros have one value, by which windows are compared: document 02, 2.3."""
    return Fraction(float_of(64, bits))


def count_of(table, number):
    """What the header counts, or the refusal by this number."""
    count, size = struct.unpack("<II", table[:8]) if len(table) >= 8 else (0, 0)
    if len(table) < 8 or count > 400 or size != 8 + 16 * count or len(table) != size:
        raise Refused(number, 0)
    return count


def to_sheet(f, table, room):
    checked(reading_checks(f))
    checked(sheet_checks(f))
    count = count_of(table, 13)
    numbers = struct.unpack(f"<{2 * count}Q", table[8:])
    rows = list(zip(numbers[:count], numbers[count:]))
    for i, (start, end) in enumerate(rows):
        if start % SIGN >= INFINITY or end % SIGN >= INFINITY:
            raise Refused(7, i)
        if value_of(end) < value_of(start):
            raise Refused(14, i)
    b, c = PAIRS[f.radix, f.base]
    lines = [" ".join(layout.float_text(float_of(64, bits), b, c, f) for bits in row) for row in rows]
    sheet = "".join(line + "\n" for line in [str(count)] + lines).encode("latin-1")
    if len(sheet) > room:
        raise Refused(8, 0)
    return sheet


# ---- sheet to table

def field(f, text, place):
    answer = edges.answer(64, text, f.radix, f.base, f.exponent_radix, f.point, f.mark)
    if answer.startswith("refused"):
        _, number, _, own = answer.split(" ")
        raise Refused(int(number), place + int(own))
    return int(answer, 16)


def row_of(f, sheet, place):
    end = sheet.find(b"\n", place)
    line = sheet[place:end]
    if end < 0 or line.count(b" ") != 1:
        raise Refused(15, place)
    first, second = line.split(b" ")
    window = field(f, first, place), field(f, second, place + len(first) + 1)
    if value_of(window[1]) < value_of(window[0]):
        raise Refused(14, place)
    return window, end + 1


def to_table(f, sheet, room):
    checked(reading_checks(f))
    head, newline, _ = sheet.partition(b"\n")
    if not newline or not head.isdigit() or str(int(head)).encode() != head or int(head) > 400:
        raise Refused(15, 0)
    count = int(head)
    if room < 8 + 16 * count:
        raise Refused(8, 0)
    rows, place = [], len(head) + 1
    for _ in range(count):
        window, place = row_of(f, sheet, place)
        rows.append(window)
    if place < len(sheet):
        raise Refused(15, place)
    columns = [start for start, _ in rows] + [end for _, end in rows]
    return struct.pack(f"<II{2 * count}Q", count, 8 + 16 * count, *columns)


# ---- lines

PRINTED = dict(zip(NAMES, (16, 2, 10, 1, 0, 0, 0, 46, 112, 0, 0, 0, 0, 0, 0, 1)))


def answered(call, *given):
    try:
        made = call(*given)
    except Refused as refusal:
        return refused(*refusal.args)
    return f"{len(made)} {made.hex()}"


def table_line(table, room=32768, **changed):
    fields = {**PRINTED, **changed}
    numbers = " ".join(str(fields[name]) for name in NAMES)
    return f"T {numbers} {room} {table.hex() or '-'}\t{answered(to_sheet, SimpleNamespace(**fields), table, room)}"


def sheet_line(sheet, room=32768, **changed):
    fields = {**PRINTED, **changed}
    f = SimpleNamespace(**fields)
    return f"S {f.radix} {f.base} {f.exponent_radix} {f.point} {f.mark} {room} {sheet.hex() or '-'}\t{answered(to_table, f, sheet, room)}"


def table(count, size, *bits):
    return struct.pack("<II", count, size) + b"".join(struct.pack("<Q", n) for n in bits)


ONE, ONE_AND_HALF = 0x3FF0000000000000, 0x3FF8000000000000


def many(count, sign=0):
    """A table of so many windows, each a float of many digits and the next; with a sign the next one is below, and comes first."""
    smaller = [sign + 0x41D9555555600000 + 0x0000012345678 * i + i for i in range(count)]
    larger = [bits + 1 for bits in smaller]
    return table(count, 8 + 16 * count, *(larger + smaller if sign else smaller + larger))


def headers():
    yield table(1, 24, ONE, ONE_AND_HALF)
    for size in range(10):
        yield bytes([0, 0, 0, 0, 8, 0, 0, 0, 0, 0])[:size]
    for size in range(5, 10):
        yield bytes(size)
    for size in (7, 9, 24):
        yield table(0, size)
    for size in (23, 25, 8, 40):
        yield table(1, size, ONE, ONE)
    yield table(1, 24, ONE)
    yield table(1, 24, ONE, ONE) + b"\0"
    yield table(0x10000, 8)
    yield many(401)
    yield many(400) + b"\0"
    yield many(400)[:-1]


def rows():
    special = INFINITY, INFINITY + 1, 0x7FFFFFFFFFFFFFFF, SIGN + INFINITY, SIGN + INFINITY + 1, 0xFFFFFFFFFFFFFFFF
    for bits in special:
        yield table(1, 24, bits, ONE)
        yield table(1, 24, ONE, bits)
        yield table(3, 56, ONE, ONE, bits, ONE, ONE, ONE)
        yield table(3, 56, ONE, ONE, ONE, ONE, bits, ONE)
    yield table(1, 24, ONE_AND_HALF, ONE)
    yield table(1, 24, ONE + 1, ONE)
    yield table(2, 40, ONE, ONE_AND_HALF, ONE, ONE)
    yield table(2, 40, ONE_AND_HALF, INFINITY, ONE, ONE)
    yield table(2, 40, ONE, ONE, ONE_AND_HALF, INFINITY)
    yield table(2, 40, 0, 1, 0x7FEFFFFFFFFFFFFF, 0x000FFFFFFFFFFFFF)
    for bits in special:
        yield table(1, 24, SIGN + ONE, bits)
        yield table(1, 24, bits, SIGN + ONE)
        yield table(2, 40, ONE, SIGN, SIGN + ONE, bits)


# in ascending order by value, where the zeros are equal
VALUES = SIGN + 0x7FEFFFFFFFFFFFFF, SIGN + ONE_AND_HALF, SIGN + ONE + 1, SIGN + ONE, SIGN + 1, SIGN, 0, 1, ONE, 0x7FEFFFFFFFFFFFFF


def table_of(windows):
    return table(len(windows), 8 + 16 * len(windows), *(start for start, _ in windows), *(end for _, end in windows))


def signed_rows():
    """Every two of these floats as a window, and all windows that pass in one table."""
    windows = [(start, end) for start in VALUES for end in VALUES]
    for window in windows:
        yield table_of([window])
    yield table_of([(start, end) for start, end in windows if value_of(start) <= value_of(end)])
    yield table_of([(SIGN, 0), (SIGN + ONE, SIGN + ONE_AND_HALF)])
    yield table_of([(SIGN + ONE, SIGN + ONE_AND_HALF), (SIGN + ONE_AND_HALF, SIGN + INFINITY)])


def signed_sheets():
    yield from (b"1\n-1 -1\n", b"1\n-2 -1\n", b"1\n-1 -2\n", b"1\n1 -1\n", b"2\n-2 -1\n-1 -1.1\n")
    yield from (b"1\n0 -0\n", b"1\n-0 0\n", b"1\n-0 -0\n", b"1\n-0.0p0 1.8p0\n", b"1\n-1p-1074 -0\n", b"1\n-0 -1p-1074\n", b"1\n0 -1p-1074\n")
    yield from (b"1\n-1p-1075 0\n", b"1\n0 -1p-1075\n", b"1\n-0 -1p-9999\n", b"1\n1 -1p-9999\n", b"1\n-3p-1075 -1p-1073\n", b"1\n-1.00000000000008 -1\n")
    yield from (b"1\n- 1\n", b"1\n1 -\n", b"1\n- -\n", b"1\n-- 1\n", b"1\n--1 1\n", b"1\n1 --1\n", b"1\n+1 1\n", b"1\n1 +1\n", b"1\n-+1 1\n", b"1\n1 +-1\n")
    yield from (b"1\n-x 1\n", b"1\n1 -x\n", b"1\n-1x 1\n", b"1\n-.5 1\n", b"1\n1 -.5\n", b"1\n-1p 1\n", b"1\n1 -1p-\n", b"1\n1- 1\n", b"1\n-1 1-\n", b"1\n -1 1\n", b"1\n- 1 1\n")
    yield from (b"1\n-1p99999 x\n", b"1\n1 -1p-99999\n", b"1\n-1p2000 1\n", b"1\n1 -1p2000\n", b"1\n-1p2000 -1p2000\n", b"-0\n", b"-1\n1 1\n", b"-1\n-1 1\n")
    for start in (b"-F.FFFFFFFFFFFF8p1020", b"-F.FFFFFFFFFFFF8Fp1020", b"-F.FFFFFFFFFFFFBFFFp1020", b"-F.FFFFFFFFFFFFCp1020"):
        yield b"1\n" + start + b" 1.0p0\n"
        yield b"1\n" + start + b" " + start + b"\n"
    yield b"1\n-" + b"0" * 4095 + b" -" + b"0" * 4094 + b"1\n"
    yield b"1\n-" + b"0" * 4096 + b" 1\n"
    yield b"1\n1 -" + b"0" * 4095 + b"1\n"


def sheets():
    yield from (b"", b"\n", b"0", b"0\n", b"00\n", b"01\n1 1\n", b"+1\n1 1\n", b" 1\n1 1\n", b"1 \n1 1\n", b"A\n", b"0\n0\n", b"0\n\n", b"0\n ")
    yield from (b"400\n", b"401\n", b"4000\n", b"9" * 30 + b"\n", b"0" * 30 + b"\n")
    yield from (b"1\n", b"1\n1 1", b"1\n1\n", b"1\n\n", b"1\n \n", b"1\n1 1 \n", b"1\n 1 1\n", b"1\n1  1\n", b"1\n1 1 1\n", b"1\n1 1\r\n", b"1\n1\t1\n")
    yield from (b"1\n1 1\n", b"1\n1x 1\n", b"1\n1.0p0 1x\n", b"1\n1.0p0 \n", b"1\n 1\n", b"1\n1p99999 x\n", b"1\n1 1p-99999\n", b"1\n1p2000 1\n", b"1\n1 1p2000\n", b"1\n-1 1\n")
    yield from (b"2\n1 1\n1 0.8\n", b"2\n1 0.8\n1 x\n", b"2\n1 1\n", b"2\n1 1\n1 1", b"2\n1 1\n1 1\n1", b"1\n1 1\n1 1\n", b"1\n1 1\n\n", b"1\n1.00000000000008 1\n", b"1\n1 1.00000000000008\n")
    for end in (b"F.FFFFFFFFFFFF8p1020", b"F.FFFFFFFFFFFF8Fp1020", b"F.FFFFFFFFFFFFBFFFp1020", b"F.FFFFFFFFFFFFCp1020"):
        yield b"1\n1.0p0 " + end + b"\n"
        yield b"1\n" + end + b" " + end + b"\n"
    yield from (b"1\n1.0p00 1.8p0000\n", b"1\n1.0p-0001 1.8p+000001\n", b"01\n1.0p00 1.8p00\n")
    yield b"1\n" + b"0" * 4095 + b"1 " + b"0" * 4095 + b"1\n"
    yield b"1\n" + b"0" * 4096 + b"1 1\n"
    yield b"1\n1 " + b"0" * 4096 + b"1\n"


def lines():
    yield "# sheet_edges.py made this list: tables and sheets at their edges, with answers computed from the documents alone"
    for given in (*headers(), *rows()):
        yield table_line(given)
    small = table(1, 24, ONE, ONE_AND_HALF)
    for changed in (dict(base=8), dict(exponent_radix=3), dict(point=32), dict(mark=10), dict(mark=65), dict(mark=46), dict(forbidden=1), dict(least=1201), dict(most=1201), dict(most=1),
                    dict(most=17), dict(least=5, most=4), dict(low=1), dict(high=-1), dict(most=1, low=1), dict(forbidden=1, most=1), dict(base=8, most=1), dict(least=20), dict(trim=1, sign=1)):
        yield table_line(small, **changed)
        yield table_line(small[:-1], **changed)
    for room in (0, 13, 14, 15):
        yield table_line(small, room)
    for width in range(6):
        yield table_line(small, width=width)
        yield table_line(small[:-1], width=width)
        yield table_line(small, width=width, low=1)
        yield table_line(table(2, 40, 0, 1, 0x7FEFFFFFFFFFFFFF, 0x7FEFFFFFFFFFFFFF), width=width)
        yield table_line(many(12), width=width)
    full = many(400)
    sheet = to_sheet(SimpleNamespace(**PRINTED), full, 32768)
    yield table_line(full, len(sheet))
    yield table_line(full, len(sheet) - 1)
    yield sheet_line(sheet, 6408)
    yield sheet_line(sheet, 6407)
    for given in sheets():
        yield sheet_line(given)
    for changed in (dict(base=8), dict(exponent_radix=3), dict(point=32), dict(mark=65), dict(base=8, point=32), dict(radix=2)):
        yield sheet_line(b"1\n1.0p0 1.8p0\n", **changed)
    for room in (0, 7, 23, 24, 25):
        yield sheet_line(b"1\n1.0p0 1.8p0\n", room)
        yield sheet_line(b"1\nx", room)
    yield from sign_lines()


def sign_lines():
    """Signs in rows and fields, in every pair, and in bytes just enough and one too few."""
    for given in signed_rows():
        yield table_line(given)
    for given in signed_sheets():
        yield sheet_line(given)
    for k, (radix, base) in enumerate(PAIRS):
        changed = dict(radix=radix, base=base, exponent_radix=edges.EXPONENT_RADICES[k % 6], mark=94, required=k % 2, trim=k // 2 % 2, least=k % 4, width=1 + k % 4)
        yield from enough(table_of(list(zip(VALUES, VALUES[1:]))), **changed)
    yield from enough(table_of([(SIGN, SIGN)]))
    yield from enough(many(400, SIGN))


def enough(given, **changed):
    """A table in bytes just enough, and one too few; and its sheet."""
    sheet = to_sheet(SimpleNamespace(**{**PRINTED, **changed}), given, 32768)
    yield table_line(given, len(sheet), **changed)
    yield table_line(given, len(sheet) - 1, **changed)
    yield sheet_line(sheet, len(given), **changed)


def bytes_of(field):
    return b"" if field == "-" else bytes.fromhex(field)


def answer_to(case):
    kind, *fields, given = case.split(" ")
    *numbers, room = map(int, fields)
    call, names = (to_sheet, NAMES) if kind == "T" else (to_table, ("radix", "base", "exponent_radix", "point", "mark"))
    return answered(call, SimpleNamespace(**dict(zip(names, numbers))), bytes_of(given), room)


def again(name, answer_to):
    """Of how many lines of a list the reference gives the answer."""
    with open(name) as given:
        cases = [row.rstrip("\n").split("\t") for row in given if not row.startswith("#")]
    same = sum(answer_to(case) == wanted for case, wanted in cases)
    return f"{len(cases)} lines, {same} agree"


if __name__ == "__main__":
    for row in [again(sys.argv[1], answer_to)] if len(sys.argv) > 1 else lines():
        print(row)
