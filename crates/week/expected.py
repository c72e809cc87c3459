#!/usr/bin/env python3
"""Prints what the program `week` must write, from the documents and IEEE 754, with `layout.py` of the program `examples` for the texts:

    python3 crates/week/expected.py | diff - crates/week/stdout
"""
import os
import struct
import sys
from types import SimpleNamespace

sys.dont_write_bytecode = True
sys.path.insert(0, os.path.join(os.path.dirname(os.path.abspath(__file__)), "..", "examples"))
import layout

DEFAULT = dict(
    exponent_radix=10, required=False, forbidden=False, sign=False, fraction=False, point=ord("."), mark=ord("^"),
    trim=False, truncate=False, least=0, most=0, low=0, high=0, width=1,
)


def text(x, b, c, **changed):
    return layout.float_text(x, b, c, SimpleNamespace(**{**DEFAULT, **changed}))


def tuesday(x):
    return text(x, 4, 1, mark=ord("p"), required=True)


def wednesday(x, width=1):
    return text(x, 5, 5, width=width)


def thursday(x):
    return text(x, 1, 1, mark=ord("e"))


F64 = (
    0, 1, 2, 0x000FFFFFFFFFFFFF, 0x0010000000000000, 0x3FB999999999999A, 0x3FD5555555555555, 0x3FF0000000000000,
    0x3FF0000000000001, 0x3FF8000000000000, 0x400921FB54442D18, 0x4090000000000000, 0x41D9555555600000,
    0x4330000000000000, 0x433FFFFFFFFFFFFF, 0x43E0000000000000, 0x7FE0000000000000, 0x7FEFFFFFFFFFFFFF,
)
F32 = (
    0, 1, 2, 0x007FFFFF, 0x00800000, 0x3DCCCCCD, 0x3EAAAAAB, 0x3F800000, 0x3F800001, 0x44900000, 0x7F000000, 0x7F7FFFFF,
)


KINDS = {"f64": ("<Q", "<d", 1 << 63), "f32": ("<I", "<f", 1 << 31)}


def float_of(width, bits):
    whole, kind, _ = KINDS[width]
    return struct.unpack(kind, struct.pack(whole, bits))[0]


# texts that no float is written as, and the bits that they are read as: the largest float with a digit more, less than half a step above it; half the least float, a tie that zero takes; and three quarters of it
SENT = (
    ("f64", "F.FFFFFFFFFFFF8Fp1020", 0x7FEFFFFFFFFFFFFF), ("f64", "-F.FFFFFFFFFFFF8Fp1020", 0xFFEFFFFFFFFFFFFF),
    ("f32", "F.FFFFF7p124", 0x7F7FFFFF), ("f32", "-F.FFFFF7p124", 0xFF7FFFFF),
    ("f64", "1p-1075", 0), ("f64", "-1p-1075", 1 << 63), ("f64", "-3p-1076", (1 << 63) + 1),
    ("f32", "1p-150", 0), ("f32", "-1p-150", 1 << 31), ("f32", "-3p-151", (1 << 31) + 1),
)

REFUSED = (
    ("no text", "station 0, reading: refused 9 at 0"),
    ("a wrong byte", "station 0, reading: refused 9 at 3"),
    ("an exponent of 32,768", "station 0, reading: refused 10 at 3"),
    ("too large", "station 0, reading: refused 11 at 0"),
    ("a sign alone", "station 0, reading: refused 9 at 1"),
    ("two signs", "station 0, reading: refused 9 at 1"),
    ("a plus sign", "station 0, reading: refused 9 at 0"),
    ("a wrong byte behind a sign", "station 0, reading: refused 9 at 4"),
    ("a sign and an exponent of 32,768", "station 0, reading: refused 10 at 4"),
    ("a sign, and too large", "station 0, reading: refused 11 at 0"),
    ("1,201 digits", "station 0, writing: refused 5 at 0"),
    ("width 0", "station 0, writing: refused 16 at 0"),
    ("a record cut off behind its base", "station 2, writing: refused 2 at 0"),
    ("a record cut off before its mark", "station 1, writing: refused 3 at 0"),
    ("a buffer a byte too short", "station 1, writing: refused 8 at 0"),
    ("a buffer without room for a sign", "station 1, writing: refused 8 at 0"),
)


def week_lines():
    """Nothing is lost on the way, so that the bits read on Friday are Monday's."""
    for width, floats in (("f64", F64), ("f32", F32)):
        for bits in floats:
            for signed in (bits, bits + KINDS[width][2]):
                x = float_of(width, signed)
                yield f"{width} {signed:x}: {tuesday(x)} {thursday(x)} {signed:x}"
    for width, sent, bits in SENT:
        yield f"{width} {sent}: {thursday(float_of(width, bits))} {bits:x}"


def chain_lines():
    # the first station and 100,000 more, Thursday's format and Wednesday's in turn
    x = float.fromhex("0x1.921FB54442D18p1")
    for arrived in (x, -x, -0.0):
        yield f"100001 stations: {wednesday(arrived)}"
    for name, last in (("width 4", wednesday(1024.0, 4)), ("widths 4 and 1", thursday(1024.0)), ("widths 4, 1 and 3", wednesday(1024.0, 3))):
        yield f"{name}: {last}"
    for name, answer in REFUSED:
        yield f"{name}: {answer}, and every byte as it was"


for line in (*week_lines(), *chain_lines()):
    print(line)
