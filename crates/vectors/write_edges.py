#!/usr/bin/env python3
"""Prints the list `data/write_edges.txt`: floats of both signs in every layout and at its edges, and what the documents answer to each, with `layout.py` of the program `examples`, `edges.py` beside it, and no code of this repository:

    python3 crates/vectors/write_edges.py | diff - crates/vectors/data/write_edges.txt

With the name of a list it says of how many of its lines it gives the answer again:

    python3 crates/vectors/write_edges.py crates/vectors/data/write.txt
"""
import math
import os
import struct
import sys
from fractions import Fraction
from types import SimpleNamespace

sys.dont_write_bytecode = True
sys.path.insert(0, os.path.join(os.path.dirname(os.path.abspath(__file__)), "..", "examples"))
import layout
from edges import EXPONENT_RADICES, PAIRS, WIDTHS, bad_byte, refused

NAMES = "radix base exponent_radix required forbidden sign fraction point mark trim truncate least most low high width".split()
PLAIN = dict(zip(NAMES, (16, 2, 10, 0, 0, 0, 0, 46, 94, 0, 0, 0, 0, 0, 0, 1)))
KINDS = {64: ("<Q", "<d"), 32: ("<I", "<f")}


# ---- the reference

def reading_checks(f):
    yield 1, (f.radix, f.base) not in PAIRS
    yield 2, f.exponent_radix not in EXPONENT_RADICES
    yield 3, bad_byte(f.point, f.radix) or bad_byte(f.mark, f.radix) or f.point == f.mark


def writing_checks(f):
    yield 4, f.required and f.forbidden
    yield 5, f.least > 1200 or f.most > 1200 or (f.least and f.most and f.least > f.most)
    yield 6, not -2000 <= (f.low or -5) <= -1 or not 1 <= (f.high or 9) <= 2000
    yield 16, not 1 <= f.width <= 4


def float_of(size, bits):
    whole, kind = KINDS[size]
    return struct.unpack(kind, struct.pack(whole, bits))[0]


def bits_of(size, x):
    whole, kind = KINDS[size]
    return struct.unpack(whole, struct.pack(kind, x))[0]


def written(f, size, bits):
    for number, refuses in (*reading_checks(f), *writing_checks(f)):
        if refuses:
            return refused(number)
    x = float_of(size, bits)
    if not math.isfinite(x):
        return refused(7)
    text = layout.float_text(x, *PAIRS[f.radix, f.base], f)
    return f"{len(text)} {text}"


def line(size, bits, **fields):
    """Of a format with all its fields, or with those that are not as in `PLAIN`."""
    fields = {**PLAIN, **fields}
    numbers = " ".join(str(fields[name]) for name in NAMES)
    return f"{size} {bits:x} {numbers}\t{written(SimpleNamespace(**fields), size, bits)}"


# ---- floats of both signs

def both(size, bits, **fields):
    yield line(size, bits, **fields)
    yield line(size, bits + 2 ** (size - 1), **fields)


def floats(size):
    """Zero, the least float and the largest, ends of the denormals, both sides of both breaks, and digits on both sides of the point."""
    stored, least, last = WIDTHS[size]
    yield from (0, 1, 2**stored - 1, 2**stored, bits_of(size, math.ldexp(2 ** (stored + 1) - 1, last)))
    for x in (2**-6, 2**-5, 1 / 3, 0.5, 1, 1.5, 3.375, 512, 1024):
        yield bits_of(size, x)


LAYOUTS = (
    dict(), dict(trim=1), dict(required=1), dict(required=1, trim=1, sign=1), dict(required=1, trim=1, fraction=1),
    dict(least=5), dict(least=5, trim=1), dict(low=-2000, high=2000), dict(forbidden=1, least=3),
)


def layouts():
    """In every pair each float in three of the layouts, with exponent radices and widths in turn."""
    k = 0
    for size in WIDTHS:
        for radix, base in PAIRS:
            for bits in floats(size):
                for _ in range(3):
                    fields = dict(radix=radix, base=base, exponent_radix=EXPONENT_RADICES[k // 4 % 6], width=1 + k % 4)
                    yield from both(size, bits, **fields, **LAYOUTS[k % len(LAYOUTS)])
                    k += 1


def limits():
    """In every pair a tie between an even multiple and an odd one, and between that and the next even one, and a little above and below each: Round by the magnitude, and Truncate towards zero."""
    for size in WIDTHS:
        stored = WIDTHS[size][0]
        for (radix, base), (b, _) in PAIRS.items():
            for most in (1, 2) if b > 1 else (2, 3):
                unit = Fraction(2) ** (b * (1 - most))
                for half in (1, 3):
                    middle = 1 + half * unit / 2
                    for step in (-1, 0, 1):
                        x = float(middle + step * Fraction(2) ** (5 - stored))
                        for truncate in (0, 1):
                            yield from both(size, bits_of(size, x), radix=radix, base=base, most=most, truncate=truncate)


def limited_largest():
    """The largest float becomes 2^1024 or 2^128, of either sign; the least one stays."""
    for size, (stored, least, last) in WIDTHS.items():
        largest = bits_of(size, math.ldexp(2 ** (stored + 1) - 1, last))
        for radix, base in PAIRS:
            for truncate in (0, 1):
                for bits in (largest, 1, 0):
                    yield from both(size, bits, radix=radix, base=base, most=1, truncate=truncate)


def longest():
    """No text passes 2,276 bytes, and the sign is one of them."""
    for size in WIDTHS:
        for bits in (1, 0):
            for least in (1199, 1200):
                yield from both(size, bits, radix=2, base=2, forbidden=1, least=least)
        yield from both(size, 1, radix=2, base=2, forbidden=1, most=1200)


def refusals():
    """7 for infinities and NaNs of either sign alone, behind 16; and what comes before it."""
    faults = dict(), dict(width=0), dict(high=-1), dict(least=1201), dict(required=1, forbidden=1), dict(mark=46), dict(mark=45), dict(exponent_radix=3), dict(base=3)
    for size in WIDTHS:
        infinity = bits_of(size, math.inf)
        for fields in faults:
            for bits in (0, bits_of(size, 1.5), infinity):
                yield from both(size, bits, **fields)
        for bits in (infinity - 1, infinity + 1, bits_of(size, math.nan), 2 ** (size - 1) - 1):
            yield from both(size, bits)


def lines():
    yield "# write_edges.py made this list: floats of both signs in every layout and at its edges, with answers computed from the documents alone"
    for kind in (layouts(), limits(), limited_largest(), longest(), refusals()):
        yield from kind


def again(name):
    """Of how many lines of a list the reference gives the answer. A line without a width has width 1."""
    with open(name) as given:
        cases = [row.rstrip("\n").split("\t") for row in given if not row.startswith("#")]
    same = 0
    for case, wanted in cases:
        size, bits, *numbers = case.split(" ")
        f = SimpleNamespace(**{**PLAIN, **dict(zip(NAMES, map(int, numbers)))})
        same += written(f, int(size), int(bits, 16)) == wanted
    return f"{len(cases)} lines, {same} agree"


if __name__ == "__main__":
    for row in [again(sys.argv[1])] if len(sys.argv) > 1 else lines():
        print(row)
