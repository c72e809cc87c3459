#!/usr/bin/env python3
"""Prints the list `data/width_edges.txt`: every width with every exponent radix where the digits of an exponent change, and what the documents answer, with `layout.py` of the program `examples`, `edges.py` and `write_edges.py` beside it, and no code of this repository:

    python3 crates/vectors/width_edges.py | diff - crates/vectors/data/width_edges.txt

With `digits` it prints the like of the digits call:

    python3 crates/vectors/width_edges.py digits | diff - crates/vectors/data/digit_edges.txt
"""
import os
import sys

sys.dont_write_bytecode = True
sys.path.insert(0, os.path.join(os.path.dirname(os.path.abspath(__file__)), "..", "examples"))
import layout
import write_edges
from edges import EXPONENT_RADICES, PAIRS, WIDTHS, refused

WIDEST = 4


# ---- writing, exponent required

def writing_line(size, x, **changed):
    return write_edges.line(size, write_edges.bits_of(size, x), **{"required": 1, **changed})


def changes(b, c, radix, places):
    """The first digit's places, up to the farthest, at which the exponent has a digit more than one place nearer 0; and those one place nearer."""
    count = [len(layout.digits(p * b // c, radix, 1)) for p in range(places + 1)]
    at = [p for p in range(1, places + 1) if count[p] > count[p - 1]]
    return sorted({0, *at, *(p - 1 for p in at)})


def exponents():
    for size, (stored, least, last) in WIDTHS.items():
        for (radix, base), (b, c) in PAIRS.items():
            for exponent_radix in EXPONENT_RADICES:
                fields = dict(radix=radix, base=base, exponent_radix=exponent_radix)
                for p in changes(b, c, exponent_radix, (stored + last) // b):
                    for width in range(1, WIDEST + 1):
                        yield writing_line(size, 2.0 ** (b * p), width=width, **fields)
                        yield writing_line(size, 2.0 ** (-b * p), width=width, sign=1, **fields)


def refusals():
    for width in (0, 5, 6, 255, 256, 2**32 - 1):
        for size in WIDTHS:
            yield writing_line(size, 1.5, width=width)
            yield writing_line(size, 1.5, width=width, low=1)
            yield writing_line(size, 1.5, width=width, required=0)


# ---- the digits call

def digits_line(value, radix, width, room):
    text = layout.digits(value, radix, width) if radix in EXPONENT_RADICES else ""
    refusals = (2, not text), (16, not 1 <= width <= WIDEST), (8, len(text) > room)
    answer = next((refused(number) for number, refuses in refusals if refuses), f"{len(text)} {text}")
    return f"D {value} {radix} {width} {room}\t{answer}"


def numbers():
    for radix in EXPONENT_RADICES:
        for value in (0, *(radix**k + d for k in range(1, WIDEST + 1) for d in (-1, 0)), 2**64 - 1):
            for width in range(1, WIDEST + 1):
                for spare in (-1, 0, 1):
                    yield digits_line(value, radix, width, min(64, len(layout.digits(value, radix, width)) + spare))
    for radix in (10, 3):
        for width in (0, 5, 256, 2**32 - 1):
            for room in (64, 0):
                yield digits_line(7, radix, width, room)


def lines():
    yield "# width_edges.py made this list: exponents in every width where their digits change, with answers computed from the documents alone"
    yield from exponents()
    yield from refusals()


def digit_lines():
    yield "# width_edges.py made this list: numbers in every width where their digits change, with answers computed from the documents alone"
    yield from numbers()


if __name__ == "__main__":
    for row in digit_lines() if sys.argv[1:] == ["digits"] else lines():
        print(row)
