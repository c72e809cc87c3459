#!/usr/bin/env python3
"""Prints what the program `examples` must write, from the documents and IEEE 754, and with no code of this repository but `layout.py` beside it:

    python3 crates/examples/expected.py | diff - crates/examples/stdout
"""
import math
import struct
import sys
from fractions import Fraction

sys.dont_write_bytecode = True
import layout
from layout import DIGITS, digits

RADICES = (2, 4, 8, 10, 16, 32)


# ---- integer digits

def integer(value, radix, width, room):
    """The refusal's number, or the text."""
    if radix not in RADICES:
        return 2
    if not 1 <= width <= 4:
        return 16
    text = digits(value, radix, width)
    return text if len(text) <= room else 8


def asked(value, radix, width, shown):
    return f"{radix} {value} {'' if width == 1 else f'width {width} '}{shown}"


def digits_asked(value, radix, width, room):
    answer = integer(value, radix, width, room)
    shown = f"refused {answer} at 0" if isinstance(answer, int) else answer
    text = "" if isinstance(answer, int) else answer
    return asked(value, radix, width, shown), text


def digits_line(value, radix, width):
    return digits_asked(value, radix, width, 64)[0]


def room_lines(value, radix, width):
    for room in (6, 4, 3, 2, 1, 0):
        line, text = digits_asked(value, radix, width, room)
        yield f"{line} [{text.ljust(room, '.')}]"


def last_line(value, bits, count, room):
    """The last digits of a value, zeros in front where it has fewer."""
    refused = 2 if not 1 <= bits <= 5 else 8 if count > room else 0
    text = "" if refused else "".join(DIGITS[value >> bits * place & 2**bits - 1] for place in reversed(range(count)))
    return f"last {count} of {bits} bits {value} {f'refused {refused} at 0' if refused else text} [{text.ljust(room, '.')}]"


def digit_lines():
    for value in (0, 1, 31, 32, 1023, 1024, 2**64 - 1):
        for radix in RADICES:
            yield digits_line(value, radix, 1)
    for value, radix in ((0, 2), (1024, 10), (255, 16), (1024, 32), (5, 0), (5, 3), (5, 64)):
        yield from room_lines(value, radix, 1)
    for value in (0, 31, 1000):
        for width in (0, 2, 3, 4, 5):
            for radix in RADICES:
                yield digits_line(value, radix, width)
        yield digits_line(value, 3, 0)
    for width in (3, 0):
        yield from room_lines(5, 10, width)
    for value in (0, 1234567, 2**64 - 1):
        for bits, count, room in ((1, 70, 72), (2, 33, 33), (3, 23, 24), (4, 5, 6), (5, 14, 14), (5, 13, 14), (5, 2, 3), (5, 0, 1), (0, 1, 1), (6, 2, 1), (5, 2, 1)):
            yield last_line(value, bits, count, room)


# ---- the same step by step

class Steps:
    """Lent bytes, into which the digits come from the front: one where an odd number of them is left, else two."""

    def __init__(self, value, radix, width, room, at=0):
        self.asked, self.at, self.bytes = (value, radix, width), at, "." * room

    def line(self):
        value, radix, width = self.asked
        answer = 2 if radix == 10 else integer(value, radix, width, len(self.bytes))
        if isinstance(answer, int):
            shown = f"refused {answer} at 0"
        else:
            left = max(len(answer) - self.at, 0)
            more = answer[self.at:self.at + (2 if left % 2 == 0 else 1)]
            self.bytes = self.bytes[:self.at] + more + self.bytes[self.at + len(more):]
            self.at += len(more)
            shown = self.at
        return f"{asked(value, radix, width, shown)} [{self.bytes}]"


def step_lines():
    for value, radix, width, room in (
            (1234567, 2, 1, 24), (1234567, 4, 1, 12), (1234567, 8, 1, 9), (1234567, 16, 1, 8), (1234567, 32, 1, 8), (2**64 - 1, 8, 1, 22), (2**64 - 1, 32, 1, 13),
            (0, 2, 1, 3), (0, 32, 4, 5), (5, 16, 3, 5), (5, 2, 4, 5)):
        steps = Steps(value, radix, width, room)
        for _ in range(-(-len(digits(value, radix, width)) // 2) + 1):
            yield steps.line()
    for radix, width, room, at in (
            (16, 1, 8, 1), (32, 1, 8, 3), (16, 1, 8, 7), (16, 1, 8, 9), (7, 0, 8, 0), (10, 0, 8, 0), (16, 0, 8, 0), (16, 5, 5, 0), (16, 1, 5, 0), (16, 1, 5, 4)):
        yield Steps(1234567, radix, width, room, at).line()


# ---- floats: stored bits of the mantissa, bias, and how Python unpacks the bits

WIDTHS = {"f64": (52, 1075, "<Q", "<d"), "f32": (23, 150, "<I", "<f")}


def float_of(width, bits):
    stored, bias, whole, kind = WIDTHS[width]
    return struct.unpack(kind, struct.pack(whole, bits))[0]


def bits_of(width, x):
    stored, bias, whole, kind = WIDTHS[width]
    return struct.unpack(whole, struct.pack(kind, x))[0]


def parts_line(width, bits):
    stored, bias, whole, kind = WIDTHS[width]
    x = float_of(width, bits)
    if math.isnan(x) or math.isinf(x):
        return f"{width} {bits:x}: special"
    # the exponent by the value: that of the leading bit less the stored ones, and no less than the least
    e = 1 - bias
    if x != 0:
        e = max(e, math.frexp(abs(x))[1] - 1 - stored)
    m = Fraction(abs(x)) / Fraction(2) ** e
    assert m.denominator == 1
    s = math.frexp(abs(x))[1] - 1 if x != 0 else 0
    return f"{width} {bits:x}: s {s}, {'-' if layout.is_negative(x) else ''}{m} * 2^{e}"


F64 = (
    0, 1, 0x000FFFFFFFFFFFFF, 0x0010000000000000, 0x3FF0000000000000, 0x3FF8000000000000, 0x400FFFFFFFFFFFFF, 0x7FEFFFFFFFFFFFFF,
    0x7FF0000000000000, 0xFFF0000000000000, 0x7FF0000000000001, 0x7FF8000000000000, 0xFFFFFFFFFFFFFFFF,
    0x8000000000000000, 0x8000000000000001, 0xBFF0000000000000, 0xFFEFFFFFFFFFFFFF,
)
F32 = (
    0, 1, 0x007FFFFF, 0x00800000, 0x3F800000, 0x3FC00000, 0x407FFFFF, 0x7F7FFFFF,
    0x7F800000, 0xFF800000, 0x7F800001, 0x7FC00000, 0xFFFFFFFF, 0x80000000, 0x80000001, 0xBF800000, 0xFF7FFFFF,
)


def float_lines():
    for bits in F64:
        yield parts_line("f64", bits)
    for bits in F32:
        yield parts_line("f32", bits)


ORDER = (
    0x7FF8000000000000, 0xFFF0000000000000, 0xFFEFFFFFFFFFFFFF, 0xBFF0000000000000, 0x8000000000000002, 0x8000000000000001,
    0x8000000000000000, 0, 1, 2, 0x3FF0000000000000, 0x7FF0000000000000,
)


def order_lines():
    for x in ORDER:
        yield f"{x:x} is below " + "".join(str(int(float_of("f64", x) < float_of("f64", y))) for y in ORDER)


# ---- the three exponents. No pair has b = 0 or c = 0; there docs/DECISIONS.md settles the answer (point 40).

PAIRS = {
    (2, 2): (1, 1), (4, 4): (2, 2), (8, 8): (3, 3), (16, 16): (4, 4), (32, 32): (5, 5),
    (4, 2): (2, 1), (8, 2): (3, 1), (16, 2): (4, 1), (32, 2): (5, 1), (16, 4): (4, 2),
}


def scaled_line(s, b, c):
    p = s // b if b != 0 else -1 if s < 0 else 0
    power = abs(p) * b // c if c != 0 else 0
    return f"s {s}, b {b}, c {c}: p {p}, {'-' if p < 0 else ''}{power}"


def held(x):
    """A number as 32 bits hold it: past an end, that end."""
    return max(-(2**31), min(2**31 - 1, x))


def counted_line(n, b):
    mod = n % b if b != 0 else max(n, 0)
    zeros = max(abs(n) - 1, 0)
    return f"{n} of b {b}: mod {mod}, zeros {zeros}, places {abs(n) + 1}, digits {held(n * b)}, powers {held(n * b)}, raised {held(n + b)}"


def height_line(e, d):
    return f"{e} is {'' if e < d else 'not '}below {d}, and stands above it by {max(e - d, 0)}"


def exponent_lines():
    for s in (-1074, -5, -4, -1, 0, 4, 1023):
        for b, c in PAIRS.values():
            yield scaled_line(s, b, c)
    for s, b, c in ((-(2**31), 1, 1), (-(2**31), 2**32 - 1, 1), (2**31 - 1, 0, 1), (-(2**31), 0, 1), (-1, 4, 0)):
        yield scaled_line(s, b, c)
    for n in (-(2**31), -1074, -5, -4, -1, 0, 4, 1023, 2**31 - 1):
        for b in (0, 1, 4, 5, 2**32 - 1):
            yield counted_line(n, b)
    for e, d in ((-1022, -1074), (-1074, -1074), (-1075, -1074), (2**31 - 1, -(2**31)), (-(2**31), 2**31 - 1)):
        yield height_line(e, d)
    for value in (0, 1, 2**52 - 1, 2**52, 2**63 - 1, 2**64 - 1):
        yield f"{value} has {value.bit_length()} bits"


# ---- formats

class Case:
    radix, base, exponent_radix = 16, 2, 10
    required = forbidden = sign = fraction = trim = truncate = False
    least = most = low = high = 0
    width = 1
    point, mark = ord("."), ord("^")

    def __init__(self, **fields):
        for name, value in fields.items():
            setattr(self, name, value)

    def bad_byte(self, x):
        return not 33 <= x <= 126 or chr(x) in "+-" or chr(x) in DIGITS[: min(self.radix, 32)]

    def reading(self):
        if (self.radix, self.base) not in PAIRS:
            return 1
        if self.exponent_radix not in RADICES:
            return 2
        if self.bad_byte(self.point) or self.bad_byte(self.mark) or self.point == self.mark:
            return 3
        return None

    def writing(self):
        number = self.reading()
        if number:
            return number
        if self.required and self.forbidden:
            return 4
        if self.least > 1200 or self.most > 1200 or (self.least and self.most and self.least > self.most):
            return 5
        if not -2000 <= (self.low or -5) <= -1 or not 1 <= (self.high or 9) <= 2000:
            return 6
        if not 1 <= self.width <= 4:
            return 16
        return None

    def line(self, name):
        def answer(number, passed):
            return f"refused {number} at 0" if number else passed

        b, c = PAIRS.get((self.radix, self.base), (0, 0))
        bits = f"b {b} c {c}"
        return f"{name}: write {answer(self.writing(), f'{bits} breaks {self.low or -5} {self.high or 9}')}, read {answer(self.reading(), bits)}"


# a fault more each time, the last of the checks first
FAULTS = (
    (16, {"width": 0}), (6, {"high": -1}), (5, {"least": 1201}), (4, {"required": True, "forbidden": True}), (3, {"mark": ord(".")}),
    (2, {"exponent_radix": 3}), (1, {"base": 3}),
)


def format_lines():
    for radix in (0, 2, 4, 8, 10, 16, 32, 64, 2**32 - 1):
        for base in (0, 2, 4, 8, 10, 16, 32):
            yield Case(radix=radix, base=base).line(f"pair {radix}/{base}")
    for radix in (0, 1, 2, 3, 4, 8, 10, 16, 32, 36, 2**32 - 1):
        yield Case(exponent_radix=radix).line(f"exponent radix {radix}")
    for radix, point, mark in (
        (16, 0, "^"), (16, ".", 0), (16, 255, "^"), (16, ".", 255), (16, 32, "^"), (16, 33, "^"), (16, ".", 126), (16, ".", 127),
        (16, "^", "^"), (16, "+", "^"), (16, ".", "-"), (2, ".", "1"), (2, ".", "2"), (8, ".", "7"), (8, "8", "^"),
        (16, ".", "F"), (16, ".", "G"), (16, ".", "e"), (32, ".", "V"), (32, "W", "p"),
    ):
        point, mark = (x if isinstance(x, int) else ord(x) for x in (point, mark))
        yield Case(radix=radix, base=radix, point=point, mark=mark).line(f"radix {radix} point {point} mark {mark}")
    for required, forbidden in ((0, 0), (1, 0), (0, 1), (1, 1)):
        yield Case(required=required, forbidden=forbidden).line(f"required {required} forbidden {forbidden}")
    big = 2**32 - 1
    for least, most in ((1200, 0), (1201, 0), (0, 1200), (0, 1201), (1200, 1200), (5, 4), (5, 5), (1, 0), (big, big)):
        yield Case(least=least, most=most).line(f"least {least} most {most}")
    for low, high in ((-2001, 0), (-2000, 0), (-1, 0), (1, 0), (0, 1), (0, 2000), (0, 2001), (0, -1), (-6, 10), (-(2**31), 2**31 - 1)):
        yield Case(low=low, high=high).line(f"low {low} high {high}")
    for width in (0, 1, 4, 5, big):
        yield Case(width=width).line(f"width {width}")
    case = Case()
    numbers = "16"
    for number, fields in FAULTS:
        vars(case).update(fields)
        numbers = f"{number}, {numbers}" if number != 16 else numbers
        yield case.line(numbers)


# ---- texts

def label(case):
    """Radix, base and exponent radix, and what is not as usual."""
    words = [f"{case.radix}/{case.base}/{case.exponent_radix}"]
    words += [name for name in ("required", "forbidden", "sign", "fraction") if getattr(case, name)]
    words += [f"{name} {getattr(case, name)}" for name in ("point", "mark") if getattr(case, name) != getattr(Case, name)]
    words += [name for name in ("trim", "truncate") if getattr(case, name)]
    words += [f"{name} {getattr(case, name)}" for name in ("least", "most", "low", "high") if getattr(case, name)]
    words += [f"width {case.width}"] if case.width != 1 else []
    return " ".join(words)


def text_line(width, bits, case, room=4096):
    x = float_of(width, bits)
    number, text = case.writing(), ""
    if not number and not math.isfinite(x):
        number = 7
    if not number:
        text = layout.float_text(x, *PAIRS[case.radix, case.base], case)
        if len(text) > room:
            number, text = 8, ""
    answer = f"refused {number} at 0" if number else text if len(text) <= 100 else f"{len(text)} bytes"
    return f"{width} {bits:x} {label(case)} in {room}: {answer}, {4096 - len(text)} kept"


def both(x, case):
    for width in WIDTHS:
        yield text_line(width, bits_of(width, x), case)


def zeros(case):
    for x in (0.0, -0.0):
        yield from both(x, case)


def at(radix, base, exponent_radix, **fields):
    return Case(radix=radix, base=base, exponent_radix=exponent_radix, **fields)


LEAST = 2.0**-1074
LARGEST = {"f64": float_of("f64", F64[7]), "f32": float_of("f32", F32[7])}


def worked_lines(sign):
    for x, case in (
        (2**-5, at(2, 2, 2)), (2**-6, at(2, 2, 2)), (512, at(16, 16, 16)),
        (1024, at(16, 16, 16)), (1024, at(16, 16, 16, trim=True)), (1024, at(16, 16, 16, sign=True)),
        (1024, at(16, 2, 10)), (2**-6, at(16, 2, 10)), (1024, at(16, 4, 10)),
        (LEAST, at(32, 32, 10)), (512, at(32, 32, 10, trim=True)), (8, at(2, 2, 2, trim=True, least=5)), (8, at(2, 2, 2, least=5)),
    ):
        yield text_line("f64", bits_of("f64", sign * x), case)
    yield text_line("f32", bits_of("f32", sign * LARGEST["f32"]), at(16, 2, 10))


def limit_lines(sign):
    for truncate in (False, True):
        yield from both(sign * 1.5, at(16, 16, 16, most=1, truncate=truncate))
    for x in (1.75, 1.25):
        yield from both(sign * x, at(2, 2, 2, most=2))
    for width, truncate in (("f64", False), ("f64", True), ("f32", False)):
        yield text_line(width, bits_of(width, sign * LARGEST[width]), at(16, 2, 10, most=1, truncate=truncate))


def text_lines():
    for sign in (1, -1):
        yield from worked_lines(sign)
    for flags in ({}, {"required": True}, {"required": True, "fraction": True}):
        for fields in ({}, {"least": 5}, {"least": 5, "trim": True}, {"trim": True}):
            yield from zeros(at(2, 2, 2, **flags, **fields))
    for sign in (1, -1):
        yield from limit_lines(sign)
    for truncate in (False, True):
        yield from zeros(at(16, 16, 16, most=1, truncate=truncate))
    for width in range(6):
        for x in (1024, 2**-6, LEAST):
            yield text_line("f64", bits_of("f64", x), at(16, 2, 10, width=width))
        yield from both(1.5, at(16, 2, 10, width=width))
        yield from zeros(at(16, 2, 10, required=True, sign=True, width=width))
    for x, rooms in ((LEAST, (4096, 2275, 2274)), (-LEAST, (4096, 2276, 2275))):
        for room in rooms:
            yield text_line("f64", bits_of("f64", x), at(2, 2, 2, forbidden=True, least=1200), room)
    yield from refusal_lines()


def refusal_lines():
    cases = [at(16, 8, 10), at(16, 2, 3)]
    for point, mark in (("^", "^"), ("+", "^"), (".", "-"), ("F", "^"), ("G", "^"), (" ", "^"), (".", "\x7f")):
        cases.append(Case(point=ord(point), mark=ord(mark)))
    cases.append(Case(required=True, forbidden=True))
    cases += [Case(least=least, most=most) for least, most in ((1200, 0), (1201, 0), (0, 1201), (5, 4), (5, 5))]
    cases += [Case(low=low, high=high) for low, high in ((1, 0), (-2000, 0), (-2001, 0), (0, -1), (0, 2000), (0, 2001))]
    for case in cases:
        yield from both(1.5, case)
    yield from both(-1.5, Case())
    for width in WIDTHS:
        for x in (LARGEST[width], -LARGEST[width], math.inf, -math.inf, math.nan, -math.nan):
            yield text_line(width, bits_of(width, x), Case())
    for width in WIDTHS:
        for x, enough in ((0.5, 3), (-0.5, 4), (-0.0, 4)):
            for room in (enough, enough - 1, 1, 0):
                yield text_line(width, bits_of(width, x), at(16, 16, 16), room)
    case = Case()
    for fields in ({}, *(fields for _, fields in FAULTS)):
        vars(case).update(fields)
        for width in WIDTHS:
            yield text_line(width, bits_of(width, -math.inf), case, 0)


for lines in (digit_lines, step_lines, float_lines, order_lines, exponent_lines, format_lines, text_lines):
    for line in lines():
        print(line)
