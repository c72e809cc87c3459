"""The text of a float by document 01's "Digit limit" and "Layout" and document 02's 2.2 and 2.3, in whole numbers and fractions, for `expected.py`."""
import math
from fractions import Fraction

DIGITS = "0123456789ABCDEFGHIJKLMNOPQRSTUV"


def digits(value, radix, width):
    """With zeros in front up to the least width."""
    text = ""
    while True:
        value, d = divmod(value, radix)
        text = DIGITS[d] + text
        if value == 0:
            return text.rjust(width, "0")


def leading(value):
    """s: the exponent of the leading bit, 0 for zero. The denominator is a power of two."""
    return value.numerator.bit_length() - value.denominator.bit_length() if value else 0


def limit(value, b, most, truncate):
    """The multiple of unit that a value becomes. Python rounds a fraction's tie to the even number."""
    if value == 0 or most == 0:
        return value
    unit = Fraction(2) ** (b * (leading(value) // b - most + 1))
    return (value // unit if truncate else round(value / unit)) * unit


def exact(value, b):
    """D: the digits from the first nonzero one to the last nonzero one; "0" for zero."""
    while value.denominator != 1:
        value *= 2**b
    return digits(int(value), 2**b, 1).rstrip("0") or "0"


def text(value, b, c, case):
    """The text of a value that is not negative, under a format that no check refuses."""
    value = limit(value, b, case.most, case.truncate)
    s = leading(value)
    p = s // b
    D = exact(value, b)
    point = chr(case.point)

    def zeros(so_far):
        return "0" * (case.least - so_far)

    if not case.forbidden and (case.required or s < (case.low or -5) or s > (case.high or 9)):
        if len(D) > 1:
            body = D[0] + point + D[1:] + zeros(len(D))
        elif case.trim and not case.fraction:
            body = D
        else:
            body = D + point + (zeros(1) or "0")
        assert p * b % c == 0
        sign = "-" if p < 0 else "+" if case.sign else ""
        return body + chr(case.mark) + sign + digits(abs(p * b // c), case.exponent_radix, case.width)
    if s < 0:
        return "0" + point + "0" * (-p - 1) + D + zeros(len(D))
    places = p + 1
    if len(D) > places:
        return D[:places] + point + D[places:] + zeros(len(D))
    whole = D + "0" * (places - len(D))
    if case.trim:
        return whole
    return whole + point + "0" + zeros(len(D) + 1 if value else 1)


def is_negative(x):
    """Whether a float's sign bit is set, as minus zero has it too."""
    return math.copysign(1, x) < 0


def float_text(x, b, c, case):
    """A set sign bit writes "-" before the text of the magnitude, which alone the digit limit sees."""
    return ("-" if is_negative(x) else "") + text(abs(Fraction(x)), b, c, case)
