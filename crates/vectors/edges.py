#!/usr/bin/env python3
"""Prints the list `data/edges.txt`: texts at the edges of reading, and what the documents answer to each, in whole numbers and fractions, with no code of this repository:

    python3 crates/vectors/edges.py | diff - crates/vectors/data/edges.txt

With `long` it prints a list of long texts at the top edge, apart since the program that replays them has room for half a million bytes:

    python3 crates/vectors/edges.py long | diff - crates/vectors/data/top_edge_long.txt

With `signs` it prints a list of texts with a sign:

    python3 crates/vectors/edges.py signs | diff - crates/vectors/data/sign_edges.txt

With the name of a list it says of how many of its lines it gives the answer again:

    python3 crates/vectors/edges.py crates/vectors/data/read.txt
"""
import re
import sys
from fractions import Fraction

# ---- document 01, "Formats": radix and base of each pair, with the bits b of the radix and c of the base

PAIRS = {(2, 2): (1, 1), (4, 4): (2, 2), (8, 8): (3, 3), (16, 16): (4, 4), (32, 32): (5, 5),
         (4, 2): (2, 1), (8, 2): (3, 1), (16, 2): (4, 1), (32, 2): (5, 1), (16, 4): (4, 2)}
EXPONENT_RADICES = (2, 4, 8, 10, 16, 32)
DIGITS = b"0123456789ABCDEFGHIJKLMNOPQRSTUV"

# ---- "Float parts": stored bits, least exponent, and the exponent of the largest float's last bit

WIDTHS = {64: (52, -1074, 971), 32: (23, -149, 104)}


def power(e):
    return Fraction(2) ** e


# ---- the reference

def refused(number, place=0):
    return f"refused {number} at {place}"


def bad_byte(byte, radix):
    return not 33 <= byte <= 126 or byte in b"+-" or byte in DIGITS[:radix]


def shape(text, radix, exponent_radix, point, mark):
    """The sign, the digits before and behind the point, sign and digits of the exponent; or the place where no text goes on so. One "-" may lead: document 02, 2.3."""
    digit, exponent_digit = b"[%s]" % DIGITS[:radix], b"[%s]" % DIGITS[:exponent_radix]
    p, m = re.escape(bytes([point])), re.escape(bytes([mark]))
    whole = re.compile(b"(-?)(%s+)(?:%s(%s*))?(?:%s([+-]?)(%s+))?" % (digit, p, digit, m, exponent_digit), re.DOTALL)
    begun = re.compile(b"-?(?:%s+(?:%s%s*)?(?:%s[+-]?%s*)?)?" % (digit, p, digit, m, exponent_digit), re.DOTALL)
    found = whole.fullmatch(text)
    if found is None:
        return begun.match(text).end()
    return [part or b"" for part in found.groups()]


def value_of(digits, radix):
    value = 0
    for byte in digits:
        value = value * radix + DIGITS.index(byte)
    return value


def leading(value):
    """The exponent of a value's leading bit."""
    s = value.numerator.bit_length() - value.denominator.bit_length()
    return s if value >= power(s) else s - 1


def top_edge(width):
    """Document 02, 2.1: half a step above the largest float."""
    stored, _, last = WIDTHS[width]
    return (2 ** (stored + 2) - 1) * power(last - 1)


def nearest(width, value):
    """The bits of the float nearest to a value below the top edge, ties to even."""
    stored, least, _ = WIDTHS[width]
    if value == 0:
        return 0
    e = max(least, leading(value) - stored)
    m = round(value / power(e))  # a fraction is rounded half to even
    assert abs(value / power(e) - m) <= Fraction(1, 2)
    if m < 2**stored:
        return m
    if m == 2 ** (stored + 1):
        m, e = 2**stored, e + 1
    biased = e - least + 1
    return biased * 2**stored + m - 2**stored


def answer(width, text, radix, base, exponent_radix, point, mark):
    if (radix, base) not in PAIRS:
        return refused(1)
    if exponent_radix not in EXPONENT_RADICES:
        return refused(2)
    if bad_byte(point, radix) or bad_byte(mark, radix) or point == mark:
        return refused(3)
    if len(text) > 4096:
        return refused(12)
    found = shape(text, radix, exponent_radix, point, mark)
    if isinstance(found, int):
        return refused(9, found)
    sign, whole, fraction, exponent_sign, digits = found
    exponent = value_of(digits, exponent_radix)
    if exponent > 32767:
        return refused(10, len(text) - len(digits))
    power_of_base = Fraction(base) ** (-exponent if exponent_sign == b"-" else exponent)
    magnitude = value_of(whole + fraction, radix) * power_of_base / Fraction(radix) ** len(fraction)
    if magnitude >= top_edge(width):
        return refused(11)
    # the sign bit is set exactly when the text begins with "-", at zero too
    return f"{nearest(width, magnitude) + len(sign) * 2 ** (width - 1):x}"


# ---- texts

def numeral(value, radix):
    digits = ""
    while value >= radix:
        digits = chr(DIGITS[value % radix]) + digits
        value //= radix
    return chr(DIGITS[value]) + digits


def spelled(m, e, pair, exponent_radix, places=0):
    """m * 2^e in digits and an exponent, with so many places behind the point, or all but the first."""
    b, c = PAIRS[pair]
    x, rest = divmod(e, c)
    digits = numeral(m << rest, pair[0])
    places = min(places, len(digits) - 1)
    x += places * b // c
    whole, fraction = digits[:len(digits) - places], digits[len(digits) - places:]
    sign = "-" if x < 0 else ""
    return f"{whole}{'.' if fraction else ''}{fraction}^{sign}{numeral(abs(x), exponent_radix)}"


def settled():
    """Document 01's examples and settled points, and the shape of a text, in 16/2 with exponent radix 10."""
    zeros = "0" * 13
    yield from ("10.0^-4", f"1.{zeros}8", f"1.{zeros}9", "1.000001", "1.0000011", "1.8p0", "0", "0.0", "000.000^000")
    yield from ("0^32767", "0^32768", "0^-32767", "0^-32768", "1^32767", "1^-32767", "1^32768", "1^-32768", "0.0^+32768")
    yield from ("1^99999x", "1^-99999x", "1x^99999", "", ".", ".5", "^5", "1^", "1^+", "1^-", "1.", "1.^5", "1.^", "1.^-")
    yield from ("+1", "-1", " 1", "1 ", "1^ 5", "1^+5", "1^-5", "1^--5", "1^+-5", "1..", "1.5.", "1^5.", "1^5^5", "1.8^5+")
    yield from ("a", "A", "1a", "1.a", "1.A", "F", "f", "G", "1G", "1.G", "1^A", "1^a", "1^5A", "1P5", "1.8E5", "1.8e5")
    yield from ("1^1234567890123456789012345", "1.8^-1234567890123456789012345", "0^9999999999999999999999999", "1^65536", "1^-65540")
    yield from ("1^4294967296", "1^4294967300", "1^18446744073709551616", "1^18446744073709551620", "1^36893488147419103236")
    yield from ("1^0000000000000000000000004", "1^-0000000000000000000000004", "1^0000000000000000000000032767")
    yield from ("0^+0000000000000000000000032768", "1^-0000000000000000000000032768", "1^00000000000000000000000000")
    yield from ("1\0", "\0", "1\n", "1\t", "1\xff", "\xff", "1.\x80", "1^5\0", "1^5\n")


def byte_texts():
    """Bytes beside the digits, before the point, behind it and in the exponent."""
    for pair, exponent_radix in (((2, 2), 2), ((8, 2), 8), ((16, 4), 16), ((32, 32), 32)):
        for byte in "/0127" + "89:@A" + "FGVW`a" + "fgvw":
            yield f"1{byte}.1{byte}^1{byte}", *pair, exponent_radix, ".", "^"


def byte_formats():
    """A mark or point that is a digit of the exponent radix alone, and bytes at the edges of check 3."""
    for text in ("1.0AA", "1A-A", "1AAA", "1A", "1AG", "1A+", "A1", "1.A1", "1.1A1.", "1.1A1^1"):
        yield text, 2, 2, 16, ".", "A"
    for text in ("1VV", "1V-V", "V", "1V+V1", "1.8V10", "1VW"):
        yield text, 16, 2, 32, ".", "V"
    for text in ("151^5", "15^5", "15155", "1^55", "5", "151^"):
        yield text, 2, 2, 10, "5", "^"
    for text in ("1999", "19", "17.79-9", "1989"):
        yield text, 8, 2, 10, ".", "9"
    for point, mark in (" ^", "!^", "~^", "\x7f^", "\0^", "\xff^", ". ", ".!", ".~", ".\x7f", ".\0", ".\xff", "+^", "-^", ".+", ".-", "..",
                        "^^", "0^", ".0", "1^", ".1", "2^", ".2", "F^", ".F", "G^", ".G", "V^", ".V", "W^", ".W", "v^", ".v"):
        for pair, exponent_radix in (((2, 2), 2), ((16, 2), 10), ((32, 2), 32)):
            yield f"1{point}1{mark}11", *pair, exponent_radix, point, mark


def unknown_formats():
    """Refusals 1 and 2, and that 1 comes before 2, 2 before 3, and 3 before 12, 9 and 10."""
    for pair in ((0, 0), (1, 1), (2, 4), (2, 10), (3, 3), (4, 8), (4, 16), (8, 4), (8, 16), (10, 10), (10, 2), (16, 8), (16, 10), (16, 32),
                 (16, 0), (0, 2), (32, 4), (32, 8), (32, 16), (36, 36), (64, 64), (64, 2), (4294967295, 2), (2, 4294967295)):
        yield "1.0", *pair, 10, ".", "^"
    for exponent_radix in (0, 1, 3, 5, 6, 7, 9, 11, 12, 15, 17, 31, 33, 36, 64, 4294967295):
        yield "1.0", 16, 2, exponent_radix, ".", "^"
    for pair, exponent_radix, point in (((3, 3), 3, "+"), ((16, 2), 3, "+"), ((16, 2), 10, "+"), ((3, 3), 10, "+")):
        yield "x", *pair, exponent_radix, point, "^"
        yield "1^99999", *pair, exponent_radix, point, "^"


def edge_values(width):
    """m and e of the values m * 2^e at a width's edges. The unit is the least denormal."""
    stored, least, last = WIDTHS[width]
    full = 2 ** (stored + 1)
    yield from ((1, least), (1, least - 1), (2**70 + 1, least - 71), (2**70 - 1, least - 71), (3, least - 1))
    yield from ((3 * 2**70 - 1, least - 71), (1, least - 2), (full // 2 - 1, least), (full - 1, least - 1))
    yield from (((full - 1) * 2**70 - 1, least - 71), (full // 2, least), (full + 1, least), (full - 1, last))
    yield from (((full - 1) * 2**70 + 1, last - 70), ((full - 1) * 2**70 - 1, last - 70), (2 * full - 1, last - 1), (1, last + stored + 1))
    yield from ((full + 1, 0), (full + 3, 0), ((full + 1) * 2**70 + 1, -70), ((full + 3) * 2**70 - 1, -70), (2 * full - 1, 0))
    yield from (((2 * full - 1) * 2**70 - 1, last - 71), ((2 * full - 1) * 2**70 + 1, last - 71))


def twice_rounded():
    """32-bit values a little above or below a tie, which a 64-bit float in between would round to the tie itself."""
    for m in (2**24 + 1, 2**24 + 3):
        for e in (0, -40):
            yield m * 2**60 + 1, e - 60
            yield m * 2**60 - 1, e - 60
    for m in (1, 3):
        yield m * 2**60 + 1, -150 - 60
        yield m * 2**60 - 1, -150 - 60


def edges(width):
    for i, pair in enumerate(PAIRS):
        exponent_radix = EXPONENT_RADICES[i % 6]
        for k, (m, e) in enumerate(edge_values(width)):
            yield spelled(m, e, pair, exponent_radix, 99 if k % 2 == i % 2 else k % 4), *pair, exponent_radix, ".", "^"
        if width == 32:
            for k, (m, e) in enumerate(twice_rounded()):
                yield spelled(m, e, pair, exponent_radix, k % 3), *pair, exponent_radix, ".", "^"


def tie(width, pair):
    """1 and half a step, in digits."""
    b, t = PAIRS[pair][0], WIDTHS[width][0] + 1
    n = -(-t // b)
    return "1." + "0" * (n - 1) + numeral(2 ** (b * n - t), pair[0])


def long_texts(width):
    """Texts of 4,095, 4,096 and 4,097 bytes, and some with thousands of digits that an exponent undoes."""
    for pair in ((2, 2), (16, 2), (32, 32)):
        yield tie(width, pair).ljust(4095, "0") + "1", pair, 10
    yield tie(width, (8, 8)).ljust(4096, "0"), (8, 8), 10
    yield tie(width, (16, 4)).ljust(4094, "0") + "1", (16, 4), 10
    for pair, exponent_radix, exponent in (((16, 2), 10, "16004"), ((16, 4), 16, "1F42"), ((2, 2), 8, "7641"), ((32, 32), 32, "3T1")):
        yield "0." + "0" * 4000 + "1^" + exponent, pair, exponent_radix
    for pair, exponent_radix, exponent in (((8, 2), 10, "12000"), ((4, 4), 2, "111110100000")):
        yield "1" + "0" * 4000 + "^-" + exponent, pair, exponent_radix
    stored, least, last = WIDTHS[width]
    half = "0." + "0" * -least + "1"
    yield half.ljust(4095, "0") + "1", (2, 2), 10
    largest = numeral((2 ** (stored + 1) - 1) << last, 16) + "."
    yield largest.ljust(4095, "0") + "1", (16, 16), 10
    yield "0" * 4000 + tie(width, (4, 2)) + "1", (4, 2), 10
    yield "0." + "0" * 4093 + "1", (32, 2), 10
    yield "1".ljust(4096, "0"), (16, 16), 10
    yield "1^" + "0" * 4092 + "31", (2, 2), 4
    yield "1^-" + "9" * 4093, (8, 8), 10
    yield "1." + "0" * 4093 + "2", (2, 2), 10
    yield "1." + "0" * 4093 + "^", (16, 2), 10
    yield "1." + "0" * 4095, (16, 2), 10
    yield "x".ljust(4097, "0"), (2, 2), 2
    yield "1^" + "9" * 4095, (32, 32), 10


def top_texts(width, size=4096):
    """In every pair the top edge in so many bytes, and one more and one less in the last place: whole numbers in digits alone, or one digit before the point and an exponent behind the rest."""
    edge = int(top_edge(width))
    for i, (pair, (b, c)) in enumerate(PAIRS.items()):
        exponent_radix = EXPONENT_RADICES[i % 6]
        first = (edge.bit_length() - 1) // b
        tail = "^" + numeral(first * b // c, exponent_radix)
        places = size - len("0.") - len(tail)
        for unit in (-1, 0, 1):
            if i % 2 == (width == 32):
                yield numeral(edge + unit, pair[0]).rjust(size, "0"), pair, exponent_radix
            else:
                digits = numeral(edge * 2 ** (b * (places - first)) + unit, pair[0])
                yield digits[0] + "." + digits[1:] + tail, pair, exponent_radix


# ---- texts with a sign

def sign_texts():
    """Signs where a text has one, where it has none, and twice, in 16/2 with exponent radix 10."""
    yield from ("-", "--", "---", "+", "-+", "+-", "-1", "+1", "--1", "---1", "-+1", "+-1", "++1", "+0", "-.5", "+.5", "-^5", "- 1", " -1", "-1-", "-1+", "1-", "0-", "1.-8", "-1.-8", "-1.8-", "-1.8^5-")
    yield from ("-0", "-00", "-0.", "-0^5", "-0^-5", "-1.8", "-1.8^5", "-1.8^-5", "-1.8^+5", "-10.0^-4", "--0", "-x", "-1x", "-\xe2", "\xe2\x88\x921", "\x971", "-\0", "-\n", "-1\n")


def signed(kinds):
    """Behind "-" what would be the text."""
    for text, *rest in kinds:
        yield "-" + text, *rest


def long_sign_texts(width):
    """Texts of 4,096 and 4,097 bytes with the sign, the top edge in two pairs among them."""
    for pair in ((2, 2), (16, 2), (32, 32)):
        yield "-" + tie(width, pair).ljust(4094, "0") + "1", pair, 10
    yield "-" + tie(width, (8, 8)).ljust(4095, "0"), (8, 8), 10
    half = "-0." + "0" * -WIDTHS[width][1] + "1"
    yield half.ljust(4095, "0") + "1", (2, 2), 10
    yield half.ljust(4096, "0"), (2, 2), 10
    yield "-0." + "0" * 4092 + "1", (32, 2), 10
    yield "-" + "0" * 4095, (16, 4), 10
    yield "-" + "0" * 4096, (16, 4), 10
    yield "-1^-" + "9" * 4092, (8, 8), 10
    yield "-1." + "0" * 4092 + "2", (2, 2), 10
    yield "-1." + "0" * 4092 + "^", (16, 2), 10
    yield "-" * 4096, (4, 4), 4
    yield "-" * 4097, (4, 4), 4
    yield from signed(list(top_texts(width, 4095))[:6])


# ---- the list

def line(width, text, radix, base, exponent_radix, point, mark):
    text, point, mark = text.encode("latin-1"), ord(point), ord(mark)
    fields = f"R {width} {text.hex() or '-'} {radix} {base} {exponent_radix} {point} {mark}"
    return f"{fields}\t{answer(width, text, radix, base, exponent_radix, point, mark)}"


def lines():
    yield "# edges.py made this list: texts at the edges of reading, with answers computed from the documents alone, in whole numbers and fractions"
    yield "# a line has no flags, counts or breaks: formats that 4, 5 or 6 would refuse cannot stand here, and these checks do not bind the reader"
    for width in WIDTHS:
        for text in settled():
            yield line(width, text, 16, 2, 10, ".", "^")
        for kind in (byte_texts(), byte_formats(), unknown_formats(), edges(width)):
            for case in kind:
                yield line(width, *case)
        for text, pair, exponent_radix in long_texts(width):
            yield line(width, text, *pair, exponent_radix, ".", "^")


def long_lines():
    yield "# edges.py made this list: the edge of refusal 11 in 4,096 bytes, and one more and one less in the last place, in every pair"
    for width in WIDTHS:
        for text, pair, exponent_radix in top_texts(width):
            yield line(width, text, *pair, exponent_radix, ".", "^")


def sign_lines():
    yield "# edges.py made this list: texts with a sign at the edges of reading, with answers computed from the documents alone, in whole numbers and fractions"
    for width in WIDTHS:
        for text in dict.fromkeys((*sign_texts(), *("-" + text for text in settled()))):
            yield line(width, text, 16, 2, 10, ".", "^")
        for kind in (byte_texts(), byte_formats(), unknown_formats(), edges(width)):
            for case in signed(kind):
                yield line(width, *case)
        for text, pair, exponent_radix in long_sign_texts(width):
            yield line(width, text, *pair, exponent_radix, ".", "^")


def again(name):
    """Of how many lines of a list the reference gives the answer."""
    with open(name) as given:
        cases = [row.rstrip("\n").split("\t") for row in given if not row.startswith("#")]
    same = 0
    for case, wanted in cases:
        _, width, text, *numbers = case.split(" ")
        text = b"" if text == "-" else bytes.fromhex(text)
        same += answer(int(width), text, *map(int, numbers)) == wanted
    return f"{len(cases)} lines, {same} agree"


LISTS = {"": lines, "long": long_lines, "signs": sign_lines}

if __name__ == "__main__":
    name = sys.argv[1] if len(sys.argv) > 1 else ""
    for row in LISTS[name]() if name in LISTS else [again(name)]:
        print(row)
