#!/usr/bin/env python3
"""Runs the sheet programs and the archive's over random tables, sheets and packed tables, many of them damaged somewhere, and compares every byte that they write with the references `sheet_edges.py` and `plane_edges.py` of the program `vectors`, which have no code of theirs:

    rt ci && python3 outages/random.py SEED COUNT

The programs are where `rt ci` leaves them, each in its crate's out/.
"""
import os
import random
import subprocess
import sys
from collections import Counter
from types import SimpleNamespace

sys.dont_write_bytecode = True
HOME = os.path.join(os.path.dirname(os.path.abspath(__file__)), "..")
sys.path.insert(0, os.path.join(HOME, "crates", "vectors"))
import plane_edges
import sheet_edges as reference

ENOUGH = 1 << 30
NAMES = [(*pair, power) for pair in reference.PAIRS for power in (2, 4, 8, 10, 16, 32)]
PRINTED = 16, 2, 10
TELLING = b" \n0.p+-A/"


# ---- what the programs write, and what they should

def wrote(program, names, given):
    arguments = ["/".join(map(str, name)) for name in names]
    return subprocess.run([os.path.join(HOME, "crates", program, "out", program), *arguments], input=given, capture_output=True).stdout


def format_of(name):
    return SimpleNamespace(**{**reference.PRINTED, **dict(zip(("radix", "base", "exponent_radix"), name))})


def answer(call, *given):
    """The bytes, or the refusal's line; and which it is."""
    try:
        return call(*given, ENOUGH), "done"
    except reference.Refused as refusal:
        number, place = refusal.args
        return b"refused %d at %d\n" % (number, place), str(number)


def printed(name, table):
    return answer(reference.to_sheet, format_of(name), table)


def read(name, sheet):
    return answer(reference.to_table, format_of(name), sheet)


def rewritten(source, target, sheet):
    table, kind = read(source, sheet)
    return printed(target, table) if kind == "done" else (table, kind)


# ---- random inputs

def some_bits(r):
    """A denormal, any float, a short one, an edge, one of any size below 2, a time of day, and now and then an infinity or a NaN; of either sign."""
    magnitude = r.choice([
        lambda: r.getrandbits(52),
        lambda: r.randrange(reference.INFINITY),
        lambda: (r.randrange(1015, 1083) << 52) | (r.getrandbits(6) << 46),
        lambda: r.choice([0, 0, 1, (1 << 52) - 1, 1 << 52, reference.INFINITY - 1]),
        lambda: r.getrandbits(62),
        lambda: 0x41D0000000000000 + r.getrandbits(50),
    ])()
    if r.random() < 0.005:
        magnitude = reference.INFINITY + r.choice([0, r.getrandbits(52)])
    return magnitude + r.choice([0, reference.SIGN])


def by_value(bits):
    """Orders bits as their floats are, with the zeros equal; a NaN stands beyond the infinity of its sign."""
    return reference.SIGN - bits if bits >= reference.SIGN else bits


def damaged(r, given):
    """One or two bytes are another, one more or one less; now and then a sign stands where a line or a field begins."""
    made = bytearray(given)
    for _ in range(r.randrange(1, 3)):
        at = r.randrange(len(made) + 1)
        byte = bytes([r.choice(TELLING) if r.random() < 0.7 else r.randrange(256)])
        if r.random() < 0.2:
            at = r.choice([0] + [i + 1 for i in range(len(made)) if made[i] in b" \n"])
            byte = r.choice([b"+", b"-"])
        made[at : at + r.randrange(2)] = byte if r.random() < 0.7 else b""
    return bytes(made)


def some_table(r):
    count = r.choice([0, 1, 2, 3, 5, 17])
    rows = [sorted((some_bits(r), some_bits(r)), key=by_value, reverse=r.random() < 0.02) for _ in range(count)]
    columns = [start for start, _ in rows] + [end for _, end in rows]
    table = reference.table(count, 8 + 16 * count, *columns)
    return damaged(r, table) if r.random() < 0.15 else table


def cases(r):
    table, source, target = some_table(r), r.choice(NAMES), r.choice(NAMES)
    sheet, _ = printed(source, table)
    if r.random() < 0.6:
        sheet = damaged(r, sheet)
    packed, _ = answer(plane_edges.pack, table)
    if r.random() < 0.15:
        packed = damaged(r, packed)
    yield "print_sheet", [], table, printed(PRINTED, table)
    yield "read_sheet", [source], sheet, read(source, sheet)
    yield "rewrite_sheet", [source, target], sheet, rewritten(source, target, sheet)
    yield "pack_table", [], table, answer(plane_edges.pack, table)
    yield "unpack_table", [], packed, answer(plane_edges.unpack, packed)


def main(seed, count):
    r, kinds, wrong = random.Random(seed), Counter(), 0
    for _ in range(count):
        for program, names, given, (wanted, kind) in cases(r):
            kinds[program, kind] += 1
            if wrote(program, names, given) != wanted:
                wrong += 1
                print("differs:", program, names, given.hex())
    for (program, kind), times in sorted(kinds.items()):
        print(f"{program}, {kind if kind == 'done' else 'refusal ' + kind}: {times}")
    print(f"{sum(kinds.values())} runs, {wrong} differ")
    return wrong != 0


if __name__ == "__main__":
    if len(sys.argv) != 3:
        sys.exit(__doc__)
    sys.exit(main(int(sys.argv[1]), int(sys.argv[2])))
