#!/usr/bin/env python3
"""Prints the list `data/plane_edges.txt`: tables and packed tables at their edges, and what the documents answer to each, with `sheet_edges.py` beside it for headers, and with no code of this repository:

    python3 crates/vectors/plane_edges.py | diff - crates/vectors/data/plane_edges.txt

With the name of a list it says of how many of its lines it gives the answer again:

    python3 crates/vectors/plane_edges.py crates/vectors/data/planes.txt
"""
import struct
import sys

sys.dont_write_bytecode = True
from sheet_edges import INFINITY, ONE, ONE_AND_HALF, SIGN, Refused, again, answered, bytes_of, count_of, table, table_of

ROOM = 32768
WRAP = 1 << 32


# ---- the reference

def columns(given, count):
    """The starts and the ends, or the planes of each: 8n bytes either way."""
    return given[8 : 8 + 8 * count], given[8 + 8 * count :]


def planes(column):
    """Eight planes of one byte each for all floats, lowest byte first."""
    return b"".join(column[j::8] for j in range(8))


def floats(column, count):
    """Byte i of every plane, the lowest first, for each float i."""
    return bytes(column[j * count + i] for i in range(count) for j in range(8))


def fitting(made, room):
    if len(made) > room:
        raise Refused(8, 0)
    return made


def pack(given, room):
    starts, ends = columns(given, count_of(given, 13))
    return fitting(given[:8] + planes(starts) + planes(ends), room)


def unpack(given, room):
    count = count_of(given, 17)
    starts, ends = columns(given, count)
    return fitting(given[:8] + floats(starts, count) + floats(ends, count), room)


# ---- lines

CALLS = {"P": pack, "U": unpack}


def line(kind, given, room=ROOM):
    return f"{kind} {room} {given.hex() or '-'}\t{answered(CALLS[kind], given, room)}"


def both(given, room=ROOM):
    """The same bytes as a table and as a packed table: 13 and 17 ask the same of them."""
    return [line(kind, given, room) for kind in CALLS]


def size_of(count):
    return 8 + 16 * count


def filled(count, digit=0):
    """A table whose bytes tell their places: each is a digit of its place to the base 241. The last digit is enough for 15 windows, both are for 400. No byte is the one that the replay lends."""
    return table(count, size_of(count)) + bytes(8 + k // 241**digit % 241 for k in range(16 * count))


def behind(head, count):
    """A header with the bytes of so many windows."""
    return head + filled(count)[8:]


def short():
    """Headers cut off or with too much behind them, and two that are right."""
    for size in range(27):
        yield bytes(size)
        yield behind(table(0, 8), 2)[:size]
        yield behind(table(1, 24), 2)[:size]


def off(count):
    """One more and one less in each byte of a header."""
    for field in range(8):
        for step in (1, -1):
            numbers = [count, size_of(count)]
            numbers[field // 4] = (numbers[field // 4] + step * 256 ** (field % 4)) % WRAP
            yield behind(table(*numbers), count)


def wrong():
    """A count and a length that do not fit, or fit modulo 2^32 only; and more or fewer bytes than both say."""
    for count in (WRAP // 16, WRAP // 2, WRAP // 16 + 1, WRAP // 2 + 2, WRAP - WRAP // 16 + 9):
        yield behind(table(count, size_of(count) % WRAP), count % 16)
    for count in (401, 0x10000, WRAP // 256, WRAP - 1):
        for size in (8, 24, size_of(count) % WRAP):
            yield table(count, size)
            yield behind(table(count, size), 1)
    for size in (0, 8, 40, 24 * 256, WRAP - 1):
        yield behind(table(1, size), 1)
    yield struct.pack(">II", 0, 8)
    yield behind(struct.pack(">II", 1, 24), 1)
    yield behind(table(24, 1), 1)
    yield behind(table(2, 24), 1)
    yield behind(table(1, 40), 2)
    yield behind(table(400, size_of(400)), 1)
    yield filled(64)[:-1]
    yield filled(64) + b"\0"
    yield filled(401)


def rows():
    """Windows that a sheet has, and others, which 7 and 14 would refuse."""
    special = (0, SIGN, 1, SIGN + 1, (1 << 52) - 1, SIGN + 1234567, INFINITY - 1, INFINITY, INFINITY + 1, 0x7FF8000000000000, 0x7FF0DEADBEEF0123,
               0x7FFFFFFFFFFFFFFF, SIGN + INFINITY, SIGN + INFINITY + 1, 0xFFF8000000000000, 0xFFFFFFFFFFFFFFFF)
    yield table_of([(ONE, ONE_AND_HALF)])
    yield table_of([(ONE_AND_HALF, ONE)])
    for bits in special:
        yield table_of([(bits, ONE)])
        yield table_of([(ONE, bits)])
        yield table_of([(ONE, ONE), (bits, ONE_AND_HALF), (ONE_AND_HALF, bits)])
    yield table_of([(first, second) for first in special for second in special[::5]])


def room_lines():
    for count in (0, 1, 2, 9):
        size = size_of(count)
        for room in sorted({0, 1, 7, 8, size // 2, size - 1, size, size + 1, size + 16, 2 * size}):
            yield from both(filled(count), room)
    for given in (b"", table(0, 8)[:7], table(0, 9), filled(1)[:-1], filled(1) + b"\0", behind(table(1, 25), 1), behind(table(401, 24), 1)):
        for room in (0, 7, 8, 23, 24):
            yield from both(given, room)


def lines():
    yield "# plane_edges.py made this list: tables and packed tables at their edges, with answers computed from the documents alone"
    for given in dict.fromkeys([*short(), *off(0), *off(1), *off(9), *wrong()]):
        yield from both(given)
    # large tables are few: a list has fewer than 524,288 bytes
    for count in (2, 3, 7, 8, 9, 15, 16, 64, 255, 256, 257, 399):
        yield from both(filled(count))
    for count in (16, 64, 257):
        yield from both(filled(count, digit=1))
    for room in (size_of(400), size_of(400) - 1):
        yield from both(filled(400), room)
    for given in rows():
        yield line("P", given)
        yield line("U", pack(given, ROOM))
    yield from room_lines()


def answer_to(case):
    kind, room, given = case.split(" ")
    return answered(CALLS[kind], bytes_of(given), int(room))


if __name__ == "__main__":
    for row in [again(sys.argv[1], answer_to)] if len(sys.argv) > 1 else lines():
        print(row)
