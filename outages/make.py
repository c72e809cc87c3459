#!/usr/bin/env python3
"""Writes a table of outage windows to standard output, by Python's own floats and `struct`: the shipped one, or one of so many windows.

    python3 outages/make.py | cmp - outages/monday.table
    python3 outages/make.py 400 > table
"""
import struct
import sys

DAY = 1794787200.0  # 2026-11-16, seconds of the Unix clock
SURVEY = -315619200.0  # 1960-01-01, before second zero

MONDAY = [
    (DAY + 21600.0, DAY + 28800.0),
    (DAY + 30000.25, DAY + 30012.75),
    (DAY + 43200.1, DAY + 43260.7),
    (DAY + 1e-6, DAY + 86399.999999),
    (SURVEY + 21600.25, SURVEY + 28800.7),
    (-0.0, 900.0),
    (1.0, 1.5),
    (0.0, 0.0),
    (0.1, 1 / 3),
    (2.0**-1074, 2.0**-1022),
    (2.0**52 + 1, 2.0**53),
    (3.0e8, float.fromhex("0x1.fffffffffffffp1023")),
]


def table(windows):
    starts, ends = zip(*windows) if windows else ((), ())
    return struct.pack(f"<II{2 * len(windows)}d", len(windows), 8 + 16 * len(windows), *starts, *ends)


def many(count):
    return [(DAY + 900.0 * i + i / 7, DAY + 900.0 * i + 600.0 + i / 3) for i in range(count)]


sys.stdout.buffer.write(table(many(int(sys.argv[1])) if len(sys.argv) > 1 else MONDAY))
