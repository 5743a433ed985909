#!/usr/bin/env python3
"""Prints crates/curve/src/table.rt: the power curve of document 001, table 1, at each millihertz from its first corner to its last.

Exact fractions; each percent is the nearest whole number to the line, a half going away from zero.
`python3 crates/curve/make_table.py | cmp - crates/curve/src/table.rt` shows that the file is this script's."""
from fractions import Fraction

REFERENCE = 60000  # millihertz
CORNERS = [  # millihertz from the reference, upper percent, lower percent
    (-250, 100, 100),
    (-140, 52, 52),
    (-20, 9, -9),
    (20, 9, -9),
    (140, -52, -52),
    (250, -100, -100),
]
FIRST, LAST = CORNERS[0][0], CORNERS[-1][0]


def nearest(q):
    size = (2 * abs(q) + 1) // 2
    return int(size) if q >= 0 else -int(size)


def percent(bound, d):
    for p, q in zip(CORNERS, CORNERS[1:]):
        if d <= q[0]:
            return nearest(p[bound] + Fraction(d - p[0], q[0] - p[0]) * (q[bound] - p[bound]))


print(f"// The power curve: {LAST - FIRST + 1} pairs, upper and lower percent of capacity for each millihertz from {REFERENCE + FIRST:,} to")
print(f"// {REFERENCE + LAST:,}. make_table.py prints this file.")
print(f"pub const PAIRS: [i8; {2 * (LAST - FIRST + 1):_}] = [")
for d in range(FIRST, LAST + 1):
    print(f"    {percent(1, d)}, // {REFERENCE + d} upper")
    print(f"    {percent(2, d)}, // {REFERENCE + d} lower")
print("];")
