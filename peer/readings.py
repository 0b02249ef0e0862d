#!/usr/bin/env python3
"""Prints the rows that crates/test_degrees writes, worked out from notes 6 and 7 by exact fractions: `peer/readings.py | cmp - crates/test_degrees/stdout`."""
from fractions import Fraction
from math import floor

OPEN = 0xFFFFFFFF
PT1000 = [floor(1000000 + Fraction("3908.3") * t - Fraction("0.5775") * t * t + Fraction(1, 2)) for t in range(181)]


def answer(table, a, b):
    if a == OPEN or b == OPEN or b == 0:
        return "no 13"
    r = floor(Fraction(a * 1000000, b))
    if not table[0] <= r <= table[-1]:
        return "no 13"
    if r == table[-1]:
        return 1000 * (len(table) - 1)
    (i,) = [i for i in range(len(table) - 1) if table[i] <= r < table[i + 1]]
    return 1000 * i + floor(Fraction(1000 * (r - table[i]), table[i + 1] - table[i]))


def answer_by(table, a, b):
    rising = all(e < f for e, f in zip(table, table[1:]))
    if not 2 <= len(table) <= 512 or not rising or max(table) > 10000000:
        return "no 14"
    return answer(table, a, b)


WORDS = [(r, 1000000) for r in (999999, 1000000, 1684783, 1684784, 1003907, 1003908, 1385054, 1385055, 1385056)]
WORDS += [(1, 1), (3, 2), (4, 3), (7, 5), (5000000, 2967743), (5000000, 5000001)]
WORDS += [(OPEN, 4000000000), (OPEN - 1, 4000000000), (OPEN, OPEN), (OPEN - 1, OPEN), (OPEN - 1, OPEN - 1)]
WORDS += [(0, 0), (1, 0), (0, 1), (OPEN - 1, 1)]
WORDS += [(1000000 + 3803 * i, 1000000) for i in range(181)]

for a, b in WORDS:
    print(a, b, answer(PT1000, a, b))

THREE = [500000, 510000, 530000]
LONG = [1000 * i for i in range(513)]
OWN = [(THREE, r, 1000000) for r in (499999, 509999, 510000, 524687, 529999, 530000, 530001)]
OWN.insert(1, (THREE, 1, 2))
OWN += [(THREE, 1, 0)]
OWN += [([0, 10000000], a, b) for a, b in ((0, 1), (1, 3), (10, 1), (11, 1))]
OWN += [([0, 10000001], 0, 1), ([5, 5], 0, 1), ([6, 5], OPEN, 0)]
OWN += [(LONG[:1], 0, 1), (LONG[:512], 511, 1000), (LONG[:512], 255999, 1000000), (LONG[:512], 511001, 1000000)]
OWN += [(LONG, 511, 1000)]

for table, a, b in OWN:
    print(f"{len(table)}:", a, b, answer_by(table, a, b))
