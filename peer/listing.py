#!/usr/bin/env python3
"""Writes what the program `test_listing` must write, by exact fractions: peer/listing.py > crates/test_listing/stdout"""
from fractions import Fraction

# The eleven differences of Table 1 of the MAX35102 data sheet; halves of a ten-thousandth; steps of a digit more.
DIFFERENCES = [
    0x7FFFFFFF, 0x001C0403, 0x000100A1, 0x89, 1, 0, -1, -64, -125902, -14909439, -(2**31), 1024, -1024, 3072,
    -3072, 262, 263, 2621, -2622, 26214, 26215, 262143, 262144, -2621440,
]


def line(digits, capture, quanta):
    """A capture number of so many digits, and quanta x 250 / 65,536 ns to the nearest ten-thousandth, halves away from zero."""
    exact = Fraction(abs(quanta)) * 250 / 65536 * 10000
    nearest = exact.numerator // exact.denominator
    if exact - nearest >= Fraction(1, 2):
        nearest += 1
    time = str(nearest // 10000) + "." + str(nearest % 10000).zfill(4)
    text = "%0*X %s%12s" % (digits, capture, "-" if quanta < 0 else " ", time)
    assert len(text) == digits + 14
    return text + "\n"


def listing(digits, differences, first, size):
    """The whole output of this many bytes, dots before the call, or the number of a refusal."""
    if differences and first + len(differences) - 1 > 16**digits - 1:
        return "20\n"
    if size < len(differences) * (digits + 15):
        return "21\n"
    text = "".join(line(digits, first + i, x) for i, x in enumerate(differences))
    return text + "." * (size - len(text)) + "\n"


print(listing(8, DIFFERENCES, 4294967272, 555), end="")
print(listing(8, DIFFERENCES, 4294967273, 555), end="")
print(listing(8, DIFFERENCES, 233, 555), end="")
print(listing(8, DIFFERENCES, 0, 551), end="")
print(listing(2, DIFFERENCES, 232, 411), end="")
print(listing(2, DIFFERENCES, 233, 411), end="")
print(listing(2, DIFFERENCES, 0, 407), end="")
print(listing(2, [], 4294967295, 2), end="")
print(listing(8, [], 4294967295, 2), end="")
