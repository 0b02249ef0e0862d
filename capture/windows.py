"""What every form of capture is cut into: chip-enable windows, with their bytes and their moments."""

from __future__ import annotations

import re
from dataclasses import dataclass, field
from fractions import Fraction

# In seconds, some three hundred years.
LONGEST_TIME = 10_000_000_000

BYTE = re.compile(r"(?:0[xX])?([0-9A-Fa-f]{2})")


class CaptureError(Exception):
    """What is wrong with a capture, with the number of its line."""

    def __init__(self, number: int, words: str) -> None:
        super().__init__(f"{number}: {words}")


@dataclass
class Window:
    """The bytes of one chip-enable window, or a line of an item in its place, and its end in seconds.

    `received` is None where the capture has nothing of what the chip sent.
    """

    number: int
    time: Fraction
    sent: list[int] = field(default_factory=list)
    received: list[int] | None = None
    line: str = ""


@dataclass
class Clock:
    """The moments of a capture. They may stand, and never go back."""

    last: Fraction | None = None

    def reach(self, time: Fraction, number: int) -> Fraction:
        if abs(time) > LONGEST_TIME:
            raise CaptureError(number, f"a time of more than {LONGEST_TIME:,} seconds")
        if self.last is not None and time < self.last:
            raise CaptureError(number, "the time goes back")
        self.last = time
        return time


def printable(text: str) -> str:
    """The text with `?` for whatever could end a line or can't be written."""
    return "".join(letter if letter.isprintable() else "?" for letter in text)


def shown(text: str) -> str:
    """The beginning of what a capture has, for a message."""
    text = printable(text.strip())
    return text if len(text) <= 60 else text[:60] + " .."


def read_bytes(text: str, number: int) -> list[int]:
    """Bytes of two hexadecimal digits, with or without 0x, parted by blanks."""
    found = [BYTE.fullmatch(word) for word in text.split()]
    if not all(found):
        raise CaptureError(number, f"these are no bytes of two hexadecimal digits: {shown(text)}")
    return [int(match[1], 16) for match in found if match]
