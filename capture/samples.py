"""Tables of samples of the wires, one row a sample, as `sigrok-cli -O csv` prints them.

They are taken apart as the chip does it: CE is low in a window, SCK is low when idle, and a bit is taken when SCK falls.
"""

from __future__ import annotations

from collections.abc import Iterator
from dataclasses import dataclass
from fractions import Fraction

from tables import Table, Times
from windows import CaptureError, Clock, Window, shown

ENABLE = ("ce", "cs", "ss")
CLOCK = ("sck", "clk", "sclk")


def is_samples(table: Table) -> bool:
    return table.column(*ENABLE) >= 0 and table.column(*CLOCK) >= 0


@dataclass(frozen=True)
class Sample:
    """The levels of the wires, each 0 or 1; `received` is empty where the capture lacks that wire.

    The time is in seconds, or a count of samples where there is a rate.
    """

    number: int
    time: Fraction
    enable: str
    clock: str
    sent: str
    received: str


@dataclass
class Bits:
    """The bits of a window that has begun."""

    number: int
    sent: str = ""
    received: str = ""


def samples_of(table: Table, rate: Fraction | None) -> Iterator[Sample]:
    """The samples, by their place at a rate, or by a column of times."""
    time, sent = table.time_column(), table.column("mosi", "din")
    if sent < 0:
        raise CaptureError(table.number, "the first row has to name a mosi column")
    if (time < 0) == (rate is None):
        words = "a time column beside --sigrok: print the samples without it" if rate else "no times: give --sigrok RATE"
        raise CaptureError(table.number, words)
    places = [table.column(*ENABLE), table.column(*CLOCK), sent, table.column("miso", "dout")]
    times = Times(table.decimals)
    for count, (number, cells) in enumerate(table.rows):
        moment = Fraction(count) if rate else times.read(cells[time], number)
        levels = [cells[place] if place >= 0 else "" for place in places]
        if any(level not in ("0", "1") for level, place in zip(levels, places) if place >= 0):
            raise CaptureError(number, f"a level other than 0 and 1: {shown(' '.join(levels))}")
        yield Sample(number, moment, *levels)


def bytes_of(bits: str, number: int) -> list[int]:
    if len(bits) % 8:
        raise CaptureError(number, f"a window of {len(bits)} bits, which are no whole bytes")
    return [int(bits[place : place + 8], 2) for place in range(0, len(bits), 8)]


def read_samples(table: Table, rate: Fraction | None) -> Iterator[Window]:
    """The windows, each at the sample in which CE is high again."""
    before: Sample | None = None
    bits: Bits | None = None
    clock = Clock()
    for sample in samples_of(table, rate):
        if sample.enable == "0" and (before is None or (before.enable == "1" and sample.clock == "1")):
            raise CaptureError(sample.number, "a window that begins before the samples, or with SCK high")
        if before and before.enable == "1" and sample.enable == "0":
            bits = Bits(sample.number)
        elif bits and sample.enable == "1":
            received = bytes_of(bits.received, bits.number) if sample.received else None
            time = clock.reach(sample.time / (rate or 1), bits.number)
            yield Window(bits.number, time, bytes_of(bits.sent, bits.number), received)
            bits = None
        elif bits and before and before.clock == "1" and sample.clock == "0":
            bits.sent += sample.sent
            bits.received += sample.received
        before = sample
    if bits:
        raise CaptureError(bits.number, "a window without an end")
