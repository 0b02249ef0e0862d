"""Transfers of sigrok's spi decoder, as sigrok-cli and PulseView print them: `FIRST-LAST spi-1: mosi-transfer: BYTES`."""

from __future__ import annotations

import re
from collections.abc import Iterable, Iterator
from dataclasses import dataclass
from fractions import Fraction

from windows import CaptureError, Clock, Window, read_bytes, shown

TRANSFER = re.compile(
    r"(?P<first>[0-9]{1,18})-(?P<last>[0-9]{1,18}) +(?P<decoder>spi[^\s:]*):"
    r"(?: *(?P<wire>mosi|miso)[ -]transfers?:)?(?P<bytes>.*)",
    re.IGNORECASE,
)


@dataclass(frozen=True)
class Transfer:
    """What one wire carried in a window."""

    number: int
    content: list[int]


def is_transfer(text: str) -> bool:
    return TRANSFER.fullmatch(text.strip()) is not None


def wire_of(match: re.Match[str], order: list[str], known: int, number: int) -> str:
    """MOSI or MISO: as the line says it, or by the order of lines without names, the first of a window being 0."""
    if match["wire"]:
        return match["wire"].lower()
    if not order:
        words = "no name tells whether this is a mosi-transfer: print the lines with --protocol-decoder-ann-class"
        raise CaptureError(number, f"{words}, or name their order by --transfers")
    if known >= len(order):
        raise CaptureError(number, f"more lines of the samples {match['first']}-{match['last']} than --transfers names")
    return order[known]


def windows_by_samples(lines: Iterable[tuple[int, str]], order: list[str]) -> dict[tuple[int, int], dict[str, Transfer]]:
    """What each wire carried from one sample to another."""
    found: dict[tuple[int, int], dict[str, Transfer]] = {}
    decoder = ""
    for number, text in lines:
        if not text.strip():
            continue
        match = TRANSFER.fullmatch(text.strip())
        if not match or int(match["first"]) > int(match["last"]):
            raise CaptureError(number, f"not FIRST-LAST spi-1: mosi-transfer: BYTES, with sample numbers: {shown(text)}")
        decoder = decoder or match["decoder"]
        if match["decoder"] != decoder:
            raise CaptureError(number, f"a second decoder, {shown(match['decoder'])}")
        same = found.setdefault((int(match["first"]), int(match["last"])), {})
        wire = wire_of(match, order, len(same), number)
        if wire in same:
            raise CaptureError(number, f"a second {wire}-transfer of the samples {match['first']}-{match['last']}")
        same[wire] = Transfer(number, read_bytes(match["bytes"].strip().strip('"'), number))
    return found


def read_transfers(lines: Iterable[tuple[int, str]], rate: Fraction, order: list[str]) -> Iterator[Window]:
    """The windows of numbered lines, at their last samples."""
    found = windows_by_samples(lines, order)
    has_received = any("miso" in same for same in found.values())
    clock = Clock()
    for (first, last), same in found.items():
        if "mosi" not in same:
            raise CaptureError(same["miso"].number, "a miso-transfer without a mosi-transfer of the same samples")
        sent = same["mosi"]
        received = same["miso"].content if "miso" in same else []
        # a window begins when the one before it has ended
        clock.reach(first / rate, sent.number)
        time = clock.reach(last / rate, sent.number)
        yield Window(sent.number, time, sent.content, received if has_received else None)
