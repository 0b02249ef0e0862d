"""The item that is made of windows: a `bus` line for each, and the ticks between them."""

from __future__ import annotations

from fractions import Fraction
from math import floor

from windows import CaptureError, Window

TICKS_PER_SECOND = 32_768
LONGEST_FRAME = 200
MOST_TICKS = 4_294_967_295
LONGEST_LINE = 1_000

READS = range(0xB0, 0x100)
FLASH_READ = 0x90
# A delivery has to come within so many ticks.
DELIVERY_LIMIT = 8_192
# What a person puts below a command that starts measurements.
DELIVERIES = {
    0x00: ("TOF_UP", ["flight U .. /"]),
    0x01: ("TOF_DOWN", ["flight / D .."]),
    0x02: ("TOF_DIFF", ["flight U .. / D .."]),
    0x03: ("Temperature", ["temperature T1 T2 T3 T4"]),
    0x07: ("EVTMG1", ["flight U .. / D ..", "temperature T1 T2 T3 T4"]),
    0x08: ("EVTMG2", ["flight U .. / D .."]),
    0x09: ("EVTMG3", ["temperature T1 T2 T3 T4"]),
}


def expected(window: Window) -> str:
    """What the chip gave in a read, as the answer that the model has to give."""
    count = len(window.sent)
    if window.received is None or not count:
        return ""
    if window.sent[0] in READS and count > 1 and count % 2 == 1:
        words = window.received[1:]
    elif window.sent[0] == FLASH_READ and count == 5:
        words = window.received[3:]
    else:
        return ""
    return " => ok - out " + "".join(f"{byte:02X}" for byte in words)


def line_of(window: Window) -> str:
    if window.line:
        return window.line
    return " ".join(["bus"] + [f"{byte:02X}" for byte in window.sent]) + expected(window)


def check(window: Window) -> None:
    """Refuses what can't be a line of an item."""
    if window.received is not None and len(window.received) != len(window.sent):
        words = f"a window with {len(window.sent)} bytes of MOSI and {len(window.received)} of MISO"
        raise CaptureError(window.number, words)
    if len(window.sent) > LONGEST_FRAME:
        raise CaptureError(window.number, f"a window of {len(window.sent)} bytes; a line takes {LONGEST_FRAME}")
    length = len(line_of(window).encode())
    if length > LONGEST_LINE:
        raise CaptureError(window.number, f"a line of {length} bytes; an item takes {LONGEST_LINE}")


def waits(ticks: int) -> list[str]:
    found = []
    while ticks > 0:
        found.append(f"tick {min(ticks, MOST_TICKS)}")
        ticks -= MOST_TICKS
    return found


def seconds(time: Fraction) -> str:
    microseconds = floor(time * 1_000_000)
    return f"{microseconds // 1_000_000}.{microseconds % 1_000_000:06}"


def item_text(windows: list[Window], name: str) -> str:
    """The item. Ticks are counted from the first window and rounded down, so that errors do not add up."""
    lines = [f"item {name}"]
    start = windows[0].time
    before = 0
    for window in windows:
        now = floor((window.time - start) * TICKS_PER_SECOND)
        lines += waits(now - before) + [line_of(window)]
        before = now
        if len(window.sent) == 1 and window.sent[0] in DELIVERIES:
            command, wanted = DELIVERIES[window.sent[0]]
            words = " and ".join(f"`{one}`" for one in wanted)
            lines.append(f"# {command} at {seconds(window.time - start)} s: {words} within {DELIVERY_LIMIT:,} ticks of a start")
    return "\n".join(lines) + "\n"
