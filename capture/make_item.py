#!/usr/bin/env python3
"""Makes an item of a capture of the SPI bus: one `bus` line for each chip-enable window, and the ticks between them.

The capture is a table (CSV) of Saleae's Logic 2 or Logic 1, or of times and bytes; or what sigrok prints, transfers of its
spi decoder or samples. docs/ITEMS.md, "From a logic analyser", says more. What can't be cut into windows is refused, with
status 1. Python 3.10 or later, with its standard library alone.
"""

from __future__ import annotations

import argparse
import io
import os
import re
import shutil
import sys
from collections.abc import Iterator
from fractions import Fraction
from itertools import chain

import item
from samples import is_samples, read_samples
from sigrok import is_transfer, read_transfers
from tables import open_table, read_table
from windows import CaptureError, Window, printable, shown

RATE = re.compile(r"([0-9]{1,15}(?:\.[0-9]{1,15})?)\s*([kKmMgG]?)(?:[hH]z)?")
RATE_UNITS = {"": 1, "k": 1_000, "m": 1_000_000, "g": 1_000_000_000}
ORDERS = ("mosi", "miso-mosi", "mosi-miso")


class Unmade(Exception):
    """Why no item is made, in words for a person."""


def read_rate(text: str) -> Fraction:
    match = RATE.fullmatch(text.strip())
    rate = Fraction(match[1]) * RATE_UNITS[match[2].lower()] if match else Fraction(0)
    if rate <= 0:
        raise argparse.ArgumentTypeError(f"no rate of samples: {text}")
    return rate


def windows_of(lines: Iterator[str], rate: Fraction | None, order: list[str]) -> Iterator[Window]:
    """The windows of a capture, in the form that its first line shows; sigrok's comments before it are left out."""
    numbered = enumerate(lines, 1)
    number, head = next(((number, text) for number, text in numbered if text.strip() and not text.startswith("; ")), (1, ""))
    if not head:
        raise CaptureError(number, "an empty capture")
    if is_transfer(head):
        if rate is None:
            raise CaptureError(number, "transfers by sample numbers: give the rate of samples, --sigrok RATE")
        return read_transfers(chain([(number, head)], numbered), rate, order)
    if rate is not None and "," not in head:
        words = "neither FIRST-LAST spi-1: mosi-transfer: BYTES, with sample numbers, nor samples with the names of wires"
        raise CaptureError(number, f"{words}: {shown(head)}")
    table = open_table(number, head, lines)
    if is_samples(table):
        return read_samples(table, rate)
    if rate is not None:
        raise CaptureError(number, f"no column for CE or none for SCK; a table of bytes has no --sigrok: {shown(head)}")
    return read_table(table)


def read_windows(lines: Iterator[str], rate: Fraction | None = None, order: list[str] | None = None) -> list[Window]:
    """The windows of a capture, each fit to be a line of an item."""
    windows = list(windows_of(lines, rate, order or []))
    for window in windows:
        item.check(window)
    if not any(not window.line for window in windows):
        raise CaptureError(1, "no window in the whole capture")
    return windows


def read_lines(lines: Iterator[str]) -> list[Window]:
    """A table of lines alone, which go between the windows of a capture."""
    windows = list(windows_of(lines, None, []))
    for window in windows:
        if not window.line:
            raise CaptureError(window.number, "not a line of an item, as `flight ..`, in a table of lines")
        item.check(window)
    return windows


def open_lines(path: str) -> io.TextIOWrapper:
    """The file's lines, with their ends. Bytes that are no UTF-8 stay what they are: they fit nowhere, and are told by line."""
    if path != "-":
        raw = open(path, "rb")
    elif sys.stdin is not None:
        raw = sys.stdin.buffer
    else:
        raise OSError("standard input is closed")
    return io.TextIOWrapper(raw, encoding="utf-8-sig", errors="surrogateescape", newline="")


def read_all(options: argparse.Namespace) -> list[Window]:
    """The windows of the capture, and the lines that belong between them."""
    order = options.transfers.split("-") if options.transfers else []
    path = options.capture
    try:
        with open_lines(path) as lines:
            windows = read_windows(lines, options.sigrok, order)
        if options.lines:
            path = options.lines
            with open_lines(path) as lines:
                # Where times are equal a window comes first: a command before its delivery.
                windows = sorted(windows + read_lines(lines), key=lambda window: window.time)
    except CaptureError as error:
        raise Unmade(f"{path}:{error}") from None
    except OSError as error:
        raise Unmade(f"make_item: cannot read {path}: {error.strerror or error}") from None
    return windows


def item_name(given: str | None, path: str) -> str:
    """The name that was given, or the file's, without anything that could end the line."""
    name = given or ("capture" if path == "-" else os.path.splitext(os.path.basename(path))[0])
    name = " ".join(printable(name).split())
    if not name or len(f"item {name}".encode()) > item.LONGEST_LINE:
        raise Unmade(f"make_item: no name for an item, or too long a one: {shown(name)}")
    return name


def write_all(descriptor: int, data: bytes) -> None:
    left = memoryview(data)
    while left:
        left = left[os.write(descriptor, left) :]


def write_file(path: str, data: bytes) -> None:
    """Writes a file aside and renames it, so that the one before is there until the new one is whole."""
    real = os.path.realpath(path)
    if os.path.exists(real) and not os.path.isfile(real):
        with open(real, "wb", buffering=0) as device:
            write_all(device.fileno(), data)
        return
    if os.path.exists(real) and not os.access(real, os.W_OK):
        raise OSError("it is not to be written")
    aside = os.path.join(os.path.dirname(real), f".make_item-{os.getpid()}")
    file = open(aside, "xb", buffering=0)
    try:
        with file:
            write_all(file.fileno(), data)
        if os.path.exists(real):
            shutil.copymode(real, aside)
        os.replace(aside, real)
    except BaseException:
        os.unlink(aside)
        raise


def write_text(text: str, output: str | None, inputs: list[str]) -> None:
    """Writes the item to the file, or to standard output."""
    try:
        if output is None and sys.stdout is None:
            raise OSError("it is closed")
        if output is None:
            write_all(sys.stdout.fileno(), text.encode())
        elif any(os.path.exists(output) and os.path.exists(path) and os.path.samefile(output, path) for path in inputs):
            raise OSError("the capture itself")
        else:
            write_file(output, text.encode())
    except OSError as error:
        raise Unmade(f"make_item: cannot write {output or 'standard output'}: {error.strerror or error}") from None


def read_arguments() -> argparse.Namespace:
    parser = argparse.ArgumentParser(description=__doc__, formatter_class=argparse.RawDescriptionHelpFormatter)
    parser.add_argument("--sigrok", metavar="RATE", type=read_rate, help="the capture is what sigrok prints, at this rate of "
                        "samples, as 1M; without it the capture is a table with times")
    parser.add_argument("--transfers", choices=ORDERS, help="what sigrok's lines without names are: of each window mosi "
                        "alone, or both wires in this order")
    parser.add_argument("--lines", metavar="TABLE", help="a table of times and lines, as `flight ..`, that belong between "
                        "the windows, by the clock of the capture")
    parser.add_argument("--name", help="the item's name; the file's where none is given")
    parser.add_argument("--output", metavar="FILE", help="the item; standard output where none is given")
    parser.add_argument("capture", nargs="?", default="-", help="the file; standard input where none is given")
    options = parser.parse_args()
    if options.capture == options.lines == "-":
        parser.error("standard input is either the capture or the table of lines")
    return options


def main() -> int:
    options = read_arguments()
    try:
        text = item.item_text(read_all(options), item_name(options.name, options.capture))
        write_text(text, options.output, [path for path in (options.capture, options.lines) if path])
    except Unmade as error:
        if sys.stderr is not None:
            print(error, file=sys.stderr)
        return 1
    return 0


if __name__ == "__main__":
    sys.exit(main())
