#!/usr/bin/env python3
"""Fit a meter's constant: flow = k × difference, from items that were captured at known flows.

    fit_flow.py flows/flows.txt --width 4 --supply 1 2 --return 3 4

A line of the list names a flow, in the unit wanted, and a file of items beside the list: ``0.6 slow.item``. Each item is replayed
on a fresh model. Of the differences of its good measurements the quietest run is taken, in nanoseconds; k is the least
squares' fit over all of them. The degrees are those of the item's last good temperature measurement. Of a file with several items
each one that has differences is a capture of its own.

A bad line, and a refusal that its line does not expect, end the fit; an expectation that differs is told on standard error.
"""

from __future__ import annotations

import argparse
import math
import sys
from pathlib import Path
from typing import NamedTuple, Optional

import max35101
from max35101 import items


class Unfit(Exception):
    """Why there is no fit."""


class Capture(NamedTuple):
    """What one item gave."""

    name: str
    differences: list[int]
    """Of its good measurements, in quanta."""
    ports: Optional[list[int]]
    """The words of its last good temperature measurement, T1 to T4."""


class Point(NamedTuple):
    """The quietest run of a capture, in nanoseconds, and what was known of it."""

    flow: float
    differences: list[float]
    ports: Optional[list[int]]


def replayed(path: Path) -> list[Capture]:
    """What each item of a file gave."""
    replay = items.Replay()
    captures = [Capture("", [], None)]
    for answer in replay.answers(items.lines(path.read_bytes())):
        if answer.line is None or answer.refusal is not None and not answer.announced:
            raise Unfit(f"{path}:{answer.number}: {answer.fault or answer.head}")
        if answer.differing:
            print(f"{path}:{answer.number}: {answer.head}", file=sys.stderr)
        capture = captures[-1]
        if answer.line.name == "item":
            captures.append(Capture(answer.text, [], None))
        elif answer.line.name == "flight" and answer.delivered is max35101.Delivered.GOOD:
            if all(answer.line.arguments):  # a measurement up alone, or down alone, has no difference
                capture.differences.append(replay.model.difference())
        elif answer.line.name == "temperature" and answer.delivered is max35101.Delivered.GOOD:
            captures[-1] = capture._replace(ports=list(answer.line.arguments[0]))
    return [capture for capture in captures if capture.differences]


def counted(count: int, what: str) -> str:
    """So many of them."""
    return f"{count} {what}{'s' * (count != 1)}"


def points(flow: float, path: Path, width: int) -> list[Point]:
    """The captures of a file at one flow."""
    captures = replayed(path)
    if not captures:
        raise Unfit(f"{path}: no good measurement up and down")
    for capture in captures:
        if len(capture.differences) < width:
            count = counted(len(capture.differences), "good measurement")
            raise Unfit(f"{path}: {capture.name or 'the item'} has {count} up and down, fewer than the width, {width}")
    runs = [max35101.quietest(capture.differences, width) for capture in captures]
    return [
        Point(flow, [max35101.nanoseconds(quanta) for quanta in run], capture.ports)
        for run, capture in zip(runs, captures)
    ]


def listed(path: Path, width: int) -> list[Point]:
    """The captures of a list's files."""
    found = []
    for number, line in enumerate(path.read_text().splitlines(), 1):
        words = line.split(maxsplit=1)
        if not words or words[0].startswith("#"):
            continue
        try:
            flow = float(words[0])
        except ValueError:
            flow = math.nan
        if not math.isfinite(flow):
            raise Unfit(f"{path}:{number}: {words[0]} is no flow")
        if len(words) == 1:
            raise Unfit(f"{path}:{number}: no file behind the flow")
        try:
            found += points(flow, path.parent / words[1].strip(), width)
        except OSError as error:
            raise Unfit(f"{path}:{number}: {error.filename}: {error.strerror}") from error
    if not found:
        raise Unfit(f"{path}: no flows")
    return found


def constant(found: list[Point]) -> float:
    """The k that makes the squares of flow − k × difference least."""
    pairs = [(point.flow, difference) for point in found for difference in point.differences]
    squares = math.fsum(difference**2 for _, difference in pairs)
    if not squares:
        raise Unfit("all differences are 0, and fit any k")
    return math.fsum(flow * difference for flow, difference in pairs) / squares


def degrees(ports: list[int] | None, probe: int, reference: int) -> str:
    """A probe's degrees, or why there are none."""
    if ports is None:
        return "not measured"
    try:
        return f"{max35101.degrees(ports[probe - 1], ports[reference - 1]):.3f}"
    except max35101.Refused as refused:
        return f"no degrees ({refused})"


def positive(text: str) -> int:
    """A width."""
    if int(text) < 1:
        raise ValueError
    return int(text)


def options(arguments: list[str] | None) -> argparse.Namespace:
    """What the command line says."""
    parser = argparse.ArgumentParser(description=__doc__, formatter_class=argparse.RawDescriptionHelpFormatter)
    parser.add_argument("list", type=Path, help="lines of a flow and a file of items")
    parser.add_argument("--width", type=positive, default=4, help="neighbours of the quietest run, 4 if not given")
    for option, place, ports in (("--supply", "supply", (1, 2)), ("--return", "back", (3, 4))):
        parser.add_argument(
            option, dest=place, nargs=2, type=int, choices=(1, 2, 3, 4), metavar=("PROBE", "REFERENCE"), default=ports,
            help=f"ports of its probe and of the probe's reference resistor, {ports[0]} and {ports[1]} if not given",
        )  # fmt: skip
    said = parser.parse_args(arguments)
    for option, ports in (("--supply", said.supply), ("--return", said.back)):
        if ports[0] == ports[1]:
            parser.error(f"{option}: port {ports[0]} is the probe's and the reference's")
    return said


def main(arguments: list[str] | None = None) -> None:
    """The command line."""
    said = options(arguments)
    try:
        found = listed(said.list, said.width)
        k = constant(found)
    except Unfit as unfit:
        sys.exit(f"fit_flow: {unfit}")
    except (OSError, UnicodeDecodeError) as error:
        sys.exit(f"fit_flow: {said.list}: {error}")
    print(f"k {k:.6g} per nanosecond, of {counted(sum(len(point.differences) for point in found), 'difference')}")
    for point in found:
        mean = math.fsum(point.differences) / len(point.differences)
        supply, back = degrees(point.ports, *said.supply), degrees(point.ports, *said.back)
        print(f"flow {point.flow:g}: {mean:.4f} ns, fitted {k * mean:.5g}; supply {supply}, return {back}")


if __name__ == "__main__":
    main()
