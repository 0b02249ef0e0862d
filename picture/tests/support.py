"""What the tests share: the program, stored items, and reading a picture back."""

from __future__ import annotations

import math
import os
import re
import unittest
import xml.etree.ElementTree as ElementTree
from dataclasses import dataclass

import asking
import degrees
import follow
import program
from run import Run
from svg import LETTER

SVG = "{http://www.w3.org/2000/svg}"
EXECUTABLE = program.replay_executable()
EXAMPLES = os.path.join(program.ROOT, "examples")
CRATES = os.path.join(program.ROOT, "crates")
NEEDS_PROGRAM = unittest.skipUnless(os.access(EXECUTABLE, os.X_OK), f"there is no {EXECUTABLE}: run ./replay once")


def text_of(*path: str) -> str:
    with open(os.path.join(*path), "rb") as file:
        return file.read().decode("latin-1")


def runs(text: str, executable: str = "") -> list[Run]:
    executable = executable or EXECUTABLE
    items = asking.split_items(asking.ask_file(executable, text))
    found = follow.runs_of(executable, items, "test.item")
    degrees.complete(executable, found)
    return found


def answers_new_lines() -> bool:
    """Whether the program knows `set`, `at`, `=>` and `degrees`."""
    if not os.access(EXECUTABLE, os.X_OK):
        return False
    asked = program.ask(EXECUTABLE, ["set 43 0 => ok", "at 0", "degrees F4240 F4240"])
    return asked == [["set ok -"], ["at 0"], ["degrees 0.000"]]


@dataclass
class Label:
    """A text of a picture: its words, its corners before it is turned, and the angle."""

    words: str
    left: float
    right: float
    base: float
    size: float
    turn: float
    origin: tuple[float, float]


def moved(transform: str, x: float, y: float) -> tuple[float, float, float]:
    """The place and the angle after a transform of this writer's."""
    shift = re.match(r"translate\(([-\d.]+) ([-\d.]+)\)(?:rotate\(([-\d.]+)\))?", transform or "")
    if not shift:
        return x, y, 0
    return x + float(shift[1]), y + float(shift[2]), float(shift[3] or 0)


def labels(text: str) -> list[Label]:
    """Every text of an SVG, with its place in it."""
    found: list[Label] = []

    def walk(element: ElementTree.Element, x: float, y: float) -> None:
        if element.tag == SVG + "defs":
            return
        here_x, here_y, turn = moved(element.get("transform", ""), x, y)
        if element.tag == SVG + "text":
            style = (element.get("class") or "").split()
            size = 15 if "h" in style else 11 if "p" in style else 10
            words = element.text or ""
            wide = len(words) * size * LETTER
            left = here_x + float(element.get("x", 0)) - (wide / 2 if "m" in style else wide if "e" in style else 0)
            base = here_y + float(element.get("y", 0))
            found.append(Label(words, left, left + wide, base, size, turn, (here_x, here_y)))
        for child in element:
            walk(child, here_x, here_y)

    walk(ElementTree.fromstring(text), 0, 0)
    return found


def overlap(one: Label, other: Label) -> bool:
    """Whether two labels of the same angle cover each other. Slanted ones are compared along their own direction."""
    if one.turn != other.turn:
        return False
    if one.turn:
        angle = math.radians(one.turn)
        over = [other.origin[0] - one.origin[0], other.origin[1] - one.origin[1]]
        along = over[0] * math.cos(angle) + over[1] * math.sin(angle)
        across = -over[0] * math.sin(angle) + over[1] * math.cos(angle)
        wide = one.right - one.left if along > 0 else other.right - other.left
        return abs(across) < 0.75 * one.size and abs(along) < wide
    if one.base - one.size * 0.75 >= other.base or other.base - other.size * 0.75 >= one.base:
        return False
    return one.left < other.right and other.left < one.right


def overlaps(text: str) -> list[tuple[str, str]]:
    """The pairs of labels that cover each other."""
    near = sorted(labels(text), key=lambda label: label.base if not label.turn else label.origin[1])
    found = []
    for place, one in enumerate(near):
        for other in near[place + 1 :]:
            low = other.base if not other.turn else other.origin[1]
            if low - (one.base if not one.turn else one.origin[1]) > 16:
                break
            if overlap(one, other):
                found.append((one.words, other.words))
    return found


def marks(text: str, name: str) -> int:
    """How often a mark stands in a picture, the legend not counted."""
    return len(re.findall(f'<use href="#{name}"', text)) - 1
