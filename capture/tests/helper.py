"""What the tests have in common."""

from __future__ import annotations

import io
import os
import subprocess
import sys
import unittest
from fractions import Fraction
from typing import Any

import item
import make_item
from windows import CaptureError

FOLDER = os.path.dirname(os.path.dirname(os.path.abspath(__file__)))
EXAMPLES = os.path.join(FOLDER, "examples")
PROGRAM = os.environ.get("REPLAY") or os.path.join(os.path.dirname(FOLDER), "crates", "replay", "out", "replay")
RATE = Fraction(1_000_000)


def stored(name: str) -> str:
    with open(os.path.join(EXAMPLES, name), encoding="utf-8-sig", newline="") as file:
        return file.read()


def made_of(text: str, rate: Fraction | None = None, transfers: str = "") -> list[str]:
    """The item's lines behind its name."""
    order = transfers.split("-") if transfers else []
    windows = make_item.read_windows(io.StringIO(text, newline=""), rate, order)
    return item.item_text(windows, "t").splitlines()[1:]


def run(*arguments: str, text: str = "", **options: Any) -> subprocess.CompletedProcess[str]:
    command = [sys.executable, os.path.join(FOLDER, "make_item.py"), *arguments]
    return subprocess.run(command, input=text, capture_output=True, text=True, cwd=EXAMPLES, **options)


class Case(unittest.TestCase):
    def refused(self, text: str, message: str, rate: Fraction | None = None, transfers: str = "") -> None:
        with self.assertRaises(CaptureError) as caught:
            made_of(text, rate, transfers)
        self.assertIn(message, str(caught.exception))
