"""Runs `replay` on texts and pairs its answers with what was asked."""

from __future__ import annotations

import os
import subprocess
from collections.abc import Sequence

ROOT = os.path.dirname(os.path.dirname(os.path.abspath(__file__)))
# No line of an item begins so: its answer names the number of its own line, and so ends the answers before it.
MARK = "?"


class ProgramError(Exception):
    """`replay` can't be run, or its answers can't be paired."""


def replay_executable() -> str:
    """The proved program: REPLAY in the environment names another one."""
    return os.environ.get("REPLAY") or os.path.join(ROOT, "crates", "replay", "out", "replay")


def run(program: str, text: str) -> list[str]:
    """The lines that the program answers."""
    try:
        done = subprocess.run([program], input=text.encode("latin-1"), stdout=subprocess.PIPE, check=True)
    except (OSError, subprocess.CalledProcessError) as error:
        raise ProgramError(f"{program} can't be run: {error}") from error
    return done.stdout.decode("latin-1").split("\n")


def ask(program: str, texts: Sequence[str]) -> list[list[str]]:
    """The lines answered to each of the texts, which are sent one after the other in a single run."""
    if not texts:
        return []
    lines: list[str] = []
    ends: list[str] = []
    for text in texts:
        lines += text.split("\n") + [MARK]
        ends.append(f"line {len(lines)}: unknown word")
    found: list[list[str]] = [[]]
    for reply in run(program, "\n".join(lines) + "\n"):
        if len(found) <= len(ends) and reply == ends[len(found) - 1]:
            found.append([])
        else:
            found[-1].append(reply)
    if len(found) != len(ends) + 1:
        raise ProgramError(f"{program} answered {len(found) - 1} of {len(ends)} texts")
    return found[:-1]
