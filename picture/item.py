"""The lines of an item and what `replay` answers to them: all that is known here of the format.

`docs/ITEMS.md` has the tables. A line that is not listed there is still sent and paired with its answer; it is drawn
as a question that changes nothing.
"""

from __future__ import annotations

import re
from dataclasses import dataclass

KINDS = ("flight", "temperature")
WAITS = ("tick", "at", "stretch")
TRANSACTIONS = ("bus", "set")
LONGEST_LINE = 1000
NO_EXPECTED_WORDS = ("item", "show", "expect")

BAD = re.compile(r"line \d+: (.*)")
REPORT = re.compile(r"(started|failed)-(flight|temperature)@(\d+)")
DIFFERENCE = re.compile(r"([0-9A-F]{2}):([0-9A-F]{4})/([0-9A-F]{4})")


@dataclass(frozen=True)
class Line:
    """A line that gets an answer; `wanted` has the words after `=>`, None where there is no `=>`."""

    number: int
    text: str
    words: tuple[str, ...]
    wanted: tuple[str, ...] | None = None

    @property
    def word(self) -> str:
        return self.words[0] if self.words else ""


@dataclass(frozen=True)
class Report:
    """What the `at`-th tick of a wait reported, from 1."""

    what: str
    kind: str
    at: int


@dataclass(frozen=True)
class Answer:
    """The first line of an answer, taken apart."""

    text: str = ""
    bad: str = ""
    expected: str = ""

    @property
    def words(self) -> list[str]:
        return self.text.split(" ")

    @property
    def refused(self) -> str:
        """The number and the word of a refusal, as `6 busy`."""
        words = self.words
        if self.bad or len(words) < 3 or words[0] == "item" or words[1] != "no":
            return ""
        end = words.index("out") if "out" in words else len(words)
        return " ".join(words[2:end])

    @property
    def started(self) -> tuple[str, ...]:
        """The kinds that a transaction started."""
        words = self.words
        if self.bad or words[0] != "bus" or words[1] != "ok" or words[2] == "-":
            return ()
        return tuple(words[2].split("+"))

    @property
    def output(self) -> bytes:
        """The output buffer after a transaction."""
        words = self.words
        return bytes.fromhex(words[-1]) if len(words) > 1 and words[-2] == "out" else b""

    @property
    def differences(self) -> list[tuple[str, str, str]]:
        """Of an `expect` that differs: address, the word that stands there, the word that was expected."""
        return DIFFERENCE.findall(self.text)


def read_line(number: int, text: str) -> Line | None:
    """The line, or None where it answers nothing."""
    words = tuple(word for word in re.split("[ \t]+", text) if word)
    if len(text) <= LONGEST_LINE and (not words or words[0].startswith("#")):
        return None
    if "=>" in words and words[0] not in NO_EXPECTED_WORDS:
        place = words.index("=>")
        return Line(number, text, words[:place], words[place + 1 :])
    return Line(number, text, words)


def read_lines(text: str) -> list[Line]:
    found = []
    for number, line in enumerate(text.split("\n"), 1):
        read = read_line(number, line[:-1] if line.endswith("\r") else line)
        if read:
            found.append(read)
    return found


def read_answer(line: Line, replies: list[str]) -> Answer:
    text = replies[0] if replies else ""
    bad = BAD.fullmatch(text)
    if bad:
        return Answer(text, bad=bad[1])
    if line.wanted:
        wanted = " ".join(line.wanted)
        if text.endswith(" expected " + wanted):
            return Answer(text.removesuffix(" expected " + wanted), expected=wanted)
    return Answer(text)


def is_fresh(line: Line, answer: Answer) -> bool:
    """Whether a fresh model begins here."""
    return line.word == "item" and not answer.bad


def waited(line: Line, answer: Answer, count: int) -> int:
    """The ticks that pass in this line, `count` being those since the last start by a transaction."""
    if line.word not in WAITS or answer.bad or answer.refused:
        return 0
    number = int(line.words[1])
    return number - count if line.word == "at" else number


def reports(line: Line, answer: Answer, count: int) -> list[Report]:
    """What was reported, each `at` counted from the line's beginning."""
    base = count if line.word == "at" else 0
    return [Report(what, kind, int(at) - base) for what, kind, at in REPORT.findall(answer.text)]


def frame(line: Line) -> bytes:
    """The bytes of a transaction that is no bad line."""
    words = line.words[1:]
    if line.word == "set":
        return bytes.fromhex(words[0] + "".join(word.zfill(4) for word in words[1:]))
    return bytes.fromhex("".join(word for word in words if not word.startswith("out=")))


def delivered(line: Line) -> tuple[list[int], list[int]]:
    """The words of a delivery: up and down, or the ports and none."""
    lists: tuple[list[int], list[int]] = ([], [])
    place = 0
    for word in line.words[1:]:
        if word == "/":
            place = 1
        else:
            lists[place].append(int(word, 16))
    return lists


def read_word(sent: bytes, answer: Answer, address: int) -> int | None:
    """The word that an accepted read gave for this address, None where it gave none."""
    if not sent or sent[0] < 0xB0 or sent[0] > address or answer.bad or answer.refused:
        return None
    place = 2 * (address - sent[0])
    word = answer.output[place : place + 2]
    return int.from_bytes(word, "big") if place + 2 < len(sent) and len(word) == 2 else None


def expected_count(line: Line) -> int:
    """How many words an `expect` line names, or 1 for a `=>`."""
    if line.word == "expect":
        return len(line.words) - 2
    return 0 if line.wanted is None else 1


def degrees(answer: Answer) -> float | None:
    """The temperature that a `degrees` line answers."""
    words = answer.words
    return float(words[1]) if words[0] == "degrees" and len(words) == 2 and not answer.bad else None
