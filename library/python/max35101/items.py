"""Items, as docs/ITEMS.md has them: texts of calls, read a line at a time and replayed on a model.

>>> replay = Replay()
>>> for answer in replay.answers(["item first", "bus 02", "set 38 1010", "bus 05 => ok", "at x"]):
...     print(answer.text)
item first
bus no 8 not initialised
set ok -
bus ok -
line 5: bad number
>>> print(replay.counts)
3 calls, 1 refused, 1 unannounced, 1 bad lines, 1 expectations, 0 differ

Every line that is not empty or a comment has its answer but ``show``, whose page is the program's and which is passed over.
"""

from __future__ import annotations

import re
from dataclasses import dataclass
from typing import Any, Callable, Iterable, Iterator, NamedTuple, Optional, Protocol, Sequence, Union

import max35101

from . import LONGEST_STRETCH, Delivered, Model, Refusal, Refused, Started, Stretched, Ticked

__all__ = ["Answer", "BadLine", "Beside", "Counts", "Device", "Line", "Replay", "lines", "read"]

LONGEST_LINE = 1000
LONGEST_FRAME = 200
LONGEST_SET = 99
LONGEST_LIST = 16
LONGEST_RECORD = 4096
LONGEST_TABLE = 1024
UNTOUCHED = 0xEE
"""What each byte of an output holds before the call."""
CALLS = frozenset("bus set tick at stretch flight temperature frames degrees listing quietest".split())
"""The lines that are counted as calls."""


class BadLine(ValueError):
    """A line that is no call."""


class Line(NamedTuple):
    """What a line holds."""

    name: str
    """Its first word."""
    arguments: tuple[Any, ...]
    """What the words after it mean: what ``Replay``'s method of this name takes."""
    expected: Optional[list[str]]
    """The words behind ``=>``."""


def lines(text: bytes) -> Iterator[str]:
    """The lines of a text, without their line feeds and one carriage return before each."""
    parts = text.decode("latin-1").split("\n")
    for line in parts if parts[-1] else parts[:-1]:
        yield line[:-1] if line.endswith("\r") else line


def _decimal(word: str, largest: int = 0xFFFFFFFF) -> int:
    if not re.fullmatch("[0-9]{1,10}", word) or int(word) > largest:
        raise BadLine("bad number")
    return int(word)


def _signed(word: str) -> int:
    sign, digits = (-1, word[1:]) if word.startswith("-") else (1, word)
    value = sign * _decimal(digits, 1 << 31)
    if value == 1 << 31:
        raise BadLine("bad number")
    return value


def _hexadecimal(word: str, fewest: int, most: int) -> int:
    if not fewest <= len(word) <= most or not re.fullmatch("[0-9A-Fa-f]+", word):
        raise BadLine("bad number")
    return int(word, 16)


def _counted(holds: object) -> None:
    if not holds:
        raise BadLine("wrong count")


def _nothing(words: list[str]) -> tuple[()]:
    _counted(not words)
    return ()


def _number(words: list[str]) -> tuple[int]:
    _counted(words)
    value = _decimal(words[0])
    _counted(len(words) == 1)
    return (value,)


def _item(words: list[str]) -> tuple[list[str]]:
    _counted(words)
    return (words,)


def _bus(words: list[str]) -> tuple[bytes, int | None]:
    room = None
    if words and words[0].startswith("out="):
        room, words = _decimal(words[0][4:], LONGEST_FRAME), words[1:]
    frame = bytes(_hexadecimal(word, 2, 2) for word in words)
    _counted(len(frame) <= LONGEST_FRAME)
    return frame, room


def _set(words: list[str]) -> tuple[bytes]:
    _counted(words)
    address = _hexadecimal(words[0], 2, 2)
    if not 0x30 <= address <= 0x43:
        raise BadLine("bad number")
    written = [_hexadecimal(word, 1, 4) for word in words[1:]]
    _counted(1 <= len(written) <= LONGEST_SET)
    return (bytes([address]) + b"".join(word.to_bytes(2, "big") for word in written),)


def _flight(words: list[str]) -> tuple[list[int], list[int]]:
    sides: list[list[int]] = [[]]
    for word in words:
        if word == "/":
            sides.append([])
        else:
            sides[-1].append(_hexadecimal(word, 1, 8))
    _counted(len(sides) == 2 and all(len(side) <= LONGEST_LIST for side in sides))
    return sides[0], sides[1]


def _temperature(words: list[str]) -> tuple[list[int]]:
    delivered = [_hexadecimal(word, 1, 8) for word in words]
    _counted(len(delivered) <= LONGEST_LIST)
    return (delivered,)


def _expect(words: list[str]) -> tuple[int, list[int]]:
    _counted(words)
    first = _hexadecimal(words[0], 2, 2)
    if first < 0xB0:
        raise BadLine("bad number")
    registers = 0x100 - first
    wanted = [_hexadecimal(word, 1, 4) for word in words[1 : 1 + registers]]
    _counted(wanted and len(words) <= 1 + registers)
    return first, wanted


def _probe(words: list[str]) -> tuple[list[int]]:
    entries = [_decimal(word) for word in words]
    _counted(entries)
    return (entries,)


def _degrees(words: list[str]) -> tuple[int, int]:
    probe, *rest = [_hexadecimal(word, 1, 8) for word in words[:2]] or [0]
    _counted(len(words) == 2)
    return probe, rest[0]


def _record(words: list[str]) -> tuple[list[int]]:
    return ([_signed(word) for word in words],)


def _listing(words: list[str]) -> tuple[int, int]:
    digits, words = (2, words[1:]) if words[:1] == ["old"] else (8, words)
    _counted(words)
    first = _hexadecimal(words[0], 1, 8)
    _counted(len(words) == 1)
    return digits, first


_READERS: dict[str, Callable[[list[str]], tuple[Any, ...]]] = {
    "item": _item,
    "bus": _bus,
    "set": _set,
    "tick": _number,
    "at": _number,
    "stretch": _number,
    "flight": _flight,
    "temperature": _temperature,
    "int": _nothing,
    "awaited": _nothing,
    "regs": _nothing,
    "expect": _expect,
    "show": _nothing,
    "frames": _nothing,
    "probe": _probe,
    "degrees": _degrees,
    "record": _record,
    "listing": _listing,
    "quietest": _number,
}
_WITHOUT_ARROW = ("item", "expect", "show")


def read(text: str) -> Line | None:
    """What a line holds; nothing, of a line without a word or a comment. ``BadLine`` for one that is no call."""
    if len(text) > LONGEST_LINE:
        raise BadLine("too long")
    name, *words = re.findall("[^ \t]+", text) or ["#"]
    if name.startswith("#"):
        return None
    if name not in _READERS:
        raise BadLine("unknown word")
    expected = None
    if "=>" in words and name not in _WITHOUT_ARROW:
        cut = words.index("=>")
        words, expected = words[:cut], words[cut + 1 :]
    return Line(name, _READERS[name](words), expected)


class Device(Protocol):
    """What a replay asks of a model: the calls of ``max35101.Model``."""

    def transaction(self, frame: bytes, room: int | None = None, fill: int = 0) -> Started: ...

    def tick(self) -> Ticked: ...

    def stretch(self, ticks: int) -> Stretched: ...

    def deliver_flight(self, up: Sequence[int], down: Sequence[int]) -> Delivered: ...

    def deliver_temperature(self, words: Sequence[int]) -> Delivered: ...

    def interrupt_pending(self) -> bool: ...

    def flight_awaited(self) -> bool: ...

    def temperature_awaited(self) -> bool: ...

    def peek(self, address: int) -> int: ...

    def difference(self) -> int: ...

    def setup_frames(self) -> list[bytes]: ...


class Beside(Protocol):
    """What it asks beside the model: the functions of ``max35101``."""

    def degrees(self, probe: int, reference: int) -> float: ...

    def degrees_by(self, table: Sequence[int], probe: int, reference: int) -> float: ...

    def quietest_place(self, values: Sequence[int], width: int) -> int: ...

    def listing(self, differences: Sequence[int], first: int, digits: int = 8) -> str: ...


@dataclass
class Counts:
    """What a replay counts; as a text, the last line's words."""

    calls: int = 0
    refused: int = 0
    unannounced: int = 0
    bad_lines: int = 0
    expectations: int = 0
    differ: int = 0

    def __str__(self) -> str:
        return (
            f"{self.calls} calls, {self.refused} refused, {self.unannounced} unannounced, "
            f"{self.bad_lines} bad lines, {self.expectations} expectations, {self.differ} differ"
        )


class _Said(NamedTuple):
    """An answer without the line's first word."""

    text: str
    refusal: Optional[Refusal] = None
    delivered: Optional[Delivered] = None
    differing: int = 0


def _refused(refusal: Refusal) -> _Said:
    return _Said(f"no {int(refusal)} {refusal.word}", refusal)


class Answer(NamedTuple):
    """What a line answers."""

    number: int
    """The line's, from 1 on."""
    text: str
    """As the program writes it, of one line or more."""
    line: Optional[Line] = None
    """None for a bad line."""
    fault: Optional[str] = None
    """Why the line is bad."""
    refusal: Optional[Refusal] = None
    announced: bool = False
    """A refusal that the line expects."""
    delivered: Optional[Delivered] = None
    differing: int = 0
    """How many expectations differ."""

    @property
    def head(self) -> str:
        """The first line of the text."""
        return self.text.split("\n")[0]


class Replay:
    """The answers to the lines of a text, on fresh models that ``fresh`` makes."""

    def __init__(self, fresh: Callable[[], Device] = Model, beside: Beside = max35101) -> None:
        self._fresh = fresh
        self._beside = beside
        self.counts = Counts()
        self._number = 0
        self._begin()

    def _begin(self) -> None:
        self.model = self._fresh()
        self._since = 0  # ticks since the last transaction that started a measurement, or since the item's start
        self._differences: list[int] = []
        self._table: list[int] = []

    def answers(self, text: Iterable[str]) -> Iterator[Answer]:
        """The answers to lines, in their order."""
        for line in text:
            answer = self.answer(line)
            if answer:
                yield answer

    def answer(self, text: str) -> Answer | None:
        """The answer to the next line; None where it has none."""
        self._number += 1
        try:
            line = read(text)
            said = None if line is None or line.name == "show" else self._said(line)
        except BadLine as bad:
            self.counts.bad_lines += 1
            return Answer(self._number, f"line {self._number}: {bad}", fault=str(bad))
        return self._judged(line, said) if line and said else None

    def _said(self, line: Line) -> _Said:
        try:
            said: Union[str, _Said] = getattr(self, f"_on_{line.name}")(*line.arguments)
        except Refused as refused:
            said = _refused(refused.refusal)
        return _Said(said) if isinstance(said, str) else said

    def _judged(self, line: Line, said: _Said) -> Answer:
        """The answer, beside what the line expects of it."""
        first, *further = (said.text if line.name == "regs" else f"{line.name} {said.text}").split("\n")
        differing, agrees = said.differing, False
        if line.expected is not None:
            self.counts.expectations += 1
            agrees = first.split(" ")[1 : 1 + len(line.expected)] == line.expected
            if not agrees:
                first, differing = " ".join([first, "expected", *line.expected]), 1
        self.counts.differ += differing
        self.counts.calls += line.name in CALLS
        refused = said.refusal is not None
        self.counts.refused += refused
        self.counts.unannounced += refused and not agrees
        text = "\n".join([first, *further])
        return Answer(self._number, text, line, None, said.refusal, refused and agrees, said.delivered, differing)

    def _on_item(self, words: list[str]) -> str:
        self._begin()
        return " ".join(words)

    def _on_bus(self, frame: bytes, room: int | None) -> _Said:
        size = max35101.output_size(frame) if room is None else room
        said, output = self._sent(frame, size)
        return said._replace(text=f"{said.text} out {output.hex().upper()}") if output else said

    def _on_set(self, frame: bytes) -> _Said:
        return self._sent(frame, 0)[0]

    def _sent(self, frame: bytes, room: int) -> tuple[_Said, bytes]:
        """A transaction, and its output."""
        try:
            started = self.model.transaction(frame, room, UNTOUCHED)
        except Refused as refused:
            return _refused(refused.refusal), bytes([UNTOUCHED]) * room
        kinds = [kind for kind in ("flight", "temperature") if getattr(started, kind)]
        if kinds:
            self._since = 0
        return _Said("ok " + ("+".join(kinds) or "-")), started.output

    def _on_tick(self, count: int) -> str:
        return f"{count}" + self._ticks(count, 0)

    def _on_at(self, moment: int) -> str:
        if moment < self._since:
            raise BadLine("past")
        return f"{moment}" + self._ticks(moment - self._since, self._since)

    def _on_stretch(self, count: int) -> str:
        said = self.model.stretch(count)
        self._since += count
        return f"{count}" + self._reports(said, 0)

    def _ticks(self, count: int, before: int) -> str:
        """Single ticks, short counts by the call of one tick and others in stretches."""
        done, text = 0, ""
        while done < count:
            step = 1 if count <= 40 else min(count - done, LONGEST_STRETCH)
            said: Ticked | Stretched = self.model.tick() if step == 1 else self.model.stretch(step)
            text += self._reports(said, before + done)
            done += step
        self._since += count
        return text

    @staticmethod
    def _reports(said: Ticked | Stretched, before: int) -> str:
        """What a tick or a stretch told, by tick and kind."""
        happened = [
            (said.flight_failed, 0, "failed-flight"),
            (said.flight_started, 1, "started-flight"),
            (said.temperature_failed, 2, "failed-temperature"),
            (said.temperature_started, 3, "started-temperature"),
        ]
        told = sorted((int(tick), place, what) for tick, place, what in happened if tick)
        return "".join(f" {what}@{before + tick}" for tick, _, what in told)

    def _on_flight(self, up: list[int], down: list[int]) -> _Said:
        delivered = self.model.deliver_flight(up, down)
        return _Said(delivered.value, delivered=delivered)

    def _on_temperature(self, words: list[int]) -> _Said:
        delivered = self.model.deliver_temperature(words)
        return _Said(delivered.value, delivered=delivered)

    def _on_int(self) -> str:
        return "yes" if self.model.interrupt_pending() else "no"

    def _on_awaited(self) -> str:
        return f"{int(self.model.flight_awaited())} {int(self.model.temperature_awaited())}"

    def _on_regs(self) -> str:
        words = [f"{self.model.peek(address):04X}" for address in range(0xB0, 0x100)]
        rows = (" ".join([f"{0xB0 + at:02X}", *words[at : at + 8]]) for at in range(0, len(words), 8))
        return "\n".join(rows)

    def _on_expect(self, first: int, wanted: list[int]) -> _Said:
        self.counts.expectations += len(wanted)
        has = {address: self.model.peek(address) for address in range(first, first + len(wanted))}
        differs = [
            f" {address:02X}:{has[address]:04X}/{want:04X}"
            for address, want in enumerate(wanted, first)
            if has[address] != want
        ]
        text = " differs" + "".join(differs) if differs else " ok"
        return _Said(f"{first:02X}{text}", differing=len(differs))

    def _on_frames(self) -> str:
        frames = [f"frame {frame.hex(' ').upper()}" for frame in self.model.setup_frames()]
        return "\n".join([str(len(frames)), *frames])

    def _on_probe(self, entries: list[int]) -> str:
        if len(self._table) + len(entries) > LONGEST_TABLE:
            raise BadLine("no room")
        self._table += entries
        return str(len(self._table))

    def _on_degrees(self, probe: int, reference: int) -> str:
        table = self._table
        said = (
            self._beside.degrees_by(table, probe, reference) if table else self._beside.degrees(probe, reference)
        )  # fmt: skip
        return f"{said:.3f}"

    def _on_record(self, differences: list[int]) -> str:
        added = differences or [self.model.difference()]
        if len(self._differences) + len(added) > LONGEST_RECORD:
            raise BadLine("no room")
        self._differences += added
        return " ".join(map(str, added))

    def _on_listing(self, digits: int, first: int) -> str:
        listed = self._beside.listing(self._differences, first, digits)
        return "\n".join([str(len(self._differences)), *listed.splitlines()])

    def _on_quietest(self, width: int) -> str:
        place = self._beside.quietest_place(self._differences, width)
        run = self._differences[place : place + width]
        return f"{place} {max(run) - min(run)}"
