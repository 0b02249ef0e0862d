#!/usr/bin/env python3
"""items.py: replay items through the library and compare with stored answers.

    items.py BACK_END ITEMS ANSWERS [ITEMS ANSWERS ..]

BACK_END is ``python``, or the command of a program that takes calls a line each (``c/driver.c``, ``rust/examples/driver.rs``).
``max35101.items`` reads the lines. The pages of ``show`` are the program's and not the library's, and are left out of the stored
answers.
"""

from __future__ import annotations

import shlex
import subprocess
import sys
from pathlib import Path
from typing import Iterable, Sequence, cast

sys.path.insert(0, str(Path(__file__).parent / "python"))

from max35101 import Delivered, Model, Refused, Started, Stretched, Ticked  # noqa: E402
from max35101.items import Device, Replay, lines  # noqa: E402

ACCEPTED, FAILED = 0xFFFFFFFF, 0xFFFFFFFE


def listed(values: Iterable[int]) -> str:
    """Numbers as a driver reads them."""
    return ",".join(map(str, values)) or "-"


class Program:
    """A driver in another language: the calls of a model, and those beside it."""

    def __init__(self, command: Sequence[str]) -> None:
        self.process = subprocess.Popen(command, stdin=subprocess.PIPE, stdout=subprocess.PIPE, text=True)

    def end(self) -> int:
        """The program's exit status."""
        assert self.process.stdin
        self.process.stdin.close()
        return self.process.wait()

    def call(self, *words: object) -> list[str]:
        """The code, and what was lent."""
        assert self.process.stdin and self.process.stdout
        self.process.stdin.write(" ".join(map(str, words)) + "\n")
        self.process.stdin.flush()
        return self.process.stdout.readline().split()

    def accepted(self, *words: object) -> list[str]:
        """What was lent, of a call that is not refused."""
        code, *lent = self.call(*words)
        if int(code) != ACCEPTED:
            raise Refused(int(code))
        return lent

    def fresh(self) -> Program:
        self.accepted("fresh")
        return self

    def transaction(self, frame: bytes, room: int | None = None, fill: int = 0) -> Started:
        assert room is not None and fill == 0xEE, "the driver's output is as an item has it"
        code, flight, temperature, text = self.call("bus", room, frame.hex() or "-")
        output = bytes.fromhex(text.replace("-", ""))
        if int(code) != ACCEPTED:
            assert output == bytes([fill]) * room, "a refusal changes no output"
            raise Refused(int(code))
        return Started(flight == "1", temperature == "1", output)

    def tick(self) -> Ticked:
        return Ticked(*(word == "1" for word in self.accepted("tick")))

    def stretch(self, ticks: int) -> Stretched:
        return Stretched(*(int(word) or None for word in self.accepted("stretch", ticks)))

    def deliver_flight(self, up: Sequence[int], down: Sequence[int]) -> Delivered:
        return self.delivered("flight", listed(up), listed(down))

    def deliver_temperature(self, words: Sequence[int]) -> Delivered:
        return self.delivered("temperature", listed(words))

    def delivered(self, *words: str) -> Delivered:
        code = int(self.call(*words)[0])
        if code not in (ACCEPTED, FAILED):
            raise Refused(code)
        return Delivered.GOOD if code == ACCEPTED else Delivered.FAILED

    def asked(self, place: int) -> bool:
        return self.accepted("asks")[place] == "1"

    def interrupt_pending(self) -> bool:
        return self.asked(0)

    def flight_awaited(self) -> bool:
        return self.asked(1)

    def temperature_awaited(self) -> bool:
        return self.asked(2)

    def peek(self, address: int) -> int:
        return int(self.accepted("peek", address)[0])

    def difference(self) -> int:
        value = self.peek(0xE2) << 16 | self.peek(0xE3)
        return value - (1 << 32) if value >> 31 else value

    def setup_frames(self) -> list[bytes]:
        return [bytes.fromhex(frame) for frame in self.accepted("frames")]

    def degrees(self, probe: int, reference: int) -> float:
        return self.degrees_by((), probe, reference)

    def degrees_by(self, table: Sequence[int], probe: int, reference: int) -> float:
        return int(self.accepted("degrees", probe, reference, listed(table))[0]) / 1000

    def quietest_place(self, values: Sequence[int], width: int) -> int:
        return int(self.accepted("quietest", width, listed(values))[0])

    def listing(self, differences: Sequence[int], first: int, digits: int = 8) -> str:
        said = self.accepted("listing", digits, first, listed(differences))
        return "\n".join(line.replace("_", " ") for line in said)


class Stored:
    """A model of the package that is stored and loaded before each call."""

    def __init__(self) -> None:
        self.model = Model()

    def __getattr__(self, name: str) -> object:
        self.model = Model(bytes(self.model), self.model.flash)
        return getattr(self.model, name)


def stored_answers(text: str) -> list[str]:
    """The stored answers without pages."""
    kept, page = [], False
    for line in text.removesuffix("\n").split("\n"):
        page = page or line == "RTC AND WATCHDOG REGISTERS"
        if not page:
            kept.append(line)
        page = page and not line.startswith("30-43 ")
    return kept


def answers(replay: Replay, items: Path) -> list[str]:
    """The answers to an item's lines, and the counts at its end."""
    given = [answer.text for answer in replay.answers(lines(items.read_bytes()))]
    return "\n".join([*given, f"end {replay.counts}"]).split("\n")


def compared(items: Path, stored: Path, replay: Replay) -> tuple[int, int]:
    """How many answers are stored, and how many of them differ."""
    wanted, given = stored_answers(stored.read_bytes().decode("latin-1")), answers(replay, items)
    differing = [n for n, (want, give) in enumerate(zip(wanted, given)) if want != give]
    for n in differing:
        print(f"{stored}: answer {n + 1}: stored {wanted[n]}, given {given[n]}")
    if len(wanted) != len(given):
        print(f"{stored}: {len(wanted)} answers stored, {len(given)} given")
    return len(wanted), len(differing) + (len(wanted) != len(given))


def main(back_end: str, *paths: str) -> int:
    """Replay each pair of files; 0 where all answers are the stored ones, and the program ends well."""
    program = None if back_end == "python" else Program(shlex.split(back_end))
    count = differing = 0
    for items, stored in zip(paths[::2], paths[1::2]):
        replay = Replay(program.fresh, program) if program else Replay(lambda: cast(Device, Stored()))
        many, differ = compared(Path(items), Path(stored), replay)
        count, differing = count + many, differing + differ
    status = program.end() if program else 0
    print(f"{back_end}: {count} answers compared, {differing} differ" + (f"; exit status {status}" if status else ""))
    return 1 if differing or not count or status else 0


if __name__ == "__main__":
    sys.exit(main(*sys.argv[1:]))
