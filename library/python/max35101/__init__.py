"""The proved model of the MAX35101 time-to-digital converter, for Python.

Every call goes, through ctypes, to the library that ``library/build`` makes. A refusal raises
``Refused``; nothing is changed then. ``max35101.items`` replays items.

>>> model = Model()
>>> model.transaction(b"\\x38\\x10\\x10"), model.transaction(b"\\x05")
(Started(flight=False, temperature=False, output=b''), Started(flight=False, temperature=False, output=b''))
>>> model.transaction(b"\\x02").flight
True
>>> model.deliver_flight([0x64], [0x01])
<Delivered.GOOD: 'good'>
>>> nanoseconds(model.difference())
0.377655029296875
"""

from __future__ import annotations

import ctypes
from enum import Enum, IntEnum
from typing import Callable, Iterable, NamedTuple, Optional, Sequence, Sized, Union

from . import _library
from ._library import Buffer

__all__ = [
    "Answer",
    "Calls",
    "Delivered",
    "EventPlace",
    "FLASH_SIZE",
    "LONGEST_STRETCH",
    "MODEL_SIZE",
    "Model",
    "Refusal",
    "Refused",
    "Started",
    "Stretched",
    "Ticked",
    "degrees",
    "degrees_by",
    "listing",
    "nanoseconds",
    "output_size",
    "quietest",
    "quietest_place",
]

MODEL_SIZE = 233
FLASH_SIZE = 8192
LONGEST_STRETCH = 16384


class Refusal(IntEnum):
    """Why a call was refused, by its number. It is neither true nor false, lest an answer of ``Model.run`` be misread."""

    UNSOUND = 0
    NO_FRAME = 1
    OPCODE = 2
    FRAME_LENGTH = 3
    ADDRESS = 4
    SHORT_OUTPUT = 5
    BUSY = 6
    CALENDAR = 7
    NOT_INITIALISED = 8
    SET_UP = 9
    NOT_AWAITED = 10
    WORD_COUNT = 11
    SPAN = 12
    OFF_THE_TABLE = 13
    BAD_TABLE = 14
    SUPPLY_OFF = 15
    FLASH_ADDRESS = 16
    NOT_ERASED = 17
    WIDTH = 18
    SHORT_FRAMES = 19
    CAPTURE_NUMBER = 20
    SHORT_LISTING = 21
    DIGITS = 22

    def __bool__(self) -> bool:
        raise TypeError(f"{self.word}: a refusal is neither true nor false; compare it, or ask isinstance(answer, Refusal)")

    @property
    def word(self) -> str:
        """Its name in words; for 1 to 18 and 20 the word of docs/ITEMS.md."""
        return "set-up" if self is Refusal.SET_UP else self.name.lower().replace("_", " ")


class Refused(ValueError):
    """A call was refused, and has changed nothing."""

    def __init__(self, number: int) -> None:
        self.refusal = Refusal(number)
        super().__init__(f"{int(number)}: {self.refusal.word}")

    def __reduce__(self) -> tuple[type[Refused], tuple[int]]:
        return type(self), (int(self.refusal),)


class Started(NamedTuple):
    """The kinds of measurement that a transaction started, and what it read."""

    flight: bool
    temperature: bool
    output: bytes


class Ticked(NamedTuple):
    """What one tick did with the measurements of each kind."""

    flight_started: bool
    flight_failed: bool
    temperature_started: bool
    temperature_failed: bool


class Stretched(NamedTuple):
    """The ticks of a stretch, from 1 on, in which each of these happened."""

    flight_started: Optional[int]
    flight_failed: Optional[int]
    temperature_started: Optional[int]
    temperature_failed: Optional[int]


class Delivered(Enum):
    """How an accepted delivery ended. Good counts as true, failed does not."""

    GOOD = "good"
    FAILED = "failed"

    def __bool__(self) -> bool:
        return self is Delivered.GOOD


class EventPlace(NamedTuple):
    """The place of an event that runs; of a continuous one, that of its current group."""

    planned: int
    started: int
    settled: int
    good: int
    next_start: Optional[int]
    """Ticks until the next start; None where all are started."""
    continuous: bool


def _accept(code: int) -> None:
    if code != _library.ACCEPTED:
        raise Refused(code)


def _delivered(code: int) -> Delivered:
    if code == _library.FAILED:
        return Delivered.FAILED
    _accept(code)
    return Delivered.GOOD


def output_size(frame: Buffer) -> int:
    """How many bytes of output a frame asks for: two for each whole word of a read, two for a read of the user flash."""
    sent = _library.data(frame)
    opcode = sent[0] if sent else 0
    return 2 * ((len(sent) - 1) // 2) if opcode >= 0xB0 else 2 * (opcode == 0x90)


class Calls:
    """Calls in the order in which ``Model.run`` does them; each method adds one and returns the list."""

    _TRANSACTION, _TICK, _STRETCH, _FLIGHT, _TEMPERATURE = range(5)

    def __init__(self) -> None:
        self._calls: list[tuple[int, int, int]] = []
        self._frames = bytearray()
        self._hits: list[int] = []

    def __len__(self) -> int:
        return len(self._calls)

    def _add(self, kind: int, first: int, second: int, frame: bytes = b"", hits: Sequence[int] = ()) -> Calls:
        """All that can be wrong raises before anything is added; the call comes last, behind what it needs."""
        call = kind, _library.word(first), _library.word(second)
        self._frames += frame
        self._hits += hits
        self._calls.append(call)
        return self

    def transaction(self, frame: Buffer, room: int | None = None) -> Calls:
        """One bus transaction. The output has ``room`` bytes, or as many as the frame asks for."""
        sent = _library.data(frame)
        return self._add(self._TRANSACTION, len(sent), output_size(sent) if room is None else room, frame=sent)

    def tick(self) -> Calls:
        """One period of the 32,768 Hz clock."""
        return self._add(self._TICK, 0, 0)

    def stretch(self, ticks: int) -> Calls:
        """So many periods at once."""
        return self._add(self._STRETCH, ticks, 0)

    def deliver_flight(self, up: Iterable[int], down: Iterable[int]) -> Calls:
        """The hit words of a flight measurement."""
        ups, downs = list(_library.words(up)), list(_library.words(down))
        return self._add(self._FLIGHT, len(ups), len(downs), hits=ups + downs)

    def deliver_temperature(self, words: Iterable[int]) -> Calls:
        """The words of a temperature measurement, T1 to T4."""
        hits = list(_library.words(words))
        return self._add(self._TEMPERATURE, len(hits), 0, hits=hits)

    @classmethod
    def _answer(cls, kind: int, words: Sequence[int], output: bytes) -> Answer:
        """What the five words of a call's answer say."""
        code, *told = words
        if code not in (_library.ACCEPTED, _library.FAILED):
            return Refusal(code)
        if kind == cls._TRANSACTION:
            return Started(bool(told[0]), bool(told[1]), output)
        if kind == cls._TICK:
            return Ticked(*map(bool, told))
        return Stretched(*(tick or None for tick in told)) if kind == cls._STRETCH else _delivered(code)


Answer = Union[Started, Ticked, Stretched, Delivered, Refusal]


def _peek(model: ctypes.Array[ctypes.c_uint8], address: int) -> int:
    answer = _library.answer(1)
    _accept(_library.peek(model, len(model), _library.word(address), answer, len(answer)))
    return int(answer[0])


class Model:
    """A sound model of the chip, with a user flash of its own.

    It can be copied, compared and pickled, and threads may share it: each call is done as a whole.
    """

    def __init__(self, stored: Buffer | None = None, flash: Buffer | None = None) -> None:
        """A fresh model, or the one that ``bytes(model)`` gave; ``flash`` is all FFh when new."""
        model = bytes(MODEL_SIZE) if stored is None else _library.data(stored)
        contents = b"\xff" * FLASH_SIZE if flash is None else _library.data(flash)
        if len(contents) != FLASH_SIZE:
            raise ValueError(f"the user flash has {FLASH_SIZE} bytes, not {len(contents)}")
        if len(model) != MODEL_SIZE:
            raise Refused(Refusal.UNSOUND)
        # One piece of memory, so that a copy has both of one moment.
        self._memory = bytearray(model + contents)
        self._bytes = (ctypes.c_uint8 * MODEL_SIZE).from_buffer(self._memory)
        self._flash = (ctypes.c_uint8 * FLASH_SIZE).from_buffer(self._memory, MODEL_SIZE)
        if stored is None:
            _accept(_library.fresh(self._bytes, len(self._bytes)))
        else:
            self.interrupt_pending()

    def __bytes__(self) -> bytes:
        """The model's 233 bytes, to keep it in a file."""
        return bytes(self._bytes)

    def __eq__(self, other: object) -> bool:
        if not isinstance(other, Model):
            return NotImplemented
        return self._memory == other._memory

    __hash__ = None  # type: ignore[assignment]

    def __reduce__(self) -> tuple[type[Model], tuple[bytes, bytes]]:
        memory = bytes(self._memory)
        return type(self), (memory[:MODEL_SIZE], memory[MODEL_SIZE:])

    @property
    def flash(self) -> bytes:
        """The user flash."""
        return bytes(self._flash)

    def copy(self) -> Model:
        """A model that goes its own way from here."""
        kind, contents = self.__reduce__()
        return kind(*contents)

    def transaction(self, frame: Buffer, room: int | None = None, fill: int = 0) -> Started:
        """One bus transaction. The output has ``room`` bytes, or as many as the frame asks for.

        What the frame does not read of them stays ``fill``.
        """
        sent = _library.octets(_library.data(frame))
        size = output_size(bytes(sent)) if room is None else _library.word(room)
        output = _library.octets(bytes([fill]) * size)
        answer = _library.answer(2)
        _accept(
            _library.transaction(
                self._bytes, len(self._bytes), sent, len(sent), output, len(output),
                self._flash, len(self._flash), answer, len(answer),
            )
        )  # fmt: skip
        return Started(bool(answer[0]), bool(answer[1]), bytes(output))

    def tick(self) -> Ticked:
        """One period of the 32,768 Hz clock."""
        answer = _library.answer(4)
        _accept(_library.tick(self._bytes, len(self._bytes), answer, len(answer)))
        return Ticked(*map(bool, answer))

    def stretch(self, ticks: int) -> Stretched:
        """So many periods at once, at most ``LONGEST_STRETCH``."""
        answer = _library.answer(4)
        _accept(_library.stretch(self._bytes, len(self._bytes), _library.word(ticks), answer, len(answer)))
        return Stretched(*(tick or None for tick in answer))

    def deliver_flight(self, up: Iterable[int], down: Iterable[int]) -> Delivered:
        """The hit words of the awaited flight measurement."""
        ups, downs = _library.words(up), _library.words(down)
        return _delivered(
            _library.flight_delivery(
                self._bytes, len(self._bytes), ups, len(ups), downs, len(downs), None, 0
            )
        )  # fmt: skip

    def deliver_temperature(self, words: Iterable[int]) -> Delivered:
        """The words of the awaited temperature measurement, T1 to T4."""
        hits = _library.words(words)
        return _delivered(
            _library.temperature_delivery(self._bytes, len(self._bytes), hits, len(hits), None, 0)
        )

    def run(self, calls: Calls) -> list[Answer]:
        """The calls of a list, one after the other: what the call alone would return, or its ``Refusal``, which is not raised."""
        kept = tuple(calls._calls)
        list_ = _library.words(number for call in kept for number in call)
        frames, hits = _library.octets(calls._frames), _library.words(calls._hits)
        rooms = [second if kind == Calls._TRANSACTION else 0 for kind, _, second in kept]
        output = _library.room(sum(rooms))
        answers = _library.answer(_library.ANSWER_WORDS * len(kept))
        done = _library.run(
            self._bytes, len(self._bytes), list_, len(list_), frames, len(frames), hits, len(hits),
            output, len(output), self._flash, len(self._flash), answers, len(answers),
        )  # fmt: skip
        assert done == len(kept), "a list with room for each call"
        told, read = list(answers), bytes(output)
        said, at = [], 0
        for place, ((kind, _, _), room) in enumerate(zip(kept, rooms)):
            words = told[_library.ANSWER_WORDS * place : _library.ANSWER_WORDS * (place + 1)]
            said.append(Calls._answer(kind, words, read[at : at + room]))
            at += room
        return said

    def _ask(self, question: Callable[..., int], words: int = 1) -> list[int]:
        answer = _library.answer(words)
        _accept(question(self._bytes, len(self._bytes), answer, len(answer)))
        return list(answer)

    def _place(self, question: Callable[..., int]) -> EventPlace | None:
        runs, planned, started, settled, good, next_start, continuous = self._ask(question, 7)
        return EventPlace(planned, started, settled, good, next_start or None, bool(continuous)) if runs else None

    def interrupt_pending(self) -> bool:
        """Whether the INT pin is driven."""
        return self._ask(_library.interrupt_pending) == [1]

    def flight_awaited(self) -> bool:
        """Whether a flight measurement is awaited."""
        return self._ask(_library.flight_awaited) == [1]

    def temperature_awaited(self) -> bool:
        """Whether a temperature measurement is awaited."""
        return self._ask(_library.temperature_awaited) == [1]

    def regulator_on(self) -> bool:
        """Whether the regulator that supplies the user flash is on."""
        return self._ask(_library.regulator_on) == [1]

    def initialised(self) -> bool:
        """Whether the model is initialised."""
        return self._ask(_library.initialised) == [1]

    def flight_left(self) -> int | None:
        """In how many ticks the awaited flight measurement fails; None where none is awaited."""
        return self._ask(_library.flight_left)[0] or None

    def temperature_left(self) -> int | None:
        """In how many ticks the awaited temperature measurement fails; None where none is awaited."""
        return self._ask(_library.temperature_left)[0] or None

    def flight_place(self) -> EventPlace | None:
        """The place of the event of differences that runs."""
        return self._place(_library.flight_place)

    def temperature_place(self) -> EventPlace | None:
        """The place of the event of temperatures that runs."""
        return self._place(_library.temperature_place)

    def peek(self, address: int) -> int:
        """A register's word, at its read address B0h to FFh, with nothing cleared."""
        return _peek(self._bytes, address)

    def pair(self, address: int) -> int:
        """The words of two neighbours, Int and Frac, as one number: a result in quanta."""
        both = _library.octets(bytes(self))  # of one moment
        return _peek(both, address) << 16 | _peek(both, address + 1)

    def difference(self) -> int:
        """TOF_DIFF, registers E2h and E3h, in quanta."""
        value = self.pair(0xE2)
        return value - (1 << 32) if value >> 31 else value

    def setup_frames(self) -> list[bytes]:
        """The bus frames that bring a fresh model to this one's set-up."""
        data, lengths = _library.room(_library.SETUP_BYTES), _library.answer(_library.SETUP_FRAMES)
        counts = _library.counts(2)
        _accept(
            _library.setup_frames(
                self._bytes, len(self._bytes), data, len(data), lengths, len(lengths), counts, len(counts)
            )
        )
        frames, at = [], 0
        for length in lengths[: counts[1]]:
            frames.append(bytes(data[at : at + length]))
            at += length
        return frames


def degrees(probe: int, reference: int) -> float:
    """Degrees of a PT1000 probe, from its word and its reference's; a thousandth is the last digit."""
    answer = _library.answer(1)
    _accept(_library.degrees(_library.word(probe), _library.word(reference), answer, len(answer)))
    return int(answer[0]) / 1000


def degrees_by(table: Iterable[int], probe: int, reference: int) -> float:
    """The same with a table of milliohms at each whole degree from 0."""
    entries, answer = _library.words(table), _library.answer(1)
    _accept(
        _library.degrees_by(
            entries, len(entries), _library.word(probe), _library.word(reference), answer, len(answer)
        )
    )  # fmt: skip
    return int(answer[0]) / 1000


def _width(values: Sized, width: int) -> int:
    """The width, or one that is refused too, within a size's range."""
    return min(max(width, 0), len(values) + 1)


def quietest_place(values: Iterable[int], width: int) -> int:
    """Where the quietest run of ``width`` neighbours starts, the earliest among equals."""
    differences, answer = _library.differences(values), _library.counts(1)
    _accept(
        _library.quietest_place(differences, len(differences), _width(differences, width), answer, len(answer))
    )
    return int(answer[0])


def quietest(values: Iterable[int], width: int) -> list[int]:
    """The values of that run."""
    differences = _library.differences(values)
    run = _library.differences([0] * min(max(width, 0), len(differences)))
    _accept(_library.quietest(differences, len(differences), _width(differences, width), run, len(run)))
    return list(run)


def nanoseconds(quanta: int) -> float:
    """A difference of quanta, 250/65,536 ns each, in nanoseconds; exact."""
    return float(_library.nanoseconds(_library.differences([quanta])[0]))


def listing(differences: Iterable[int], first: int, digits: int = 8) -> str:
    """The differences as printed lines, capture numbers from ``first`` on, of 8 digits or 2; another count is refused."""
    values = _library.differences(differences)
    output, written = _library.room(len(values) * (digits + 15 if digits in (2, 8) else 0)), _library.counts(1)
    _accept(
        _library.write_listing_as(
            _library.word(digits), values, len(values), _library.word(first), output, len(output), written, len(written)
        )
    )
    return bytes(output[: written[0]]).decode("ascii")
