"""The words that `regs` prints, and how a person reads them."""

from __future__ import annotations

from dataclasses import dataclass

FIRST = 0xB0
CLOCK = range(0xB0, 0xB4)
STATUS = 0xFE
QUESTIONS = "int\nawaited\nregs"
BITS = {
    "TO": 15,
    "AF": 14,
    "TOF": 12,
    "TE": 11,
    "LDO": 10,
    "TOF_EVTMG": 9,
    "TEMP_EVTMG": 8,
    "FLASH": 7,
    "HALT": 5,
    "INIT": 3,
    "POR": 2,
}
# The first register of the cycle count and of the means that follow it, and how many means there are.
COUNTS = {"flight": (0xE4, 1), "temperature": (0xEF, 4)}


@dataclass(frozen=True)
class State:
    """What `replay` answers to `int`, `awaited` and `regs` at one moment."""

    words: tuple[int, ...]
    interrupt: bool
    awaited: tuple[bool, bool]

    def word(self, address: int) -> int:
        return self.words[address - FIRST]

    def pair(self, address: int) -> int:
        """The quanta of an Int and a Frac register."""
        return self.word(address) << 16 | self.word(address + 1)

    @property
    def status(self) -> int:
        return self.word(STATUS)

    def beside_clock(self) -> tuple:
        """Everything but the calendar."""
        return (self.words[len(CLOCK) :], self.interrupt, self.awaited)


def read_state(replies: list[str]) -> State:
    """The state from the answers to QUESTIONS, which stand last."""
    interrupt, awaited, *rows = replies[-12:]
    words = tuple(int(word, 16) for row in rows for word in row.split(" ")[1:9])
    flags = awaited.split(" ")
    return State(words, interrupt == "int yes", (flags[1] == "1", flags[2] == "1"))


def signed(quanta: int) -> int:
    return quanta - (1 << 32) if quanta >> 31 else quanta


def nanoseconds(quanta: int) -> float:
    return quanta * 250 / 65536


def bit_names(status: int) -> str:
    names = [name for name, place in BITS.items() if status >> place & 1]
    return " ".join(names) or "none"


def has_bit(status: int, name: str) -> bool:
    return bool(status >> BITS[name] & 1)


def clock_text(state: State) -> str:
    """The calendar of B0h to B3h, hours in the form in which they stand."""
    seconds, hours, dates, years = (state.word(address) for address in CLOCK)
    day = f"20{years & 0xFF:02X}-{years >> 8:02X}-{dates & 0xFF:02X}"
    rest = f"{hours >> 8:02X}:{seconds & 0xFF:02X}.{seconds >> 8:02X}"
    if hours & 0x40:
        return f"{day} {hours & 0x1F:02X}:{rest} {'PM' if hours & 0x20 else 'AM'}"
    return f"{day} {hours & 0xFF:02X}:{rest}"


def means(state: State, kind: str) -> tuple[int, list[int]]:
    """The cycle count of a kind and its means, in quanta."""
    count, number = COUNTS[kind]
    pairs = [state.pair(count + 1 + 2 * place) for place in range(number)]
    return state.word(count), [signed(pair) for pair in pairs] if kind == "flight" else pairs
