"""One run of an item as a person follows it: steps in time, measurements, groups of an event, expectations."""

from __future__ import annotations

from dataclasses import dataclass, field

import item
from asking import Node
from registers import State

NO_HIT = 1 << 31


@dataclass
class Transaction:
    """A frame on the bus. Several writes of one moment are one; `spans` has the registers of each."""

    sort: str
    label: str
    line: item.Line
    answer: item.Answer
    sent: bytes
    spans: list[str] = field(default_factory=list)
    writes_clock: bool = False

    @property
    def refused(self) -> str:
        return self.answer.refused


@dataclass
class Delivery:
    """Delivered words. `bound` is where late words begin, in quanta; `difference` is TOF_DIFF where one was taken."""

    kind: str
    line: item.Line
    outcome: str
    lists: tuple[list[int], list[int]]
    refusal: str = ""
    bound: int | None = None
    difference: int | None = None


@dataclass
class Check:
    """An expectation or a bad line: `sort` is ok, differs or bad, `words` what differs."""

    sort: str
    line: item.Line
    words: list[str] = field(default_factory=list)


@dataclass
class Reading:
    """Degrees: of a pair of ports where the words are theirs, 0 and 0 where they are not."""

    ports: tuple[int, int]
    value: float


@dataclass
class Step:
    """What happens at one place of the picture; `hidden` counts the starts that are left out before it."""

    tick: int
    state: State
    transaction: Transaction | None = None
    delivery: Delivery | None = None
    reports: tuple[item.Report, ...] = ()
    status_read: int | None = None
    checks: list[Check] = field(default_factory=list)
    readings: list[Reading] = field(default_factory=list)
    hidden: int = 0


@dataclass
class Measurement:
    """From its start to good, failed, expired or dropped; awaited where the item ends before. Places of steps."""

    kind: str
    first: int
    last: int = -1
    outcome: str = "awaited"
    is_hidden: bool = False


@dataclass
class Group:
    """N starts of one kind in an event; N is 0 where `show` does not tell it."""

    kind: str
    number: int
    size: int
    first: int
    last: int = -1
    started: int = 0
    settled: int = 0
    good: int = 0
    means: list[int] = field(default_factory=list)
    has_ended: bool = False
    is_hidden: bool = False


@dataclass
class Run:
    name: str
    file: str
    steps: list[Step] = field(default_factory=list)
    measurements: list[Measurement] = field(default_factory=list)
    groups: list[Group] = field(default_factory=list)
    nodes: list[Node] = field(default_factory=list)
    expected: int = 0
    probes: list[tuple[int, str]] = field(default_factory=list)

    def count(self, kind: str, outcome: str = "") -> int:
        return sum(one.kind == kind and outcome in ("", one.outcome) for one in self.measurements)

    def checks(self, sort: str) -> list[Check]:
        return [check for step in self.steps for check in step.checks if check.sort == sort]

    @property
    def ticks(self) -> int:
        return self.steps[-1].tick
