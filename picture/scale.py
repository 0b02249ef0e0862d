"""Where each step stands: time to scale, long waits cut, bands of one width below one another.

Steps of the same tick stand side by side, one slot apart. Between two ticks time is drawn to scale, with a least width
that keeps marks apart; what would be longer than `longest` is cut to `cut` and marked.
"""

from __future__ import annotations

from dataclasses import dataclass


@dataclass(frozen=True)
class Pitch:
    """Widths in pixels."""

    slot: float
    least: float
    usual: float
    longest: float
    cut: float

    def times(self, factor: float) -> Pitch:
        return Pitch(*(getattr(self, name) * factor for name in self.__dataclass_fields__))


WIDE = Pitch(slot=19, least=7, usual=76, longest=170, cut=78)
DENSE = Pitch(slot=9, least=4, usual=14, longest=36, cut=46)
# From this number of steps on an item is drawn densely; a short one as widely as it fits into one band.
MANY_STEPS = 420
FACTORS = (2, 1.8, 1.6, 1.4, 1.3, 1.2, 1.1, 1)
TIGHT = tuple(Pitch(slot=16.5, least=5, usual=usual, longest=2.4 * usual, cut=60) for usual in (56, 48, 40))
# A band may end earlier than it must where this part of the room is used.
FULL_ENOUGH = 0.7


@dataclass(frozen=True)
class Gap:
    """The wait before a step: its ticks, its place within the band, and whether it is cut."""

    step: int
    ticks: int
    left: float
    right: float
    is_cut: bool

    @property
    def middle(self) -> float:
        return (self.left + self.right) / 2


@dataclass
class Band:
    """The steps from `first` to `last` in one strip, and the waits before them."""

    first: int
    last: int
    slot: float
    places: list[float]
    gaps: list[Gap]

    def x(self, step: int) -> float:
        """The place of a step; what lies before or after the band is at its edge."""
        if step < self.first:
            return 0
        return self.places[step - self.first] if step <= self.last else self.right

    @property
    def right(self) -> float:
        return self.places[-1] + self.slot / 2 if self.places else 0


def usual_gap(ticks: list[int]) -> int:
    """The gap that is drawn with the usual width: 17 of 20 are no longer."""
    gaps = sorted(after - before for before, after in zip(ticks, ticks[1:]) if after > before)
    return gaps[len(gaps) * 17 // 20] if gaps else 1


def width(gap: int, per_tick: float, pitch: Pitch, is_forced: bool) -> tuple[float, bool]:
    """The width of a wait, and whether it is cut."""
    if gap == 0:
        return 0, False
    if is_forced or gap * per_tick > pitch.longest:
        return pitch.cut, True
    return max(gap * per_tick, pitch.least), False


@dataclass(frozen=True)
class Waits:
    """The steps before which a wait is always cut, and those before which a band may best end."""

    forced: frozenset[int] = frozenset()
    idle: frozenset[int] = frozenset()


def fill(ticks: list[int], first: int, room: float, pitch: Pitch, waits: Waits) -> Band:
    """The band that begins with this step, as full as there is room."""
    per_tick = pitch.usual / usual_gap(ticks)
    band = Band(first, first - 1, pitch.slot, [], [])
    for step in range(first, len(ticks)):
        gap = ticks[step] - ticks[step - 1] if step else 0
        wide, is_cut = width(gap, per_tick, pitch, step in waits.forced)
        left = band.right
        if band.places and left + wide + pitch.slot > room:
            break
        if gap:
            band.gaps.append(Gap(step, gap, left, left + wide, is_cut))
        band.places.append(left + wide + pitch.slot / 2)
        band.last = step
    return band


def shortened(ticks: list[int], band: Band, room: float, waits: Waits) -> Band:
    """The band without its last steps, where it then ends in an idle wait and is still full enough."""
    for step in range(band.last + 1, band.first, -1):
        if band.x(step - 1) < FULL_ENOUGH * room:
            return band
        if step in waits.idle and step < len(ticks) and ticks[step] > ticks[step - 1]:
            gaps = [gap for gap in band.gaps if gap.step < step]
            return Band(band.first, step - 1, band.slot, band.places[: step - band.first], gaps)
    return band


def bands_of(ticks: list[int], room: float, pitch: Pitch, waits: Waits) -> list[Band]:
    bands = [fill(ticks, 0, room, pitch, waits)]
    while bands[-1].last < len(ticks) - 1:
        bands[-1] = shortened(ticks, bands[-1], room, waits)
        bands.append(fill(ticks, bands[-1].last + 1, room, pitch, waits))
    return bands


def lay(ticks: list[int], room: float, waits: Waits = Waits()) -> list[Band]:
    """The bands of an item whose steps stand at these ticks."""
    if len(ticks) > MANY_STEPS:
        return bands_of(ticks, room, DENSE, waits)
    for pitch in [*(WIDE.times(factor) for factor in FACTORS), *TIGHT]:
        bands = bands_of(ticks, room, pitch, waits)
        if len(bands) == 1:
            return bands
    return bands_of(ticks, room, WIDE, waits)


def seconds(ticks: int) -> str:
    """Elapsed time, a tick being 1 ÷ 32,768 s, to hundredths of a millisecond."""
    text = f"{ticks / 32768:.5f}".rstrip("0").rstrip(".")
    return f"{text} s"
