"""The panels of a band: hits against the late bound, differences with the event mean, degrees."""

from __future__ import annotations

import math
from dataclasses import dataclass, field

from registers import means, nanoseconds
from rows import Strip, number_of
from run import NO_HIT, Delivery, Reading, Run
from scale import DENSE
from svg import Canvas, fit, number

HIGH = 96.0
# Above the late bound a word's place says only which of the two it is.
LATE_ZONE = 26.0
NO_HIT_Y, LATE_Y = 5.0, 15.5
QUANTA_A_MICROSECOND = 262_144
GUTTER_TEXT = -6
MEAN_TAIL = 26
PORT_MARKS = ("good", "read", "write", "dropped", "command")


@dataclass(frozen=True)
class Range:
    """The values that a panel shows, from its lower edge to its upper."""

    low: float
    high: float

    def y(self, value: float, height: float = HIGH) -> float:
        return height - 8 - (value - self.low) / (self.high - self.low) * (height - 16)


def range_of(values: list[float]) -> Range | None:
    """A range with some air around the values; None where there are none."""
    if not values:
        return None
    low, high = min(values), max(values)
    air = (high - low) * 0.08 or max(abs(high) * 0.001, 0.01)
    return Range(low - air, high + air)


@dataclass
class Curves:
    """What the panels show of a run. All its bands have one range, so that they compare."""

    flights: list[tuple[int, Delivery]] = field(default_factory=list)
    means: list[tuple[int, float | None]] = field(default_factory=list)
    readings: list[tuple[int, Reading]] = field(default_factory=list)
    differences: Range | None = None
    degrees: Range | None = None


def curves(run: Run) -> Curves:
    found = Curves(means=mean_values(run))
    for place, step in enumerate(run.steps):
        one = step.delivery
        if one and one.kind == "flight" and one.outcome != "refused":
            found.flights.append((place, one))
        found.readings += [(place, reading) for reading in step.readings]
    values = [nanoseconds(one.difference) for _, one in found.flights if one.difference is not None]
    found.differences = range_of(values + [mean for _, mean in found.means if mean is not None])
    found.degrees = range_of([reading.value for _, reading in found.readings])
    return found


def mean_values(run: Run) -> list[tuple[int, float | None]]:
    """The event mean after each step of an event, None where it has no good difference and behind a group."""
    found: list[tuple[int, float | None]] = []
    for group in run.groups:
        if group.kind == "flight" and not group.is_hidden:
            for place in range(group.first, group.last + 1):
                count, values = means(run.steps[place].state, "flight")
                found.append((place, nanoseconds(values[0]) if count else None))
            found.append((group.last, None))
    return found


def round_values(shown: Range) -> list[float]:
    """Two to five round values within the range."""
    span = shown.high - shown.low
    power = 10.0 ** math.floor(math.log10(span))
    step = next(part * power for part in (0.2, 0.5, 1, 2) if span / (part * power) <= 5)
    first = math.ceil(shown.low / step)
    return [place * step for place in range(first, math.floor(shown.high / step) + 1)]


def value_words(value: float) -> str:
    words = f"{value:,.0f}" if abs(value) >= 10_000 else f"{value:,.6g}"
    return words.replace("-", "−")


def value_axis(canvas: Canvas, shown: Range, right: float) -> None:
    """Round values at the left, each with a faint line."""
    for value in round_values(shown):
        y = shown.y(value)
        canvas.line(0, y, right, y, "r" if abs(value) < 1e-12 else "g")
        canvas.text(GUTTER_TEXT, y + 3.5, value_words(value), "e")
    canvas.line(0, 4, 0, HIGH - 4, "w")


def hits(strip: Strip, canvas: Canvas, drawn: Curves) -> float:
    """Every delivered hit in its order, up before the moment and down behind it; late ones crossed, above the bound."""
    shown = [one for one in drawn.flights if strip.holds(one[0])]
    bounds = [one.bound for _, one in shown if one.bound]
    words = [word for _, one in shown for lists in one.lists for word in lists if word < NO_HIT]
    top = max(bounds, default=max(words, default=1)) or 1
    canvas.line(0, 0, 0, HIGH, "w")
    canvas.line(0, HIGH, strip.band.right, HIGH, "r")
    canvas.text(GUTTER_TEXT, HIGH + 1, "0 µs", "e")
    points = {"k": "", "o": "", "x": ""}
    apart = strip.band.slot / 7
    digits = 1 if strip.band.slot > DENSE.slot else 0
    for place, one in shown:
        up, down = one.lists
        for order, word in enumerate(up + down, -len(up)):
            x = strip.x(place) + (order + 1) * apart - 4 if order < 0 else strip.x(place) + order * apart + 4
            style, shape = hit_shape(word, one.bound or NO_HIT, top, "k" if order < 0 else "o")
            points[style] += f"M{round(x - 3, digits):g} {shape}"
    for style, path in points.items():
        canvas.path(path, style)
    if bounds:
        late_bound(strip, canvas, shown, top)
    return HIGH + 8


def hit_y(word: int, top: int) -> float:
    return HIGH - word / top * (HIGH - LATE_ZONE)


def hit_shape(word: int, bound: int, top: int, style: str) -> tuple[str, str]:
    """A triangle, or a cross for a late word, from its left edge on; and the style of its path."""
    if word < bound:
        y = hit_y(word, top)
        return style, f"{y + 3:.0f}h6l-3-5z" if style == "k" else f"{y - 3:.0f}h6l-3 5z"
    y = NO_HIT_Y if word >= NO_HIT else LATE_Y
    return "x", f"{y - 3:.0f}l6 6m0-6l-6 6"


def late_bound(strip: Strip, canvas: Canvas, shown: list[tuple[int, Delivery]], top: int) -> None:
    """The bound of each delivery as one dashed line, and its value where it changes."""
    points, was, edge = "", 0, 0.0
    for place, one in shown:
        bound = one.bound or top
        if bound != was:
            words = f"late from {bound // QUANTA_A_MICROSECOND:,} µs" if was or bound != top else ""
            y = hit_y(bound, top)
            points += f"M{number(edge)} {number(y)}"
            canvas.text(edge + 3, y + (11 if y < HIGH / 2 else -4), fit([words], strip.band.right - edge))
        edge, was = strip.x(place) + strip.band.slot / 2, bound
        points += f"H{number(edge)}"
    canvas.path(f"{points}H{number(strip.band.right)}", "d w")
    canvas.text(GUTTER_TEXT, LATE_ZONE + 4.5, f"{top // QUANTA_A_MICROSECOND:,} µs", "e")
    canvas.text(GUTTER_TEXT, LATE_Y + 3.5, "late", "e")
    canvas.text(GUTTER_TEXT, NO_HIT_Y + 3.5, "no hit", "e")


def mean_path(strip: Strip, drawn: Curves, shown: Range) -> str:
    """The mean as steps, from its first good difference to somewhat behind the last settling of its group."""
    points, is_on = "", False
    for place, value in drawn.means:
        if place > strip.band.last:
            return points + (f"H{number(strip.band.right)}" if is_on else "")
        if place < strip.band.first:
            points = "" if value is None else f"M0 {number(shown.y(value))}"
        elif is_on and value is None:
            points += f"H{number(min(strip.x(place) + MEAN_TAIL, strip.band.right))}"
        elif value is not None:
            x = number(strip.x(place))
            points += f"{f'H{x}V' if is_on else f'M{x} '}{number(shown.y(value))}"
        is_on = value is not None
    return points


def differences(strip: Strip, canvas: Canvas, drawn: Curves) -> float:
    """TOF_DIFF of each good difference as a dot, the event mean as a line."""
    shown = drawn.differences
    assert shown
    value_axis(canvas, shown, strip.band.right)
    canvas.path(mean_path(strip, drawn, shown), "d w")
    within = [(place, one.difference) for place, one in drawn.flights if strip.holds(place)]
    dots = [(place, quanta) for place, quanta in within if quanta is not None]
    for order, (place, quanta) in enumerate(dots):
        x, y = strip.x(place), shown.y(nanoseconds(quanta))
        canvas.dot(x, y, 3)
        if strip.band.slot > DENSE.slot:
            until = strip.x(dots[order + 1][0]) if order + 1 < len(dots) else None
            options = [number_of(quanta), f"{nanoseconds(quanta):.1f}".replace("-", "−")]
            canvas.text(x + 6, y + (-5 if y > 16 else 12), fit(options, strip.end(place, until) - x - 8))
    return HIGH + 4


def port_name(reading: Reading) -> str:
    return "T{}/T{}".format(*reading.ports) if reading.ports != (0, 0) else "other words"


def degrees(strip: Strip, canvas: Canvas, drawn: Curves) -> float:
    """Degrees as `replay` answers them: a mark for each pair of ports, and a line between those of one pair."""
    shown = drawn.degrees
    assert shown
    value_axis(canvas, shown, strip.band.right)
    names = sorted({port_name(reading) for _, reading in drawn.readings})
    for order, name in enumerate(names):
        of_name = [(place, reading) for place, reading in drawn.readings if port_name(reading) == name]
        within = [(place, reading) for place, reading in of_name if strip.holds(place)]
        points = [f"{number(strip.x(place))} {number(shown.y(reading.value))}" for place, reading in within]
        canvas.path("M" + "L".join(points) if len(points) > 1 else "")
        for place, reading in within:
            x, y = strip.x(place), shown.y(reading.value)
            canvas.mark(PORT_MARKS[order % len(PORT_MARKS)], x, y)
        for place, reading in within[:1]:
            x, y = strip.x(place), shown.y(reading.value)
            words = fit([f"{name} {reading.value:.3f} °C", name], strip.end(place) - x - 8)
            # below the mark where the line goes up from it
            rises = len(within) > 1 and within[1][1].value > reading.value
            canvas.text(x + 8, y + 12 if rises else y - 6, words)
    return HIGH + 4
