"""The rows of a band: time, bus, the two kinds, INT and AF, status reads, expectations.

Each function draws into a canvas of its own, whose origin is the row's upper left corner, and answers its height.
"""

from __future__ import annotations

import math
from collections.abc import Callable
from dataclasses import dataclass
from itertools import groupby

from registers import State, bit_names, clock_text, nanoseconds
from run import Check, Group, Measurement, Run, Step
from scale import DENSE, Band, seconds
from svg import SIZE, Canvas, clipped, fit, number, text_width

SLANT = 40
LONGEST_SLANTED = 38
APART = 6
# How far labels may go beyond the room, and to either side of a cut with two lines of words.
RIGHT = 50
CUT_LABEL = 50


@dataclass
class Strip:
    """One band of a run. `room` is the width up to which things may be drawn."""

    run: Run
    band: Band
    room: float

    def steps(self) -> list[tuple[int, Step]]:
        return [(place, self.run.steps[place]) for place in range(self.band.first, self.band.last + 1)]

    def x(self, place: int) -> float:
        return self.band.x(place)

    def holds(self, place: int) -> bool:
        return self.band.first <= place <= self.band.last

    def end(self, place: int, until: float | None = None) -> float:
        """How far a label may go that begins behind this step: up to another thing, a cut, or the picture's edge."""
        cuts = [gap.middle for gap in self.band.gaps if gap.is_cut and gap.step > place]
        return min([self.room + RIGHT if until is None else until, *cuts]) - APART

    def before(self) -> Step:
        """The step before the band, or its own first."""
        return self.run.steps[max(self.band.first - 1, 0)]


def moment(step: Step, words: str) -> str:
    return clipped(f"{seconds(step.tick)}, tick {step.tick:,}: {words}")


def axis(strip: Strip, canvas: Canvas) -> float:
    """Elapsed time at each moment, the waits that are cut, and the chip's calendar below."""
    base, free = 20.0, -100.0
    edge = 0.0
    for gap in strip.band.gaps:
        if gap.is_cut:
            canvas.line(edge, base, gap.middle - 3, base, "w")
            edge = gap.middle + 3
    canvas.line(edge, base, strip.band.right, base, "w")
    for tick, together in groupby(strip.steps(), lambda step: step[1].tick):
        places = [strip.x(place) for place, _ in together]
        if len(places) > 1:
            canvas.line(places[0], base + 4, places[-1], base + 4, "r w")
        canvas.line(places[0], base - 5, places[0], base + 5, "w")
        words = seconds(tick)
        half = text_width(words) / 2
        if places[0] - half > free and places[0] + half < strip.room + RIGHT:
            canvas.text(places[0], base - 9, words, "m b")
            free = places[0] + half + APART
    calendar(strip, canvas, base + 29)
    return base + 34


def calendar(strip: Strip, canvas: Canvas, y: float) -> None:
    """The calendar where it was written, behind each cut, and at the band's start."""
    cuts = {gap.step for gap in strip.band.gaps if gap.is_cut}
    written = {place for place, step in strip.steps() if step.transaction and step.transaction.writes_clock}
    taken = []
    for gap in strip.band.gaps:
        half = CUT_LABEL if strip.run.steps[gap.step].hidden else 3
        taken += [(gap.middle - half, gap.middle + half)] if gap.is_cut else []
    for place in [*sorted(written), *sorted(cuts), strip.band.first]:
        words = clock_text(strip.run.steps[place].state)
        x, wide = strip.x(place), text_width(words)
        left = min(x + 4, strip.room + RIGHT - wide)
        if any(left < end and left + wide > start for start, end in taken):
            continue
        taken.append((left - APART, left + wide + APART))
        canvas.line(x, y - 14, x, y - 9 if left < x else y, "v")
        canvas.text(left, y, words, "q")


def bus(strip: Strip, canvas: Canvas) -> float:
    """A mark for each transaction, with slanted words above it where there is room."""
    sent = [(strip.x(place), step) for place, step in strip.steps() if step.transaction]
    labels = chosen_labels(sent)
    longest = max((text_width(words) for words in labels.values()), default=0)
    base = longest * math.sin(math.radians(SLANT)) + 16
    canvas.line(0, base, strip.band.right, base, "r")
    for x, step in sent:
        assert step.transaction
        transaction = step.transaction
        title = f"{transaction.line.text} -> {transaction.answer.text}"
        if len(transaction.spans) > 1:
            title = f"{transaction.label}: {' '.join(transaction.spans)}"
        canvas.mark("refused" if transaction.refused else transaction.sort, x, base, moment(step, title))
        if x in labels:
            canvas.text(x + 2, base - 8, labels[x], "", -SLANT)
    return base + 10


def chosen_labels(sent: list[tuple[float, Step]]) -> dict[float, str]:
    """The words that have room: refusals first, then commands, then the others."""
    apart = SIZE / math.sin(math.radians(SLANT))
    found: dict[float, str] = {}

    def rank(step: Step) -> int:
        assert step.transaction
        return 0 if step.transaction.refused else 1 if step.transaction.sort == "command" else 2

    for wanted in range(3):
        for x, step in sent:
            if rank(step) == wanted and all(abs(x - other) >= apart for other in found):
                assert step.transaction
                found[x] = clipped(step.transaction.label, LONGEST_SLANTED)
    return found


def number_of(quanta: int) -> str:
    return f"{nanoseconds(quanta):,.4f}".rstrip("0").rstrip(".").replace("-", "−")


def group_labels(group: Group) -> list[str]:
    """What is said of a group, from long to short."""
    size = f" of {group.size}" if group.size else ""
    head = f"group {group.number}: {group.settled}{size} settled, {group.good} good"
    short = f"{group.good}{size} good"
    if not group.good:
        return [head, f"group {group.number}: {short}", short, f"{group.good}/{group.size}"]
    if group.kind == "flight":
        mean = f"mean {number_of(group.means[0])} ns"
    else:
        ports = " ".join(f"{nanoseconds(mean) / 1000:.3f}" for mean in group.means)
        mean = f"means {ports} µs"
    return [f"{head}, {mean}", f"{short}, {mean}", mean, short, f"{group.good}/{group.size}"]


def is_within(strip: Strip, one: Group | Measurement) -> bool:
    return not one.is_hidden and one.first <= strip.band.last and one.last >= strip.band.first


def groups(strip: Strip, canvas: Canvas, kind: str) -> float:
    """A bracket over each group of an event, with its count and its means."""
    shown = [
        group
        for group in strip.run.groups
        if group.kind == kind and is_within(strip, group)
    ]
    if not any(group.kind == kind for group in strip.run.groups):
        return 0
    for place, group in enumerate(shown):
        left, right = strip.x(group.first), strip.x(group.last)
        if group.first < strip.band.first:
            left = 0
        points = f"M{number(left)} 22V17H{number(right)}V22" if left else f"M0 17H{number(right)}V22"
        canvas.path(points, "w")
        until = strip.x(shown[place + 1].first) if place + 1 < len(shown) else None
        end = strip.end(max(group.first, strip.band.first), until)
        canvas.text(left, 12, fit(group_labels(group), end - left))
    return 22


def measurements(strip: Strip, canvas: Canvas, kind: str) -> float:
    """A bar from the start of each measurement to its end, where a mark tells the outcome."""
    top = groups(strip, canvas, kind)
    base = top + 12
    canvas.line(0, base + 6, strip.band.right, base + 6, "r")
    for one in strip.run.measurements:
        if one.kind != kind or not is_within(strip, one):
            continue
        left, right = strip.x(one.first), strip.x(one.last)
        canvas.rect(left, base - 6, max(right - left, 1), 12, "a")
        if one.first >= strip.band.first:
            title = moment(strip.run.steps[one.first], f"{kind} started")
            canvas.mark("start", left + 4, base, title if strip.band.slot > DENSE.slot else "")
        if one.last <= strip.band.last:
            end = strip.run.steps[one.last]
            canvas.mark(one.outcome, right, base, moment(end, f"{kind} {one.outcome}"))
    refusals(strip, canvas, kind, base)
    if kind == "temperature":
        faults(strip, canvas, base)
    return base + 12


def refusals(strip: Strip, canvas: Canvas, kind: str, base: float) -> None:
    """Deliveries that were turned away, with number and word."""
    for place, step in strip.steps():
        if step.delivery and step.delivery.kind == kind and step.delivery.outcome == "refused":
            x = strip.x(place)
            words = "no " + step.delivery.refusal
            canvas.mark("refused", x, base, moment(step, f"{kind} delivery: {words}"))
            canvas.text(x + 7, base + 3.5, fit([words, words[:5].strip()], free_right(strip, place, kind)))


def free_right(strip: Strip, place: int, kind: str) -> float:
    """The room to the right of a mark of this row, up to the next one."""
    x = strip.x(place)
    for later in range(place + 1, strip.band.last + 1):
        step = strip.run.steps[later]
        delivered = step.delivery and step.delivery.kind == kind
        started = step.transaction and kind in step.transaction.answer.started
        if delivered or started or any(report.kind == kind for report in step.reports):
            return strip.end(place, strip.x(later)) - x - 10
    return strip.end(place) - x - 8


def faults(strip: Strip, canvas: Canvas, base: float) -> None:
    """The ports that a failed delivery left without a time: open FFFFh FFFFh, short 0000h 0000h."""
    for place, step in strip.steps():
        if step.delivery and step.delivery.kind == "temperature" and step.delivery.outcome == "failed":
            words = port_faults(step.state)
            options = [" ".join(words), words[0] if len(words) == 1 else f"{len(words)} ports"] if words else [""]
            canvas.text(strip.x(place) + 8, base + 3.5, fit(options, free_right(strip, place, "temperature")))


def port_faults(state: State) -> list[str]:
    found = []
    for port in range(1, 5):
        quanta = state.pair(0xE7 + 2 * (port - 1))
        if quanta in (0, 0xFFFFFFFF):
            found.append(f"T{port} {'open' if quanta else 'short'}")
    return found


def level(strip: Strip, canvas: Canvas, is_high: Callable[[State], bool]) -> float:
    """A line that is up, and filled below, while something holds."""
    low, high = 17, 4
    was = is_high(strip.before().state)
    points = f"M0 {high if was else low}"
    areas = ["M0 17V4"] if was else []
    for place, step in strip.steps():
        now = is_high(step.state)
        if now != was:
            x = number(strip.x(place))
            points += f"H{x}V{high if now else low}"
            areas.append(f"M{x} {low}V{high}" if now else f"H{x}V{low}z")
            was = now
    right = number(strip.band.right)
    if was:
        areas.append(f"H{right}V{low}z")
    canvas.path("".join(areas), "a")
    canvas.path(f"{points}H{right}", "w")
    return 22


def status(strip: Strip, canvas: Canvas) -> float:
    """Reads of FEh, which clear it: the word that was read and its bits."""
    reads = [(place, step) for place, step in strip.steps() if step.status_read is not None]
    canvas.line(0, 12, strip.band.right, 12, "r")
    for number_read, (place, step) in enumerate(reads):
        assert step.status_read is not None
        x = strip.x(place)
        word, names = f"{step.status_read:04X}", bit_names(step.status_read)
        canvas.mark("read", x, 12, moment(step, f"status read {word}: {names}"))
        until = strip.x(reads[number_read + 1][0]) - 4 if number_read + 1 < len(reads) else None
        words = fit([f"{word} {names}", names, word], strip.end(place, until) - x - 8)
        canvas.text(x + 8, 15.5, words)
    return 24


def expectations(strip: Strip, canvas: Canvas, first: int) -> tuple[float, list[Check]]:
    """Ticks for what is met, a box with its number for what differs or is bad; answers those too, in order."""
    canvas.line(0, 12, strip.band.right, 12, "r")
    found: list[Check] = []
    flags: list[tuple[float, int, int]] = []
    taken = [gap.middle for gap in strip.band.gaps if gap.is_cut]
    for place, step in strip.steps():
        wrong = [check for check in step.checks if check.sort != "ok"]
        if wrong:
            flags.append((strip.x(place), first + len(found), first + len(found) + len(wrong) - 1))
        elif step.checks:
            canvas.mark("ok", strip.x(place), 12, moment(step, f"{len(step.checks)} met"))
        if step.checks:
            taken.append(strip.x(place))
        found += wrong
    for x, _, _ in flags:
        canvas.line(x, 0, x, 5, "w")
    for x, low, high in joined(flags):
        right = draw_box(canvas, x - 7, low, high)
        if low == high and len(found[low - first].words) == 1:
            beside(strip, canvas, found[low - first].words[0], (x - 7, right), taken)
    return 26, found


def beside(strip: Strip, canvas: Canvas, words: str, box: tuple[float, float], taken: list[float]) -> None:
    """The words to the right of a box, or to its left, where there is room up to the places taken."""
    wide = text_width(words) + 4
    if min([x for x in taken if x > box[1]] + [strip.room + RIGHT]) - box[1] > wide + 2 * APART:
        canvas.text(box[1] + 4, 16, words, "b")
        taken.append(box[1] + wide)
    elif box[0] - max([x for x in taken if x < box[0]] + [0]) > wide + 2 * APART:
        canvas.text(box[0] - 4, 16, words, "b e")
        taken.append(box[0] - wide)


def box_words(low: int, high: int) -> str:
    return str(low) if low == high else f"{low}-{high}"


def joined(flags: list[tuple[float, int, int]]) -> list[tuple[float, int, int]]:
    """The boxes' places and numbers; those that would overlap are one."""
    found: list[tuple[float, int, int]] = []
    for x, low, high in flags:
        if found and x < found[-1][0] + text_width(box_words(*found[-1][1:])) + 12:
            found[-1] = (found[-1][0], found[-1][1], high)
        else:
            found.append((x, low, high))
    return found


def draw_box(canvas: Canvas, x: float, low: int, high: int) -> float:
    """A box with numbers; answers its right edge."""
    words = box_words(low, high)
    canvas.rect(x, 5, text_width(words) + 8, 15, "k")
    canvas.text(x + 4, 16, words, "i")
    return x + text_width(words) + 8
