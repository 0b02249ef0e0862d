"""The whole of a long item in one strip: outcomes, what differs, differences and means."""

from __future__ import annotations

from collections.abc import Callable

from panels import Curves, Range, value_words
from registers import nanoseconds
from run import Run
from scale import Band
from svg import Canvas, number

PLOT = 70.0
LANE = 13.0
OUTCOMES = ("good", "failed", "expired", "dropped")


def places(bands: list[Band], room: float) -> Callable[[int], float]:
    """Where a step stands when all bands are one strip of this width."""
    starts, total = [], 0.0
    for band in bands:
        starts.append(total)
        total += band.right
    firsts = [band.first for band in bands]

    def x(step: int) -> float:
        place = max(number for number, first in enumerate(firsts) if first <= step)
        return (starts[place] + bands[place].x(step)) * room / total

    return x


def lanes(run: Run) -> list[tuple[str, set[int]]]:
    """Rows of strokes: their names, and the steps that have one. Rows without any are left out."""
    found: list[tuple[str, set[int]]] = []
    for kind in ("flight", "temperature"):
        shown = [one for one in run.measurements if one.kind == kind and not one.is_hidden]
        for outcome in OUTCOMES:
            found.append((f"{kind} {outcome}", {one.last for one in shown if one.outcome == outcome}))
    wrong = {place for place, step in enumerate(run.steps) if any(check.sort != "ok" for check in step.checks)}
    found.append(("differs or bad", wrong))
    return [(name, steps) for name, steps in found if steps]


def plot(canvas: Canvas, drawn: Curves, shown: Range, x: list[float]) -> None:
    """Differences as dots, means as a line."""
    dots = ""
    for place, one in drawn.flights:
        if one.difference is not None:
            y = shown.y(nanoseconds(one.difference), PLOT)
            dots += f"M{number(x[place] - 1)} {number(y - 1)}h2v2h-2z"
    canvas.path(dots, "q")
    points, is_on = "", False
    for place, value in drawn.means:
        if value is not None:
            points += f"{'L' if is_on else 'M'}{number(x[place])} {number(shown.y(value, PLOT))}"
        is_on = value is not None
    canvas.path(points, "l")
    canvas.path(points, "w")
    canvas.line(0, 4, 0, PLOT - 4, "w")
    for value in (shown.low, shown.high):
        canvas.text(-6, shown.y(value, PLOT) + 3.5, value_words(round(value, 3)), "e")


def draw(run: Run, canvas: Canvas, drawn: Curves, bands: list[Band], room: float, gutter: float) -> float:
    """Answers the height. The names of the rows stand in the gutter."""
    at = places(bands, room)
    x = [at(step) for step in range(len(run.steps))]
    body = Canvas()
    canvas.text(0, 10, "band", "p")
    for order, band in enumerate(bands):
        body.line(x[band.first], 0, x[band.first], 14, "r")
        if order % max(len(bands) // 20, 1) == 0:
            body.text(x[band.first] + 2, 10, str(order + 1))
    y = 16.0
    for name, steps in lanes(run):
        strokes = "".join(f"M{number(x[step])} {number(y + 2)}v{LANE - 4:g}" for step in sorted(steps))
        body.line(0, y + LANE - 0.5, room, y + LANE - 0.5, "g")
        body.path(strokes, "w" if "good" not in name else "")
        canvas.text(0, y + 10, name)
        y += LANE
    if drawn.differences:
        row = Canvas()
        plot(row, drawn, drawn.differences, x)
        body.place(row, 0, y)
        canvas.text(0, y + PLOT / 2, "differences, ns")
        y += PLOT
    canvas.place(body, gutter, 0)
    return y + 22
