"""The picture of one item: heading, bands, and below each band the words of what differs."""

from __future__ import annotations

from collections.abc import Callable

import overview
import panels
import rows
from registers import has_bit
from run import Check, Run
from rows import Strip
from scale import Band, Gap, Waits, lay, seconds
from svg import Canvas, clipped, fit, number, text_width

WIDTH = 1108.0
GUTTER = 146.0
ROOM = 910.0
LONGEST_NOTE = 78
INDENT = 18
MOST_WORDS = 24
MOST_WORDS_OF_ALL = 4000
# From this number of bands on they are shown in one strip as well.
MANY_BANDS = 4


def plural(number_of: int, word: str) -> str:
    return f"{number_of:,} {word}" if number_of == 1 else f"{number_of:,} {word}s"


def kind_summary(run: Run, kind: str) -> str:
    outcomes = [(run.count(kind, name), name) for name in ("good", "failed", "expired", "dropped", "awaited")]
    told = ", ".join(f"{count:,} {name}" for count, name in outcomes if count)
    return f"{kind}: {run.count(kind):,} started" + (f", {told}" if told else "")


def refusals(run: Run) -> int:
    return sum(bool(node.answer and node.answer.refused) for node in run.nodes)


def summary(run: Run) -> list[str]:
    """What happened, in a few lines."""
    differs, bad = len(run.checks("differs")), len(run.checks("bad"))
    told = [run.file, f"{run.ticks:,} ticks, {seconds(run.ticks)}; {plural(refusals(run), 'call')} refused"]
    told += [kind_summary(run, kind) for kind in ("flight", "temperature") if run.count(kind)]
    wrong = [f"{plural(run.expected, 'expected word')}, {plural(differs, 'line')} differing"] if run.expected else []
    wrong += [plural(bad, "bad line")] if bad else []
    return told + (["; ".join(wrong)] if wrong else [])


def note_lines(number_of: int, check: Check, most: int) -> list[str]:
    """The words of what differs, with its number and line, in lines that a column holds."""
    words = check.words[:most]
    if len(check.words) > most:
        words.append(f"and {len(check.words) - most} more words")
    found = [f"{number_of}  line {check.line.number}: {'bad line, ' if check.sort == 'bad' else ''}"]
    for place, part in enumerate(words):
        part += "; " if place + 1 < len(words) else ""
        if place and len(found[-1] + part) > LONGEST_NOTE:
            found.append("")
        found[-1] += part
    return [clipped(line.strip(), LONGEST_NOTE) for line in found]


def draw_notes(canvas: Canvas, notes: list[list[str]]) -> float:
    """The notes in two columns; answers the height."""
    rows_of_all = sum(map(len, notes))
    x = y = high = 0.0
    done = 0
    for lines in notes:
        if x == 0 and done * 2 >= rows_of_all:
            x, y = WIDTH / 2, 0
        for place, words in enumerate(lines):
            canvas.text(x + (INDENT if place else 0), y + 12, words, "" if place else "b")
            y += 13
        done += len(lines)
        high = max(high, y)
    return high + 8 if notes else 0


def zigzag(x: float, high: float) -> str:
    points = f"M{number(x)} 0"
    for place in range(int(high / 6)):
        points += f"l{2 if place % 2 == 0 else -2} 6"
    return points


def tear(canvas: Canvas, gap: Gap, hidden: int, high: float) -> None:
    """The mark of a cut, through all rows, and how much was cut."""
    canvas.rect(gap.middle - 3, 0, 6, high, "z")
    canvas.path(zigzag(gap.middle - 4, high) + zigzag(gap.middle + 2, high))
    room = gap.right - gap.left + 30
    words = fit([f"cut {seconds(gap.ticks)}", f"cut {gap.ticks / 32768:.4g} s", "cut"], room)
    for place, label in enumerate([words, fit([f"{hidden:,} starts", f"{hidden:,}"], room) if hidden else ""]):
        if label:
            wide = text_width(label) + 4
            canvas.rect(gap.middle - wide / 2, 26 + 13 * place, wide, 12, "z")
            canvas.text(gap.middle, 35.5 + 13 * place, label, "m b")


class BandDrawing:
    """One band with all its rows."""

    def __init__(self, run: Run, band: Band, first_note: int, drawn: panels.Curves):
        self.strip = Strip(run, band, ROOM)
        self.first_note = first_note
        self.wrong: list[Check] = []
        self.rows: list[tuple[str, Canvas, float]] = []
        strip = self.strip
        self.add("time", lambda canvas: rows.axis(strip, canvas))
        self.add("bus", lambda canvas: rows.bus(strip, canvas))
        self.add("flight", lambda canvas: rows.measurements(strip, canvas, "flight"))
        self.add("temperature", lambda canvas: rows.measurements(strip, canvas, "temperature"))
        self.add("INT", lambda canvas: rows.level(strip, canvas, lambda state: state.interrupt))
        self.add("AF", lambda canvas: rows.level(strip, canvas, lambda state: has_bit(state.status, "AF")))
        self.add("status reads", lambda canvas: rows.status(strip, canvas))
        self.add("expectations", self.expectations)
        if any(strip.holds(place) for place, _ in drawn.flights):
            self.add("hits, µs", lambda canvas: panels.hits(strip, canvas, drawn))
        if drawn.differences and any(strip.holds(place) for place, _ in drawn.means + drawn.flights):
            self.add("differences, ns", lambda canvas: panels.differences(strip, canvas, drawn))
        if any(strip.holds(place) for place, _ in drawn.readings):
            self.add("degrees, °C", lambda canvas: panels.degrees(strip, canvas, drawn))

    def add(self, name: str, draw: Callable[[Canvas], float]) -> None:
        canvas = Canvas()
        self.rows.append((name, canvas, draw(canvas)))

    def expectations(self, canvas: Canvas) -> float:
        high, self.wrong = rows.expectations(self.strip, canvas, self.first_note)
        return high

    def draw(self, canvas: Canvas, most_words: int) -> float:
        """Guides, rows and cuts; then the notes. Answers the height."""
        high = sum(row[2] for row in self.rows)
        body = Canvas()
        self.guides(body, self.rows[0][2], high)
        y = 0.0
        for _, row, row_high in self.rows:
            body.place(row, 0, y)
            y += row_high
        for gap in self.strip.band.gaps:
            if gap.is_cut:
                tear(body, gap, self.strip.run.steps[gap.step].hidden, high)
        canvas.place(body, GUTTER, 0)
        self.names(canvas)
        notes = Canvas()
        lines = [note_lines(place, check, most_words) for place, check in enumerate(self.wrong, self.first_note)]
        low = draw_notes(notes, lines)
        canvas.place(notes, 0, high + 4)
        return high + low + 18

    def guides(self, canvas: Canvas, top: float, high: float) -> None:
        last, points = None, ""
        for place, step in self.strip.steps():
            if step.tick != last:
                points += f"M{number(self.strip.x(place))} {number(top)}V{number(high)}"
            last = step.tick
        canvas.path(points, "g")

    def names(self, canvas: Canvas) -> None:
        y = 0.0
        for name, _, high in self.rows:
            head, _, unit = name.partition(", ")
            base = 24.0 if name == "time" else high / 2 if unit else high - 8
            canvas.text(0, y + base, head, "p")
            canvas.text(0, y + base + 13, unit, "p")
            y += high
        canvas.text(0, 49, "chip's clock", "p")


def bands_of(run: Run) -> list[Band]:
    """Bands that end, where they can, while nothing is awaited."""
    forced = frozenset(place for place, step in enumerate(run.steps) if step.hidden)
    idle = frozenset(place + 1 for place, step in enumerate(run.steps) if step.state.awaited == (False, False))
    return lay([step.tick for step in run.steps], ROOM, Waits(forced, idle))


def draw_run(run: Run, canvas: Canvas) -> float:
    """The whole picture of an item; answers its height."""
    canvas.text(0, 16, f"item {run.name}", "h")
    y = 32.0
    for words in summary(run):
        canvas.text(0, y, words, "p")
        y += 15
    y += 6
    drawn = panels.curves(run)
    bands = bands_of(run)
    if len(bands) >= MANY_BANDS:
        part = Canvas()
        high = overview.draw(run, part, drawn, bands, ROOM, GUTTER)
        canvas.place(part, 0, y)
        y += high
    wrong = len(run.checks("differs")) + len(run.checks("bad"))
    most_words = max(2, min(MOST_WORDS, MOST_WORDS_OF_ALL // max(wrong, 1)))
    note = 1
    for order, band in enumerate(bands, 1):
        drawing = BandDrawing(run, band, note, drawn)
        part = Canvas()
        if len(bands) >= MANY_BANDS:
            part.text(0, 8, f"band {order}", "p b")
        high = drawing.draw(part, most_words)
        canvas.place(part, 0, y)
        y += high
        note += len(drawing.wrong)
    return y
