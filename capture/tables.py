"""Tables of times and bytes (CSV).

A row is a window; or, with a packet column (Logic 1), a byte of the window that the packet names; or, with a type column
(Logic 2), the beginning of a window, a byte of it, or its end.
"""

from __future__ import annotations

import csv
import re
from collections.abc import Iterable, Iterator
from dataclasses import dataclass, field
from fractions import Fraction

from windows import CaptureError, Clock, Window, read_bytes, shown

# Lines of an item that a table may have in place of bytes.
LINES = ("flight", "temperature", "int", "awaited", "regs", "show", "expect", "degrees", "record")

TIME = re.compile(r"[+-]?(?:[0-9]{1,15}(?:[.,][0-9]{0,30})?|[.,][0-9]{1,30})(?:[eE][+-]?[0-9]{1,2})?")
# Words that the name of a column of times in seconds may have.
SECONDS = {"start", "time", "timestamp", "in", "s", "sec", "seconds"}
# A byte that could be decimal too.
DECIMAL = re.compile(r"[1-9][0-9]")


@dataclass
class Table:
    """The names of the columns, the line that they stand in, and the rows below with their lines."""

    number: int
    header: list[str]
    rows: Iterator[tuple[int, list[str]]]
    decimals: str

    def column(self, *names: str) -> int:
        """The place of the column that has one of these names, -1 where there is none."""
        places = [place for place, name in enumerate(self.header) if set(names) & set(words_of(name))]
        if len(places) > 1:
            raise CaptureError(self.number, f"two columns for {names[0]}: {shown(', '.join(self.header))}")
        return places[0] if places else -1

    def time_column(self) -> int:
        place = self.column("time", "timestamp")
        if place >= 0 and not set(words_of(self.header[place])) <= SECONDS:
            raise CaptureError(self.number, f"not a time in seconds, as `time`, `Time [s]`: {shown(self.header[place])}")
        return place


def words_of(name: str) -> list[str]:
    return [word for word in re.split(r"[\W_]+", name.lower()) if word]


def rows_below(lines: Iterable[str], number: int, delimiter: str, width: int) -> Iterator[tuple[int, list[str]]]:
    """The rows below the first one, blank ones left out, each with as many cells as there are columns."""
    reader = csv.reader(lines, delimiter=delimiter, skipinitialspace=True, strict=True)
    try:
        for row in reader:
            cells = [cell.strip() for cell in row]
            if any(cells[width:]):
                raise CaptureError(number + reader.line_num, f"{len(cells)} cells, and the first row has {width}")
            if any(cells):
                yield number + reader.line_num, cells[:width] + [""] * (width - len(cells))
    except csv.Error as error:
        raise CaptureError(number + reader.line_num, f"no row of a table: {error}") from None


def open_table(number: int, head: str, lines: Iterable[str]) -> Table:
    """The table whose columns this line names."""
    bare = re.sub(r'"[^"]*"', "", head)
    marks = [mark for mark in ",;\t" if mark in bare]
    if len(marks) != 1:
        raise CaptureError(number, f"the first row has to name columns, parted by commas, semicolons or tabs: {shown(head)}")
    # A comma that parts cells is no decimal comma.
    decimals = "." if marks == [","] else ".,"
    try:
        header = next(csv.reader([head], delimiter=marks[0], skipinitialspace=True, strict=True))
    except csv.Error as error:
        raise CaptureError(number, f"no row of a table: {error}") from None
    return Table(number, header, rows_below(lines, number, marks[0], len(header)), decimals)


@dataclass
class Times:
    """Reads times in seconds, with one decimal mark throughout."""

    decimals: str
    clock: Clock = field(default_factory=Clock)

    def read(self, text: str, number: int) -> Fraction:
        marks = set(text) & {".", ","}
        if not TIME.fullmatch(text) or not marks <= set(self.decimals):
            raise CaptureError(number, f"no time in seconds: {shown(text)}")
        self.decimals = marks.pop() if marks else self.decimals
        return self.clock.reach(Fraction(text.replace(",", ".")), number)


@dataclass(frozen=True)
class Row:
    """The cells of a row that count. `mark` is its packet or its type."""

    number: int
    time: Fraction
    sent: str
    received: str | None
    mark: str = ""
    analyser: str = ""

    @property
    def is_line(self) -> bool:
        return bool(self.sent) and self.sent.split()[0] in LINES

    def line(self) -> Window:
        if not self.sent.isprintable():
            raise CaptureError(self.number, f"a control character in a line: {shown(self.sent)}")
        return Window(self.number, self.time, line=self.sent)

    def begin(self) -> Window:
        return Window(self.number, self.time, received=None if self.received is None else [])

    def add_to(self, window: Window) -> None:
        window.time = self.time
        window.sent += read_bytes(self.sent, self.number)
        if self.received is not None and window.received is not None:
            window.received += read_bytes(self.received, self.number)


def rows_of(table: Table, mark: int, analyser: int = -1) -> Iterator[Row]:
    """The rows, with what stands in the column that tells how they belong together, and the analyser's name."""
    time, sent, received = table.time_column(), table.column("mosi", "din"), table.column("miso", "dout")
    if time < 0 or sent < 0:
        raise CaptureError(table.number, "the first row has to name a time and a mosi column")
    times = Times(table.decimals)
    for number, cells in table.rows:
        # a column that is not there has place -1
        named = [*cells, ""]
        chip = cells[received] if received >= 0 else None
        moment = times.read(cells[time], number)
        yield Row(number, moment, cells[sent], chip, named[mark], named[analyser])


def hexadecimal(rows: Iterable[Row]) -> Iterator[Row]:
    """Passes an analyser's rows on, and refuses bytes that could all be decimal as well, as it exports them on demand."""
    first, certain = 0, False
    for row in rows:
        if row.sent and not row.is_line:
            first = first or row.number
            certain = certain or not all(DECIMAL.fullmatch(word) for word in row.sent.split())
        yield row
    if first and not certain:
        raise CaptureError(first, "bytes that may be decimal: export them as hexadecimal, with 0x")


def by_row(rows: Iterable[Row]) -> Iterator[Window]:
    for row in rows:
        window = row.line() if row.is_line else row.begin()
        if not row.is_line:
            row.add_to(window)
        yield window


def by_packet(rows: Iterable[Row]) -> Iterator[Window]:
    """Windows of rows of the same packet, one behind the other."""
    window: Window | None = None
    packet, seen = "", set()
    for row in rows:
        if window and (row.is_line or row.mark != packet):
            yield window
            window = None
        if row.is_line:
            yield row.line()
            continue
        if not row.mark:
            raise CaptureError(row.number, "no packet: nothing tells where a window ends; export with the enable line set")
        if not window:
            if row.mark in seen:
                raise CaptureError(row.number, f"packet {shown(row.mark)} comes back: nothing tells where its window ends")
            window, packet = row.begin(), row.mark
            seen.add(packet)
        row.add_to(window)
    if window:
        yield window


def by_enable(rows: Iterable[Row]) -> Iterator[Window]:
    """Windows of what stands between `enable` and `disable`, at the moment of the second."""
    window: Window | None = None
    for row in rows:
        if row.mark not in ("enable", "result", "disable") and not row.is_line:
            raise CaptureError(row.number, f"neither enable, result nor disable: {shown(row.mark)}")
        if row.mark in ("enable", "disable") and (row.sent or row.received):
            raise CaptureError(row.number, f"bytes in a row {row.mark}")
        if (row.mark == "enable" or row.is_line) and window:
            raise CaptureError(row.number, f"the window that began in line {window.number} has no end before this")
        if row.is_line:
            yield row.line()
        elif row.mark == "enable":
            window = row.begin()
        elif not window:
            raise CaptureError(row.number, f"{row.mark} outside a window: no enable before it")
        elif row.mark == "result":
            row.add_to(window)
        else:
            window.time = row.time
            yield window
            window = None
    if window:
        raise CaptureError(window.number, "a window without an end: no disable behind it")


def one_analyser(rows: Iterable[Row]) -> Iterator[Row]:
    """Passes the rows on, which have to be those of one analyser."""
    name = ""
    for row in rows:
        name = name or row.analyser
        if row.analyser not in ("", name):
            raise CaptureError(row.number, f"a second analyser, {shown(row.analyser)}: export the table of one alone")
        yield row


def read_table(table: Table) -> Iterator[Window]:
    """The windows of a table of bytes, as its columns tell how they are cut."""
    kind, packet = table.column("type"), table.column("packet")
    if kind >= 0:
        return by_enable(hexadecimal(one_analyser(rows_of(table, kind, table.column("name")))))
    if table.column("duration") >= 0:
        raise CaptureError(table.number, "a table of Logic 2 without its type column: nothing tells where a window ends")
    if packet >= 0:
        return by_packet(hexadecimal(rows_of(table, packet)))
    return by_row(rows_of(table, -1))
