"""Writing SVG: shapes, labels, and the marks of the legend."""

from __future__ import annotations

from collections.abc import Sequence
from xml.sax.saxutils import escape

LONGEST_LABEL = 80
SIZE = 10
# Labels are set in a font whose letters are all this wide, in parts of its size.
LETTER = 0.605

STYLE = """
text{font:10px "DejaVu Sans Mono",Menlo,Consolas,"Liberation Mono","Courier New",monospace;fill:#000;
paint-order:stroke;stroke:#fff;stroke-width:3px;stroke-linejoin:round}
.h{font:bold 15px "DejaVu Sans",Verdana,Arial,sans-serif}
.p{font:11px "DejaVu Sans",Verdana,Arial,sans-serif}
.b{font-weight:bold}
.i{fill:#fff;font-weight:bold;stroke:none}
.m{text-anchor:middle}.e{text-anchor:end}
path,line,rect,circle{fill:none;stroke:#000;stroke-width:1}
.w{stroke-width:2}
.k{fill:#000}.o{fill:#fff}
.a{fill:#ccc}
.g{stroke:#ddd}.r{stroke:#bbb}
.d{stroke-dasharray:5 3}
.v{stroke-dasharray:2 2;stroke:#777}
.x{stroke-width:2;stroke-linecap:round}
.z{fill:#fff;stroke:none}
.l{stroke:#fff;stroke-width:5}
.q{fill:#555;stroke:#555}
text.q{stroke:#fff}
"""

# Each mark around its own middle.
MARKS = {
    "start": '<path class="k" d="M-4-5L3 0L-4 5z"/>',
    "good": '<circle class="k" r="4.5"/>',
    "failed": '<path class="x" d="M-4-4L4 4M-4 4L4-4"/>',
    "expired": '<path class="o" d="M-5-6H5L-5 6H5z" stroke-width="1.5"/>',
    "dropped": '<path class="o" d="M0-6L5 0L0 6L-5 0z" stroke-width="1.5"/>',
    "awaited": '<path class="o" d="M-5-5L1 0L-5 5"/>',
    "refused": '<circle class="o" r="5"/><path d="M-3.5 3.5L3.5-3.5"/>',
    "write": '<rect class="k" x="-3.5" y="-3.5" width="7" height="7"/>',
    "read": '<path class="o" d="M-5-4H5L0 5z"/>',
    "command": '<path class="k" d="M-5 5H5L0-5z"/>',
    "ok": '<path class="x" d="M-4 0L-1 4L4-4"/>',
    "up": '<path class="k" d="M-3 3H3L0-3z"/>',
    "down": '<path class="o" d="M-3-3H3L0 3z"/>',
    "late": '<path class="x" d="M-3-3L3 3M-3 3L3-3"/>',
    "bar": '<rect class="a" x="-8" y="-5" width="16" height="10"/>',
    "box": '<rect class="k" x="-6" y="-6" width="12" height="12"/><text class="i m" y="4">1</text>',
    "dashes": '<path class="d w" d="M-9 0H9"/>',
    "cut": '<path d="M-3-7l2 4l-2 4l2 4l-2 3M2-7l2 4l-2 4l2 4l-2 3"/>',
}
LEGEND = (
    ("start", "started"),
    ("bar", "awaited"),
    ("good", "delivered, good"),
    ("failed", "delivered, failed"),
    ("expired", "expired"),
    ("dropped", "dropped by HALT or Reset"),
    ("awaited", "still awaited at the end"),
    ("command", "command"),
    ("write", "write"),
    ("read", "read"),
    ("refused", "refused"),
    ("ok", "expectation met"),
    ("box", "differs, or bad line; words below"),
    ("up", "hit up"),
    ("down", "hit down"),
    ("late", "late word or no hit"),
    ("dashes", "late bound; event mean"),
    ("cut", "long wait, cut"),
)


def number(value: float) -> str:
    """A coordinate in as few letters as show no difference."""
    text = f"{value:.1f}"
    return text[:-2] if text.endswith(".0") else text


def clipped(words: str, longest: int = LONGEST_LABEL) -> str:
    return words if len(words) <= longest else words[: longest - 1] + "…"


def text_width(words: str, size: float = SIZE) -> float:
    return len(words) * size * LETTER


def fit(options: Sequence[str], room: float, size: float = SIZE) -> str:
    """The first of the options that has room, or nothing."""
    return next((words for words in options if text_width(words, size) <= room), "")


class Canvas:
    """Shapes in the order in which they were drawn, and above them all labels."""

    def __init__(self) -> None:
        self.parts: list[str] = []
        self.labels: list[str] = []

    def __str__(self) -> str:
        return "".join(self.parts + self.labels)

    def text(self, x: float, y: float, words: str, style: str = "", turn: int = 0) -> None:
        if not words:
            return
        place = f'x="{number(x)}" y="{number(y)}"'
        if turn:
            place = f'transform="translate({number(x)} {number(y)})rotate({turn})"'
        style = f' class="{style}"' if style else ""
        self.labels.append(f"<text {place}{style}>{escape(clipped(words))}</text>\n")

    def dot(self, x: float, y: float, radius: float, style: str = "k") -> None:
        self.parts.append(f'<circle class="{style}" cx="{number(x)}" cy="{number(y)}" r="{number(radius)}"/>\n')

    def path(self, points: str, style: str = "") -> None:
        if points:
            style = f' class="{style}"' if style else ""
            self.parts.append(f'<path{style} d="{points}"/>\n')

    def line(self, x: float, y: float, to_x: float, to_y: float, style: str = "") -> None:
        self.path(f"M{number(x)} {number(y)}L{number(to_x)} {number(to_y)}", style)

    def rect(self, x: float, y: float, wide: float, high: float, style: str = "", title: str = "") -> None:
        style = f' class="{style}"' if style else ""
        size = f'x="{number(x)}" y="{number(y)}" width="{number(wide)}" height="{number(high)}"'
        self.parts.append(f"<rect{style} {size}{closing('rect', title)}\n")

    def mark(self, name: str, x: float, y: float, title: str = "") -> None:
        place = f'href="#{name}" x="{number(x)}" y="{number(y)}"'
        self.parts.append(f"<use {place}{closing('use', title)}\n")

    def place(self, other: Canvas, x: float, y: float) -> None:
        """Draws another canvas with its origin here."""
        opening = f'<g transform="translate({number(x)} {number(y)})">\n'
        if other.parts:
            self.parts += [opening, *other.parts, "</g>\n"]
        if other.labels:
            self.labels += [opening, *other.labels, "</g>\n"]


def closing(tag: str, title: str) -> str:
    """The end of an element, with the words that a browser shows beside the pointer."""
    return f"><title>{escape(clipped(title))}</title></{tag}>" if title else "/>"


def definitions() -> str:
    """Style and marks, once for a document."""
    marks = "".join(f'<g id="{name}">{shape}</g>\n' for name, shape in MARKS.items())
    return f"<style>{STYLE}</style>\n<defs>\n{marks}</defs>\n"


def legend(canvas: Canvas, width: float) -> float:
    """The marks and their names, in as many lines as they need; answers the height."""
    x, y = 0.0, 8.0
    for name, words in LEGEND:
        wide = 22 + text_width(words) + 14
        if x + wide > width:
            x, y = 0, y + 17
        canvas.mark(name, x + 9, y)
        canvas.text(x + 22, y + 3.5, words)
        x += wide
    return y + 12


def document(canvas: Canvas, width: float, height: float, inner: str = "") -> str:
    """An SVG of this size, on white."""
    size = f'width="{number(width)}" height="{number(height)}" viewBox="0 0 {number(width)} {number(height)}"'
    paper = f'<rect class="z" width="{number(width)}" height="{number(height)}"/>'
    return f'<svg xmlns="http://www.w3.org/2000/svg" {size}>\n{inner}{paper}\n{canvas}</svg>\n'
