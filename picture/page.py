"""Files: an SVG with the items below one another, or an HTML page with a list of them before."""

from __future__ import annotations

from html import escape

import svg
from run import Run
from sheet import WIDTH, draw_run, kind_summary, refusals

MARGIN = 16.0
PAGE = """<!DOCTYPE html>
<html lang="en">
<head>
<meta charset="utf-8">
<title>{title}</title>
<style>
body{{font:13px "DejaVu Sans",Verdana,Arial,sans-serif;margin:16px;background:#fff;color:#000}}
table{{border-collapse:collapse}}
th,td{{text-align:left;padding:2px 12px 2px 0;border-bottom:1px solid #bbb;vertical-align:top}}
svg{{display:block;margin-top:20px}}
@media print{{svg{{break-inside:avoid}}}}
</style>
</head>
<body>
<h1>{title}</h1>
{body}</body>
</html>
"""


def drawn(run: Run) -> tuple[svg.Canvas, float]:
    part = svg.Canvas()
    return part, draw_run(run, part)


def svg_text(runs: list[Run]) -> str:
    """All runs in one SVG, under one legend."""
    body = svg.Canvas()
    top = svg.Canvas()
    y = svg.legend(top, WIDTH)
    body.place(top, 0, 0)
    for run in runs:
        part, high = drawn(run)
        body.place(part, 0, y + 10)
        y += high + 10
    whole = svg.Canvas()
    whole.place(body, MARGIN, MARGIN)
    return svg.document(whole, WIDTH + 2 * MARGIN, y + 2 * MARGIN, svg.definitions())


def kind_cell(run: Run, kind: str) -> str:
    return kind_summary(run, kind).partition(": ")[2] if run.count(kind) else "none"


def row(run: Run, number: int) -> str:
    """The line of an item in the list."""
    differs, bad = len(run.checks("differs")), len(run.checks("bad"))
    wrong = ", ".join(words for words in (f"{differs} differ" * bool(differs), f"{bad} bad" * bool(bad)) if words)
    cells = [
        f'<a href="#item{number}">{escape(svg.clipped(run.name))}</a>',
        escape(svg.clipped(run.file)),
        f"{run.ticks:,}",
        *(kind_cell(run, kind) for kind in ("flight", "temperature")),
        str(refusals(run)),
        f"<b>{wrong}</b>" if wrong else "none",
    ]
    return "<tr>" + "".join(f"<td>{cell}</td>" for cell in cells) + "</tr>\n"


def html_text(runs: list[Run]) -> str:
    """A list of the items, the legend, and each item's picture."""
    names = ("Item", "File", "Ticks", "Flight", "Temperature", "Refused", "Lines that differ or are bad")
    body = "<table>\n<tr>" + "".join(f"<th>{name}</th>" for name in names) + "</tr>\n"
    body += "".join(row(run, number) for number, run in enumerate(runs, 1)) + "</table>\n"
    top = svg.Canvas()
    body += svg.document(top, WIDTH, svg.legend(top, WIDTH), svg.definitions())
    for number, run in enumerate(runs, 1):
        part, high = drawn(run)
        whole = svg.Canvas()
        whole.place(part, 4, 0)
        body += f'<div id="item{number}">\n{svg.document(whole, WIDTH + 2 * MARGIN, high)}</div>\n'
    title = escape(svg.clipped(f"Run of {runs[0].name}" if len(runs) == 1 else f"Runs of {len(runs)} items"))
    return PAGE.format(title=title, body=body)
