"""Runs as a value change dump: one unit of its time is one tick.

A start, a good and a failed measurement are pulses of one tick; what is awaited, INT and the status bits are levels.
Changes within one tick stand in their order, so that a viewer that shows them all does.
"""

from __future__ import annotations

import re
from collections import defaultdict

import item
from asking import Node
from registers import BITS, State, has_bit
from run import Run

HEAD = """$comment One unit of time is one tick of 32,768 Hz, 30.517578125 us, whatever the timescale below says: $end
$comment the format has no such timescale. Pulses of started, good and failed last one tick. $end
$version replay --vcd $end
$timescale 1 us $end
"""
PULSES = tuple(f"{what}_{kind}" for kind in item.KINDS for what in ("started", "good", "failed"))
LEVELS = tuple(f"awaited_{kind}" for kind in item.KINDS) + ("INT",) + tuple(BITS)
FIRST_CODE, CODES = 33, 94


def code(number: int) -> str:
    """The short name of a signal."""
    text = chr(FIRST_CODE + number % CODES)
    return text if number < CODES else code(number // CODES - 1) + text


def levels(state: State) -> dict[str, bool]:
    found = {f"awaited_{kind}": awaited for kind, awaited in zip(item.KINDS, state.awaited)}
    found["INT"] = state.interrupt
    return found | {name: has_bit(state.status, name) for name in BITS}


def pulses(node: Node) -> set[str]:
    """What a node started, delivered or failed."""
    found = {f"{report.what}_{report.kind}" for report in node.reports}
    if node.answer and not node.ticks and node.text and not node.fresh:
        found |= {f"started_{kind}" for kind in node.answer.started}
        if node.line.word in item.KINDS and not node.answer.refused:
            found.add(f"{node.answer.words[1]}_{node.line.word}")
    return found


def changes(nodes: list[Node]) -> dict[int, list[tuple[str, bool]]]:
    """The changes of each tick, in their order. Pulses that follow each other tick by tick are one."""
    found: dict[int, list[tuple[str, bool]]] = defaultdict(list)
    high: dict[str, set[int]] = {name: set() for name in PULSES}
    tick = 0
    was: dict[str, bool] = {}
    for node in nodes:
        tick += node.ticks
        for name in pulses(node):
            high[name].add(tick)
        now = levels(node.after)
        found[tick] += [(name, now[name]) for name in LEVELS if now[name] != was.get(name)]
        was = now
    for name, ticks in high.items():
        found[0].insert(0, (name, 0 in ticks))
        for at in sorted(ticks):
            if at and at - 1 not in ticks:
                found[at].append((name, True))
            if at + 1 not in ticks:
                found[at + 1].append((name, False))
    return {at: several for at, several in found.items() if several or at == tick}


def scope_name(run: Run, number: int, count: int) -> str:
    """A name of letters, digits and underscores; numbered where there are several items."""
    name = re.sub("[^A-Za-z0-9_]+", "_", run.name).strip("_")[:60] or "item"
    return f"item_{number}_{name}" if count > 1 else name


def vcd_text(runs: list[Run]) -> str:
    """All runs, each in a scope of its own that begins at time 0."""
    lines: list[str] = []
    times: dict[int, list[str]] = defaultdict(list)
    names = PULSES + LEVELS
    for number, run in enumerate(runs):
        codes = {name: code(number * len(names) + place) for place, name in enumerate(names)}
        lines.append(f"$scope module {scope_name(run, number + 1, len(runs))} $end")
        lines += [f"$var wire 1 {codes[name]} {name} $end" for name in names]
        lines.append("$upscope $end")
        for tick, found in changes(run.nodes).items():
            times[tick] += [f"{int(value)}{codes[name]}" for name, value in found]
    lines.append("$enddefinitions $end")
    for tick in sorted(times):
        lines += [f"#{tick}", *times[tick]]
    return HEAD + "\n".join(lines) + "\n"
