"""Degrees of the ports at every good temperature, where an item gives them for some.

An item that has `degrees` of two ports' words is taken to mean these ports; what it does not ask of them at its other
good temperatures is asked of `replay`, with the item's own probe table as it stands there.
"""

from __future__ import annotations

import item
import program
from run import Reading, Run, Step


def wanted(run: Run) -> list[tuple[Step, tuple[int, int], str]]:
    """The steps and ports that lack degrees, and the lines that ask for them."""
    pairs = sorted({reading.ports for step in run.steps for reading in step.readings} - {(0, 0)})
    found = []
    for place, step in enumerate(run.steps):
        if not pairs or not step.delivery or step.delivery.kind != "temperature" or step.delivery.outcome != "good":
            continue
        probes = [text for before, text in run.probes if before < place]
        for ports in pairs:
            if all(reading.ports != ports for reading in step.readings):
                probe, reference = (step.state.pair(0xE7 + 2 * (port - 1)) for port in ports)
                line = f"degrees {probe:X} {reference:X}"
                found.append((step, ports, "\n".join(["item degrees", *probes, line])))
    return found


def complete(executable: str, runs: list[Run]) -> None:
    """Adds what the items do not ask themselves."""
    asked = [one for run in runs for one in wanted(run)]
    for (step, ports, text), replies in zip(asked, program.ask(executable, [text for _, _, text in asked])):
        line = item.Line(0, text, ("degrees",))
        value = item.degrees(item.read_answer(line, replies[-1:]))
        if value is not None:
            step.readings.append(Reading(ports, value))
