"""Follows the answers to an item and makes a run of them.

Everything here is taken from answers of `replay`; nothing is worked out that it could have been asked.
"""

from __future__ import annotations

import re

import item
import registers
from asking import Node, show_rows
from registers import State, means, signed
from run import NO_HIT, Check, Delivery, Group, Measurement, Reading, Run, Step, Transaction

COMMANDS = {
    0x00: "TOF_Up",
    0x01: "TOF_Down",
    0x02: "TOF_Diff",
    0x03: "Temperature",
    0x04: "Reset",
    0x05: "Initialize",
    0x07: "EVTMG1",
    0x08: "EVTMG2",
    0x09: "EVTMG3",
    0x0A: "HALT",
    0x0C: "LDO_ON",
    0x0D: "LDO_OFF",
    0x10: "flash write",
    0x13: "flash erase",
    0x90: "flash read",
}
EVENTS = (0x07, 0x08, 0x09)
DIFFERENCES = (0x02, 0x07, 0x08)
# Of a wait with more than three times as many reports only so many are drawn at either end; fewer where that would
# still be more than the second number for the whole item.
MOST_KEPT = 16
MOST_REPORTS = 5000
# The write addresses of TOF2 and of the two event timing registers.
TOF2, TIMING_1, TIMING_2 = 0x39, 0x3F, 0x40


def transaction_of(node: Node) -> Transaction:
    """The frame of a node, with the words by which a person knows it."""
    sent = item.frame(node.line)
    assert node.answer
    sort, label = "command", "no bytes"
    if sent:
        opcode, words = sent[0], max(len(sent) - 1, 0) // 2
        span = f"{opcode:02X}" if words < 2 else f"{opcode:02X}-{opcode + words - 1:02X}"
        label = COMMANDS.get(opcode, f"opcode {opcode:02X}")
        if 0x30 <= opcode <= 0x43:
            sort, label = "write", f"write {span}"
        elif opcode >= 0xB0:
            sort, label = "read", f"read {span}"
        elif opcode in (0x10, 0x13, 0x90) and len(sent) > 2:
            label += f" {sent[1]:02X}{sent[2]:02X}"
    if node.answer.refused:
        return Transaction(sort, f"{label}: no {node.answer.refused}", node.line, node.answer, sent)
    is_clock = sort == "write" and sent[0] + 0x80 in registers.CLOCK
    spans = [label.removeprefix("write ")] if sort == "write" else []
    return Transaction(sort, label, node.line, node.answer, sent, spans, is_clock)


def check_of(node: Node) -> Check | None:
    """The expectation or the bad line of a node."""
    line, answer = node.line, node.answer
    if answer is None:
        return None
    if answer.bad:
        return Check("bad", line, [answer.bad])
    if line.word == "expect":
        words = [f"{at} has {has}, expected {wanted}" for at, has, wanted in answer.differences]
        return Check("differs" if words else "ok", line, words)
    if answer.expected:
        return Check("differs", line, [f"{answer.text}, expected {answer.expected}"])
    return None if line.wanted is None else Check("ok", line)


def hidden_nodes(nodes: list[Node]) -> set[int]:
    """The places of the reports in the midst of waits that have very many, as in a continuous event without deliveries.

    Nothing is awaited where such a part begins or ends.
    """
    waits: dict[int, list[int]] = {}
    for place, node in enumerate(nodes):
        if node.reports:
            waits.setdefault(node.line.number, []).append(place)
    keep = MOST_KEPT
    while keep > 2 and sum(min(len(places), 3 * keep) for places in waits.values()) > MOST_REPORTS:
        keep //= 2
    found: set[int] = set()
    for places in waits.values():
        clear = [place for place in places[keep:-keep] if nodes[place - 1].after.awaited == (False, False)]
        if len(places) > 3 * keep and len(clear) > 1:
            found |= set(range(clear[0], clear[-1]))
    return found


class Builder:
    """Follows the nodes of one item."""

    def __init__(self, nodes: list[Node], file: str, rows: dict[tuple[int, int], str]):
        self.rows = rows
        name = " ".join(nodes[0].line.words[1:]) or "(no name)"
        self.run = Run(name, file, nodes=nodes)
        self.tick = 0
        self.command = 0
        self.open: dict[str, Measurement] = {}
        self.group: dict[str, Group] = {}
        self.sizes = {"flight": 0, "temperature": 0}
        self.hidden = 0
        hidden = hidden_nodes(nodes)
        for place, node in enumerate(nodes):
            self.tick += node.ticks
            if place in hidden:
                self.take_hidden(node)
            else:
                self.take(node)
        self.close()

    def take(self, node: Node) -> None:
        steps = self.run.steps
        is_call = bool(node.text) and not node.ticks
        if node.fresh:
            steps.append(Step(0, node.after))
        elif is_call and node.line.word in item.TRANSACTIONS:
            self.take_transaction(node)
        elif is_call:
            self.take_delivery(node)
        elif node.line.word in item.WAITS and node.answer and node.answer.refused:
            label = f"{node.line.word}: no {node.answer.refused}"
            steps.append(Step(self.tick, node.after, Transaction("command", label, node.line, node.answer, b"")))
        elif node.ticks and (node.reports or node.after.beside_clock() != steps[-1].state.beside_clock()):
            steps.append(Step(self.tick, node.after, reports=node.reports, hidden=self.hidden))
            self.hidden = 0
            self.take_reports(node)
        self.take_question(node)

    def take_hidden(self, node: Node) -> None:
        """Counts what a report that is not drawn says."""
        known = len(self.run.measurements), len(self.run.groups)
        self.take_reports(node)
        for one in self.run.measurements[known[0] :]:
            one.is_hidden = True
            self.hidden += 1
        for group in self.run.groups[known[1] :]:
            group.is_hidden = True

    def settle_open(self, kind: str, outcome: str, state: State) -> None:
        """Ends the measurement of this kind that is awaited, at the last step; the state is that after it."""
        place = len(self.run.steps) - 1
        measurement = self.open.pop(kind, None)
        if measurement is None:
            return
        measurement.last, measurement.outcome = place, outcome
        group = self.group.get(kind)
        if group is None or group.has_ended:
            return
        group.last = place
        group.settled += outcome != "dropped"
        group.good, group.means = means(state, kind)
        group.has_ended = outcome == "dropped" or group.settled == group.size

    def start(self, kind: str, is_event: bool) -> None:
        place = len(self.run.steps) - 1
        measurement = Measurement(kind, place)
        self.run.measurements.append(measurement)
        self.open[kind] = measurement
        if not is_event:
            self.group.pop(kind, None)
            return
        group = self.group.get(kind)
        if group is None or group.size and group.started == group.size:
            number = 1 if group is None else group.number + 1
            group = Group(kind, number, self.sizes[kind], place, place)
            self.run.groups.append(group)
            self.group[kind] = group
        group.started += 1
        group.last = place

    def take_reports(self, node: Node) -> None:
        for report in node.reports:
            if report.what == "failed":
                self.settle_open(report.kind, "expired", node.after)
            else:
                self.start(report.kind, True)

    def take_transaction(self, node: Node) -> None:
        assert node.answer
        steps = self.run.steps
        transaction = transaction_of(node)
        last = steps[-1].transaction if not steps[-1].checks else None
        writes = transaction.sort == "write" and last is not None and last.sort == "write"
        if writes and last and steps[-1].tick == self.tick and not transaction.refused and not last.refused:
            last.spans += transaction.spans
            last.label = f"{len(last.spans)} writes"
            last.writes_clock |= transaction.writes_clock
            steps[-1].state = node.after
            return
        read = item.read_word(transaction.sent, node.answer, registers.STATUS)
        steps.append(Step(self.tick, node.after, transaction, status_read=read))
        self.take_dropped(node.after)
        opcode = transaction.sent[0] if transaction.sent else -1
        if node.answer.started:
            self.command = opcode
            self.group = {}
            self.sizes = self.group_sizes(node.after)
        for kind in node.answer.started:
            self.start(kind, opcode in EVENTS)

    def take_dropped(self, state: State) -> None:
        """HALT and Reset end what is awaited, and an event between its starts."""
        for kind, is_awaited in zip(item.KINDS, state.awaited):
            if kind in self.open and not is_awaited:
                self.settle_open(kind, "dropped", state)
        sent = self.run.steps[-1].transaction
        if sent and sent.sent[:1] in (b"\x04", b"\x0a") and not sent.refused:
            for group in self.group.values():
                if not group.has_ended:
                    group.last, group.has_ended = len(self.run.steps) - 1, True

    def group_sizes(self, state: State) -> dict[str, int]:
        """N of each kind, as `show` has it."""
        found = {}
        for kind, at, name in (("flight", TIMING_1, "TDM"), ("temperature", TIMING_2, "TMM")):
            row = self.rows.get((at, state.word(at + 0x80)), "")
            match = re.search(name + r" (\d+) cycle", row)
            found[kind] = int(match[1]) if match else 0
        return found

    def bound(self, state: State) -> int | None:
        """Where late words begin: the timeout as `show` has it, 262,144 quanta a microsecond."""
        row = self.rows.get((TOF2, state.word(TOF2 + 0x80)), "")
        match = re.search(r"TIMOUT (\d+) us", row)
        return min(int(match[1]) * 262_144, NO_HIT) if match else None

    def take_delivery(self, node: Node) -> None:
        assert node.answer
        kind, answer, state = node.line.word, node.answer, node.after
        outcome = "refused" if answer.refused else answer.words[1]
        delivery = Delivery(kind, node.line, outcome, item.delivered(node.line), answer.refused)
        if kind == "flight" and outcome != "refused":
            delivery.bound = self.bound(state)
            if outcome == "good" and self.command in DIFFERENCES:
                delivery.difference = signed(state.pair(0xE2))
        self.run.steps.append(Step(self.tick, state, delivery=delivery))
        if outcome != "refused":
            self.settle_open(kind, outcome, state)

    def take_question(self, node: Node) -> None:
        """What a line says beside its call: an expectation, degrees, or that it is bad."""
        if node.line.word == "probe" and node.answer and not node.answer.bad:
            self.run.probes.append((len(self.run.steps) - 1, node.line.text))
        check = check_of(node)
        value = item.degrees(node.answer) if node.answer else None
        if check is None and value is None:
            return
        if self.run.steps[-1].tick != self.tick:
            self.run.steps.append(Step(self.tick, node.after))
        step = self.run.steps[-1]
        if check:
            step.checks.append(check)
            self.run.expected += 0 if check.sort == "bad" else item.expected_count(node.line)
        if value is not None:
            words = [int(word, 16) for word in node.line.words[1:3]]
            step.readings.append(Reading(ports_of(node.after, words), value))

    def close(self) -> None:
        """The item's end: a place of its own where time has passed since the last step."""
        steps = self.run.steps
        if steps[-1].tick != self.tick:
            steps.append(Step(self.tick, self.run.nodes[-1].after))
        for measurement in self.open.values():
            measurement.last = len(steps) - 1
        for group in self.group.values():
            if not group.has_ended:
                group.last = len(steps) - 1
                group.good, group.means = means(steps[-1].state, group.kind)


def ports_of(state: State, words: list[int]) -> tuple[int, int]:
    """The ports, 1 to 4, that read these two words; 0 and 0 where none do."""
    ports = {number: state.pair(0xE7 + 2 * (number - 1)) for number in range(1, 5)}
    for one in ports:
        for other in ports:
            if one != other and [ports[one], ports[other]] == words:
                return one, other
    return 0, 0


def setups(nodes: list[Node]) -> set[tuple[int, int]]:
    """The set-up words whose meaning the picture needs: addresses of writes and words."""
    found = set()
    for node in nodes:
        if node.answer and (node.answer.started or node.line.word == "flight"):
            found |= {(at, node.after.word(at + 0x80)) for at in (TOF2, TIMING_1, TIMING_2)}
    return found


def runs_of(executable: str, items: list[list[Node]], file: str) -> list[Run]:
    """The runs of a file's items."""
    rows = show_rows(executable, {setup for nodes in items for setup in setups(nodes)})
    return [Builder(nodes, file, rows).run for nodes in items]
