"""Asks `replay` what an item does not ask, by lines added to copies of it.

A wait is split at each report that its answer names, and the state is asked after every piece. A piece in which
something changed without a report, as an alarm does it, is halved until the tick of the change is found. All pieces of
all items are halved in the same run of the program, so that a file takes some 35 runs at most.
"""

from __future__ import annotations

from collections.abc import Iterable, Iterator
from dataclasses import dataclass, replace
from itertools import groupby

import item
import program
from registers import QUESTIONS, State, read_state


@dataclass(frozen=True)
class Node:
    """A call, or a piece of a wait, and the state after it. `text` is what the copy has; questions have none."""

    line: item.Line
    answer: item.Answer | None
    text: str = ""
    ticks: int = 0
    reports: tuple[item.Report, ...] = ()
    state: State | None = None
    fresh: bool = False

    @property
    def after(self) -> State:
        """The state, once it was asked."""
        assert self.state
        return self.state

    @property
    def is_quiet(self) -> bool:
        return self.ticks > 0 and not self.reports


def wait(line: item.Line, answer: item.Answer | None, ticks: int, reports: Iterable[item.Report] = ()) -> Node:
    return Node(line, answer, f"tick {ticks}", ticks, tuple(reports))


def pieces(line: item.Line, answer: item.Answer, ticks: int, reports: list[item.Report]) -> list[Node]:
    """A wait, split before and after each tick that reported something. The last piece has the answer."""
    found: list[Node] = []
    done = 0
    for at, together in groupby(reports, lambda report: report.at):
        if at - 1 > done:
            found.append(wait(line, None, at - 1 - done))
        found.append(wait(line, None, 1, together))
        done = at
    if ticks > done:
        found.append(wait(line, None, ticks - done))
    if not found:
        return [Node(line, answer)]
    return found[:-1] + [replace(found[-1], answer=answer)]


def nodes_of(lines: list[item.Line], answers: list[item.Answer]) -> Iterator[Node]:
    """The calls and questions of a file; the first is an `item` line, put there where the file has none."""
    count = 0
    if not lines or not item.is_fresh(lines[0], answers[0]):
        yield Node(item.Line(0, "item", ("item",)), None, "item -", fresh=True)
    for line, answer in zip(lines, answers):
        if item.is_fresh(line, answer):
            count = 0
            yield Node(line, answer, line.text, fresh=True)
            continue
        if line.word in item.WAITS and not answer.bad and not answer.refused:
            ticks = item.waited(line, answer, count)
            yield from pieces(line, answer, ticks, item.reports(line, answer, count))
            count += ticks
            continue
        is_call = line.word in item.TRANSACTIONS + item.KINDS and not answer.bad
        yield Node(line, answer, line.text if is_call else "")
        if answer.started:
            count = 0


def with_states(executable: str, nodes: list[Node]) -> list[Node]:
    """The nodes with the state after each, asked where it is lacking. Questions have the state before them."""
    texts: list[str] = []
    pending: list[str] = []
    for node in nodes:
        if node.text:
            pending.append(node.text)
            if node.state is None:
                texts.append("\n".join(pending + [QUESTIONS]))
                pending = []
    replies = iter(program.ask(executable, texts))
    found: list[Node] = []
    for node in nodes:
        if node.text and node.state is None:
            node = replace(node, state=read_state(next(replies)))
        elif not node.text:
            node = replace(node, state=found[-1].state)
        found.append(node)
    return found


def changed(before: Node, node: Node) -> bool:
    return before.after.beside_clock() != node.after.beside_clock()


def halved(nodes: list[Node]) -> list[Node]:
    """The nodes with every longer piece in two in which something changed."""
    found = nodes[:1]
    for before, node in zip(nodes, nodes[1:]):
        if node.is_quiet and node.ticks > 1 and changed(before, node):
            half = node.ticks // 2
            rest = node.ticks - half
            found += [wait(node.line, None, half), replace(node, text=f"tick {rest}", ticks=rest)]
        else:
            found.append(node)
    return found


def merged(nodes: list[Node]) -> list[Node]:
    """The nodes with neighbouring pieces of one wait joined where nothing changed."""
    found = nodes[:1]
    for before, node in zip(nodes, nodes[1:]):
        last = found[-1]
        quiet = node.is_quiet and last.is_quiet and last.line is node.line and not changed(before, node)
        if quiet and (len(found) < 2 or not changed(found[-2], last)):
            ticks = last.ticks + node.ticks
            found[-1] = replace(node, text=f"tick {ticks}", ticks=ticks)
        else:
            found.append(node)
    return found


def ask_file(executable: str, text: str) -> list[Node]:
    """All nodes of a file, each with its state."""
    lines = item.read_lines(text)
    replies = program.ask(executable, [line.text for line in lines])
    answers = [item.read_answer(line, reply) for line, reply in zip(lines, replies)]
    nodes = with_states(executable, list(nodes_of(lines, answers)))
    while True:
        split = halved(nodes)
        if len(split) == len(nodes):
            return merged(nodes)
        nodes = with_states(executable, split)


def split_items(nodes: list[Node]) -> list[list[Node]]:
    """The nodes of each item, the one that begins it first."""
    found: list[list[Node]] = []
    for node in nodes:
        if node.fresh:
            found.append([])
        found[-1].append(node)
    return found


def show_rows(executable: str, setups: Iterable[tuple[int, int]]) -> dict[tuple[int, int], str]:
    """What `show` says of set-up words: of each write address and word, the row of its page."""
    wanted = sorted(set(setups))
    texts = [f"item show\nbus {at:02X} {word >> 8:02X} {word & 255:02X}\nshow" for at, word in wanted]
    found = {}
    for (at, word), page in zip(wanted, program.ask(executable, texts)):
        rows = [row for row in page if row.startswith(f"{at + 0x80:02X} ")]
        found[at, word] = rows[0] if rows else ""
    return found
