"""What is asked of `replay` beside the item's own lines."""

import os
import stat
import sys
import tempfile
import unittest
from unittest import mock

import asking
import program
from tests.support import CRATES, EXAMPLES, EXECUTABLE, NEEDS_PROGRAM, runs, text_of

ALARM = """item alarm
bus 30 00 00 00 00 01 01 01 00
bus 35 30 07
bus 42 02 00 00 0C
bus FE 00 00
tick 4000000000
"""
# The real program with one word of its answers changed, to see that the picture follows the answers.
LIAR = """#!{python}
import subprocess, sys
text = subprocess.run([{program!r}], stdin=sys.stdin, stdout=subprocess.PIPE).stdout
sys.stdout.buffer.write(text.replace(b'flight good', b'flight failed').replace(b'int yes', b'int no'))
"""


@NEEDS_PROGRAM
class Asking(unittest.TestCase):
    def test_change_inside_a_long_wait(self) -> None:
        # 07:30 is 7.5 x 3,600 x 32,768 ticks after midnight.
        steps = runs(ALARM)[0].steps
        risen = [step.tick for step in steps if step.state.status >> 14 & 1]
        self.assertEqual(risen[0], 884_736_000)
        self.assertEqual([step.tick for step in steps if step.state.interrupt and step.tick][0], 884_736_000)
        self.assertEqual(steps[-1].tick, 4_000_000_000)

    def test_few_runs_of_the_program(self) -> None:
        with mock.patch.object(program, "run", wraps=program.run) as counted:
            asking.ask_file(EXECUTABLE, ALARM * 5)
        self.assertLessEqual(counted.call_count, 35)

    def test_pieces_of_a_wait_are_whole(self) -> None:
        nodes = asking.ask_file(EXECUTABLE, text_of(EXAMPLES, "event.item"))
        ticks: dict[int, int] = {}
        for node in nodes:
            ticks[node.line.number] = ticks.get(node.line.number, 0) + node.ticks
            if node.line.word == "tick":
                self.assertEqual(node.text, f"tick {node.ticks}")
        for node in nodes:
            if node.line.word == "tick":
                self.assertEqual(ticks[node.line.number], int(node.line.words[1]))

    def test_copy_ends_like_the_item(self) -> None:
        """The questions and the splitting change nothing: the registers at each item's end are the same."""
        text = text_of(CRATES, "replay", "data", "all.item")
        items = asking.split_items(asking.ask_file(EXECUTABLE, text))
        heads = [nodes[0].line.number for nodes in items]
        lines = text.split("\n")
        for first, after, nodes in list(zip(heads, heads[1:] + [len(lines) + 1], items))[::7]:
            part = "\n".join(lines[first - 1 : after - 1])
            rows = program.ask(EXECUTABLE, [part, "regs"])[1]
            words = [int(word, 16) for row in rows for word in row.split(" ")[1:]]
            self.assertEqual(list(nodes[-1].state.words), words, nodes[0].line.text)

    def test_never_reads_the_status(self) -> None:
        sent: list[str] = []

        def listen(executable: str, text: str) -> list[str]:
            sent.append(text)
            return run_program(executable, text)

        run_program = program.run
        with mock.patch.object(program, "run", side_effect=listen):
            runs(ALARM)
        self.assertEqual([text.count("bus FE") for text in sent[:2]], [1, 1])
        self.assertLessEqual(max(text.count("bus FE") for text in sent), 1)

    def test_text_without_an_item_line(self) -> None:
        found = runs("bus 05\nint\n")
        self.assertEqual([(one.name, len(one.steps)) for one in found], [("(no name)", 2)])

    def test_picture_follows_the_answers(self) -> None:
        with tempfile.TemporaryDirectory() as folder:
            path = os.path.join(folder, "liar")
            with open(path, "w") as file:
                file.write(LIAR.format(python=sys.executable, program=EXECUTABLE))
            os.chmod(path, stat.S_IRWXU)
            found = runs(text_of(EXAMPLES, "first.item"), path)[0]
        self.assertEqual(found.count("flight", "good"), 0)
        self.assertEqual(found.count("flight", "failed"), 2)
        self.assertFalse(any(step.state.interrupt for step in found.steps))

    def test_no_program(self) -> None:
        with self.assertRaises(program.ProgramError):
            asking.ask_file("/no/such/program", "int\n")
