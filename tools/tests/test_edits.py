"""The must-fail edits: their first lines, the page that is made from them, and which calls they show wrong."""

import collections
import glob
import importlib.machinery
import importlib.util
import os
import re
import unittest

ROOT = os.path.dirname(os.path.dirname(os.path.dirname(os.path.abspath(__file__))))
loader = importlib.machinery.SourceFileLoader("edits", os.path.join(ROOT, "tools", "edits"))
tool = importlib.util.module_from_spec(importlib.util.spec_from_loader("edits", loader))
loader.exec_module(tool)

# The crates whose public functions are open to the outside.
OUTWARD = "converter question run_state lent setup_frames thermometer quietest nanosecond listing difference max35101_*".split()


def outward_calls() -> set[str]:
    calls: set[str] = set()
    for crate in OUTWARD:
        for path in glob.glob(os.path.join(ROOT, "crates", crate, "src", "lib.rt")):
            with open(path, encoding="utf-8") as file:
                calls |= set(re.findall(r'^pub (?:extern "C" )?fn (\w+)', file.read(), re.M))
    return calls


class Edits(unittest.TestCase):
    def setUp(self) -> None:
        self.edits = list(tool.edits())

    def test_the_page_is_made_from_the_edits(self) -> None:
        with open(tool.PAGE, encoding="utf-8") as page:
            self.assertEqual(page.read(), tool.page(), "run tools/edits")

    def test_every_edit_is_found(self) -> None:
        files = glob.glob(os.path.join(ROOT, "crates", "*", "must-fail", "*"))
        self.assertEqual(len(files), len(self.edits))
        self.assertLessEqual(len(files), 150)

    def test_every_edit_has_its_three_parts(self) -> None:
        for crate, name, head in self.edits:
            with self.subTest(edit=f"{crate}/{name}"):
                self.assertEqual(list(head)[:3], list(tool.PARTS))
                self.assertLessEqual(set(head), {*tool.PARTS, "model", "slip"})

    def test_every_row_of_01_has_an_edit(self) -> None:
        for tag, rows in (("model", tool.MODELS), ("slip", tool.SLIPS)):
            numbers = {int(head[tag]) for _, _, head in self.edits if tag in head}
            self.assertEqual(numbers, set(range(1, len(rows) + 1)))

    def test_every_part_of_the_second_demand_has_an_edit(self) -> None:
        with open(os.path.join(ROOT, "crates", "demands", "specs", "SecondDemand.antt"), encoding="utf-8") as file:
            record = file.read().split("pub record SecondDemand")[1]
        shown = {part for _, _, head in self.edits for part in re.findall(r"second demand, (\w+)", head["shows"])}
        self.assertEqual(set(re.findall(r"^  pub (\w+) :", record, re.M)), shown)

    def test_every_outward_call_has_two_wrong_answers(self) -> None:
        named = collections.Counter(call for _, _, head in self.edits for call in re.findall(r"`(\w+)`", head["shows"]))
        for call in sorted(outward_calls()):
            self.assertGreaterEqual(named[call], 2, call)
