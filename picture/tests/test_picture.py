"""The SVG and the HTML: what stands in them, that labels are short and apart, and their size."""

import os
import re
import unittest
import xml.etree.ElementTree as ElementTree

import page
import program
from tests.support import CRATES, EXAMPLES, NEEDS_PROGRAM, labels, marks, overlaps, runs, text_of

SMALL_ENOUGH = 2_000_000
SETUP = "item many\nbus 38 10 10 A0 00\nbus 3F 0F 80 F8 60\nbus 42 02 80\nbus 05\n"
HITS = "1180000 11C0000 1200000 1240000 1280000 12C0000 / 119EBCE 11DEBCE 121EBCE 125EBCE 129EBCE 12DEBCE"
TEMPERATURE = "temperature 1400000 1300000 F80000 F80000"


def of_example(name: str) -> str:
    return page.svg_text(runs(text_of(EXAMPLES, name)))


@NEEDS_PROGRAM
class Event(unittest.TestCase):
    @classmethod
    def setUpClass(cls) -> None:
        cls.text = of_example("event.item")
        cls.words = [label.words for label in labels(cls.text)]

    def test_marks(self) -> None:
        # six good measurements, and two marks in the panel of degrees
        wanted = {"start": 10, "good": 8, "failed": 2, "expired": 1, "dropped": 1, "awaited": 0, "refused": 1}
        self.assertEqual({name: marks(self.text, name) for name in wanted}, wanted)

    def test_bus_and_status(self) -> None:
        # ten reads of FEh, each in the bus row and in that of status reads
        self.assertEqual(marks(self.text, "read"), 20)
        for words in ("5 writes", "Initialize", "EVTMG1", "write 39: no 6 busy", "TOF_Diff", "HALT"):
            self.assertIn(words, self.words)
        self.assertTrue(any(words.endswith("TO AF TOF") for words in self.words))

    def test_expectation_that_differs(self) -> None:
        self.assertEqual(marks(self.text, "ok"), 4)
        self.assertIn("1", self.words)
        self.assertTrue(any("line 55: E6 has 14B5, expected 14B6" in words for words in self.words))

    def test_event(self) -> None:
        self.assertTrue(any("6 of 6 settled, 4 good, mean −479.7783 ns" in words for words in self.words))
        self.assertTrue(any("3 of 3 settled, 2 good" in words for words in self.words))
        self.assertIn("T3 open", self.words)

    def test_time(self) -> None:
        for words in ("0 s", "0.5 s", "1.25 s", "cut 90 s", "2026-03-02 06:59:58.75"):
            self.assertIn(words, self.words)

    def test_summary(self) -> None:
        for words in (
            "3,031,388 ticks, 92.51062 s; 1 call refused",
            "flight: 7 started, 4 good, 1 failed, 1 expired, 1 dropped",
            "temperature: 3 started, 2 good, 1 failed",
            "14 expected words, 1 line differing",
        ):
            self.assertIn(words, self.words)

    def test_hits(self) -> None:
        # 5 accepted flight deliveries with 3 hits each way; one of the words up is late
        paths = re.findall(r'<path class="([kox])" d="(M[^"]*)"', self.text)
        up = sum(len(re.findall(r"h6l-3-5z", points)) for style, points in paths if style == "k")
        down = sum(len(re.findall(r"h6l-3 5z", points)) for style, points in paths if style == "o")
        late = sum(len(re.findall(r"l6 6m0-6l-6 6", points)) for style, points in paths if style == "x")
        self.assertEqual((up, down, late), (14, 15, 1))

    def test_stored_picture(self) -> None:
        """docs/event.svg is what the command in README.md makes."""
        found = runs(text_of(EXAMPLES, "event.item"))
        found[0].file = "examples/event.item"
        with open(os.path.join(program.ROOT, "docs", "event.svg"), encoding="utf-8") as file:
            self.assertEqual(page.svg_text(found), file.read())

    def test_black_and_white(self) -> None:
        for color in re.findall(r"#([0-9a-fA-F]{3,6})\b", re.sub(r'href="#\w+"', "", self.text)):
            self.assertEqual(len(set(color.lower())), 1, color)


@NEEDS_PROGRAM
class Labels(unittest.TestCase):
    def check(self, text: str, name: str) -> None:
        ElementTree.fromstring(text)
        self.assertLessEqual(max(len(label.words) for label in labels(text)), 80)
        self.assertLessEqual(max(map(len, re.findall("<title>(.*?)</title>", text)), default=0), 120)
        self.assertEqual(overlaps(text), [], name)

    def test_stored_items(self) -> None:
        for path in ("all.item", "bad.item", "show.item"):
            for run in runs(text_of(CRATES, "replay", "data", path)):
                with self.subTest(item=run.name):
                    self.check(page.svg_text([run]), run.name)

    def test_examples(self) -> None:
        for name in sorted(os.listdir(EXAMPLES)):
            if name.endswith(".item"):
                self.check(of_example(name), name)

    def test_letters_of_markup(self) -> None:
        text = page.svg_text(runs("item <a> & \"b\"\nbus FF\n"))
        self.assertIn('item <a> & "b"', [label.words for label in labels(text)])

    def test_long_name(self) -> None:
        self.check(page.svg_text(runs(f"item {'n' * 900}\nexpect E2 {'1 ' * 30}\n")), "long name")


@NEEDS_PROGRAM
class ManyReports(unittest.TestCase):
    """An event of 32 differences and 32 temperatures in one wait, none delivered."""

    @classmethod
    def setUpClass(cls) -> None:
        (cls.run_of,) = runs(SETUP + "bus 07\ntick 2000000\n")
        cls.text = page.svg_text([cls.run_of])

    def test_all_are_counted(self) -> None:
        for kind in ("flight", "temperature"):
            self.assertEqual((self.run_of.count(kind), self.run_of.count(kind, "expired")), (32, 32))
            (group,) = [group for group in self.run_of.groups if group.kind == kind]
            self.assertEqual((group.size, group.settled, group.good), (32, 32, 0))

    def test_the_middle_is_cut(self) -> None:
        hidden = sum(one.is_hidden for one in self.run_of.measurements)
        self.assertEqual([step.hidden for step in self.run_of.steps if step.hidden], [hidden])
        self.assertEqual(marks(self.text, "expired"), 64 - hidden)
        self.assertEqual(marks(self.text, "start"), 64 - hidden)
        self.assertIn(f"{hidden} starts", [label.words for label in labels(self.text)])
        self.assertEqual(overlaps(self.text), [])


@NEEDS_PROGRAM
class Size(unittest.TestCase):
    """Items of 4,000 calls stay below 2 MB."""

    def check(self, lines: list[str]) -> None:
        calls = sum(line.split()[0] in ("bus", "tick", "flight", "temperature") for line in lines)
        (run,) = runs(SETUP + "\n".join(lines[: 4_000 - 4]) + "\n")
        self.assertGreaterEqual(calls, 3_996)
        text = page.svg_text([run])
        self.assertLess(len(text.encode()), SMALL_ENOUGH)
        self.assertLessEqual(max(len(label.words) for label in labels(text)), 80)

    def test_events(self) -> None:
        cycle = ["tick 120", f"flight {HITS}", "tick 900", TEMPERATURE, "bus FE 00 00", "tick 15364"]
        half = ["tick 100", f"flight {HITS}", "tick 16284"]
        self.check((["bus 07"] + (cycle + half) * 16) * 30)

    def test_refusals(self) -> None:
        self.check(["bus 42 02 00 00 00", "bus 0E 11 46 CC 77 09"] * 2_000)

    def test_single_differences(self) -> None:
        self.check(["bus 02", f"flight {HITS}"] * 2_000)

    def test_many_expectations_that_differ(self) -> None:
        self.check(["bus 02", f"flight {HITS}\nexpect E2 1 2 3 4 5 6 7 8 9 A B C"] * 2_000)


@NEEDS_PROGRAM
class Page(unittest.TestCase):
    def test_several_items(self) -> None:
        found = runs(text_of(EXAMPLES, "differs.item") + text_of(EXAMPLES, "event.item"))
        text = page.html_text(found)
        self.assertEqual(re.findall(r'<a href="#(item\d)">(\w+)', text), [("item1", "differs"), ("item2", "event")])
        self.assertEqual(re.findall(r'<div id="(item\d)">', text), ["item1", "item2"])
        self.assertEqual(text.count("<b>1 differ</b>"), 2)
        self.assertEqual(text.count("<style>"), 2)
