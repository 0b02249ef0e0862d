"""Tests of the meter maker's example, against the captures' own words in exact fractions, and of what it says of bad input."""

from __future__ import annotations

import contextlib
import io
import subprocess
import sys
import tempfile
import unittest
from fractions import Fraction
from pathlib import Path

import fit_flow

HERE = Path(__file__).parent
FLOWS = HERE / "flows"
ROOT = HERE.parents[1]

MEASURED = """set 38 1010
set 40 0060
bus 05
"""
TWO = MEASURED + "bus 02\nflight 3 / 1\nbus 02\nflight 5 / 1\n"


class Fit(unittest.TestCase):
    """The captures that come with it."""

    @staticmethod
    def quiet(name: str, width: int) -> list[int]:
        """The quietest run of the differences that the capture's lines have."""
        lines = [line.split() for line in (FLOWS / name).read_text().splitlines()]
        quanta = [int(line[1], 16) - int(line[3], 16) for line in lines if line[0] == "flight"]
        runs = [quanta[i : i + width] for i in range(len(quanta) - width + 1)]
        return min(runs, key=lambda run: max(run) - min(run))

    def test_the_constant(self) -> None:
        pairs = []
        for line in (FLOWS / "flows.txt").read_text().splitlines()[1:]:
            flow, name = line.split()
            pairs += [(Fraction(flow), Fraction(quanta * 250, 65_536)) for quanta in self.quiet(name, 4)]
        exact = sum(flow * time for flow, time in pairs) / sum(time * time for _, time in pairs)
        found = fit_flow.listed(FLOWS / "flows.txt", 4)
        self.assertEqual((len(pairs), sum(len(point.differences) for point in found)), (12, 12))
        self.assertAlmostEqual(fit_flow.constant(found), float(exact), places=15)

    def test_the_command_line(self) -> None:
        done = subprocess.run(
            [sys.executable, HERE / "fit_flow.py", FLOWS / "flows.txt", "--width", "4"], capture_output=True, text=True
        )  # fmt: skip
        wanted = [
            "k 0.0300005 per nanosecond, of 12 differences",
            "flow 0.6: 19.9986 ns, fitted 0.59997; supply 70.000, return 50.000",
            "flow 1.5: 49.9992 ns, fitted 1.5; supply 70.000, return 45.000",
            "flow 3: 99.9985 ns, fitted 3; supply 70.000, return 40.000",
        ]
        self.assertEqual((done.stdout.splitlines(), done.stderr, done.returncode), (wanted, "", 0))


class Said(unittest.TestCase):
    """What is said of a list, and of items."""

    def setUp(self) -> None:
        folder = tempfile.TemporaryDirectory()
        self.addCleanup(folder.cleanup)
        self.folder = Path(folder.name)

    def told(self, listed: str, *options: str, **items: str) -> tuple[list[str], list[str]]:
        """The lines of standard output and of standard error."""
        (self.folder / "flows.txt").write_text(listed)
        for name, text in items.items():
            (self.folder / f"{name}.item").write_text(text)
        output, errors = io.StringIO(), io.StringIO()
        with contextlib.redirect_stdout(output), contextlib.redirect_stderr(errors):
            try:
                fit_flow.main([str(self.folder / "flows.txt"), *options])
            except SystemExit as end:
                print(end.code, file=errors)
        text = errors.getvalue().replace(f"{self.folder}/", "")
        return output.getvalue().splitlines(), text.splitlines()

    def refused(self, wanted: str, listed: str, *options: str, **items: str) -> None:
        """No fit, for this reason."""
        output, errors = self.told(listed, *options, **items)
        self.assertEqual((output, errors[-1:]), ([], [f"fit_flow: {wanted}"]))

    def test_examples_and_captures_are_read(self) -> None:
        for path, differences in (
            ("examples/difference.item", 2), ("examples/event.item", 4), ("examples/first.item", 1), ("examples/hour.item", 5),
            ("capture/examples/example.item", 1), ("examples/clock.item", 0), ("examples/customer.item", 0), ("examples/differs.item", 1),
        ):  # fmt: skip
            with contextlib.redirect_stderr(io.StringIO()) as errors:
                captures = fit_flow.replayed(ROOT / path)
            self.assertEqual(sum(len(capture.differences) for capture in captures), differences, path)
            self.assertEqual(bool(errors.getvalue()), path in ("examples/event.item", "examples/differs.item"), path)

    def test_flows_of_any_size(self) -> None:
        output, _ = self.told("1.25e-4 a b.item\n", "--width", "2", **{"a b": TWO})
        self.assertEqual(output[0], "k 0.0098304 per nanosecond, of 2 differences")
        self.assertEqual(output[1], "flow 0.000125: 0.0114 ns, fitted 0.0001125; supply not measured, return not measured")

    def test_the_last_good_temperature_measurement(self) -> None:
        good = "bus 03\ntemperature 007F133B 00640000 007F133B 00640000 => good\n"
        open_port = "bus 03\ntemperature 007F133B 00640000 1F80000 00640000 => failed\n"
        expired = "bus 03\ntick 8192\n"
        output, _ = self.told("1 a.item", "--width", "2", a=TWO + good + open_port + expired)
        self.assertTrue(output[1].endswith("supply 70.000, return 70.000"), output)
        output, _ = self.told("1 a.item", "--width", "2", "--return", "2", "1", a=TWO + good)
        self.assertTrue(output[1].endswith("supply 70.000, return no degrees (13: off the table)"), output)

    def test_each_item_is_a_capture(self) -> None:
        text = f"item one\n{TWO}item of temperatures\n{MEASURED}item two\n{TWO}"
        output, _ = self.told("1 a.item", "--width", "2", a=text)
        self.assertEqual((output[0].split(", ")[1], len(output)), ("of 4 differences", 3))

    def test_up_alone_has_no_difference(self) -> None:
        output, _ = self.told("1 a.item", "--width", "2", a=TWO + "bus 00\nflight 9 / => good\n")
        self.assertEqual(output[0].split(", ")[1], "of 2 differences")
        self.refused("a.item: no good measurement up and down", "1 a.item", a=MEASURED + "bus 00\nflight 9 /\n")

    def test_an_expectation_that_differs_is_told(self) -> None:
        output, errors = self.told("1 a.item", "--width", "2", a=TWO + "expect E3 5\nint => yes\n")
        self.assertEqual(errors, ["a.item:8: expect E3 differs E3:0004/0005", "a.item:9: int no expected yes"])
        self.assertEqual(len(output), 2)

    def test_lists(self) -> None:
        self.refused("flows.txt: no flows", "# nothing\n\n")
        self.refused("flows.txt:2: x is no flow", "\nx a.item\n")
        self.refused("flows.txt:1: nan is no flow", "nan a.item")
        self.refused("flows.txt:1: -inf is no flow", "-inf a.item")
        self.refused("flows.txt:1: no file behind the flow", "3")
        self.refused("flows.txt:1: none.item: No such file or directory", "3 none.item")
        _, errors = self.told("")
        self.assertEqual(errors, ["fit_flow: flows.txt: no flows"])

    def test_a_list_that_is_not_there(self) -> None:
        with self.assertRaises(SystemExit) as end:
            fit_flow.main([str(self.folder / "none.txt")])
        self.assertIn("none.txt", str(end.exception.code))

    def test_items(self) -> None:
        self.refused("a.item:2: unknown word", "1 a.item", a="bus 05\nticks 5\n")
        self.refused("a.item:1: bad number", "1 a.item", a="flight 1 / x => good\n")
        self.refused("a.item:2: wrong count", "1 a.item", a="# a comment\nflight 1\n")
        self.refused("a.item:3: past", "1 a.item", a="item x\ntick 5\nat 4\n")
        self.refused("a.item:1: bus no 8 not initialised", "1 a.item", a="bus 02\n")
        self.refused("a.item:1: bus no 8 not initialised expected ok", "1 a.item", a="bus 02 => ok\n")
        self.refused(
            "a.item: item x has 2 good measurements up and down, fewer than the width, 3", "1 a.item", "--width", "3",
            a="item x\n" + TWO,
        )  # fmt: skip
        self.refused(
            "a.item: the item has 1 good measurement up and down, fewer than the width, 4", "1 a.item",
            a=MEASURED + "bus 02\nflight 1 / 2\n",
        )  # fmt: skip

    def test_differences_that_fit_any_constant(self) -> None:
        zero = MEASURED + "bus 02\nflight 1 / 1\n"
        self.refused("all differences are 0, and fit any k", "1 a.item\n2 a.item", "--width", "1", a=zero)

    def test_options(self) -> None:
        for wrong, wanted in (
            (("--width", "0"), "--width"),
            (("--width", "x"), "--width"),
            (("--supply", "2", "2"), "--supply: port 2 is the probe's and the reference's"),
            (("--return", "1", "5"), "--return"),
        ):
            output, errors = self.told("1 a.item", *wrong, a=TWO)
            self.assertEqual((output, errors[-1]), ([], "2"))
            self.assertIn(wanted, errors[-2])


if __name__ == "__main__":
    unittest.main()
