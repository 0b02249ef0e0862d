"""The value change dump: read back, and read by sigrok-cli where that is installed."""

import os
import re
import shutil
import subprocess
import tempfile
import unittest

import vcd
from tests.support import CRATES, EXAMPLES, NEEDS_PROGRAM, runs, text_of


def read(text: str) -> dict[str, list[tuple[int, int]]]:
    """Of each signal, named with its scope, all changes: tick and value."""
    names: dict[str, str] = {}
    found: dict[str, list[tuple[int, int]]] = {}
    scope, tick = "", 0
    head, _, body = text.partition("$enddefinitions $end\n")
    for line in head.split("\n"):
        words = line.split()
        if words[:1] == ["$scope"]:
            scope = words[2]
        elif words[:1] == ["$var"]:
            names[words[3]] = f"{scope}.{words[4]}"
            found[f"{scope}.{words[4]}"] = []
    for line in body.split():
        if line.startswith("#"):
            assert int(line[1:]) >= tick
            tick = int(line[1:])
        else:
            found[names[line[1:]]].append((tick, int(line[0])))
    return found


def settled(changes: list[tuple[int, int]]) -> list[tuple[int, int]]:
    """The changes that are left when a tick counts as its last value."""
    last: dict[int, int] = {}
    for tick, value in changes:
        last[tick] = value
    found: list[tuple[int, int]] = []
    for tick in sorted(last):
        if not found or found[-1][1] != last[tick]:
            found.append((tick, last[tick]))
    return found


FIRST_PART = "tick 2949120"
INT = [0, 90, 120, 1_000, 1_030, 16_474, 16_504, 32_858, 32_888, 33_858, 33_888]
INT += [40_960, 58_458, 65_658, 66_588, 82_088, 82_118]
STARTED = [0, 16_384, 32_768, 49_152, 65_536, 81_920]


@NEEDS_PROGRAM
class Dump(unittest.TestCase):
    @classmethod
    def setUpClass(cls) -> None:
        """examples/event.item up to its long wait."""
        cls.text = vcd.vcd_text(runs(text_of(EXAMPLES, "event.item").partition(FIRST_PART)[0]))
        cls.signals = read(cls.text)

    def test_levels(self) -> None:
        interrupt = settled(self.signals["event.INT"])
        self.assertEqual([tick for tick, _ in interrupt], INT)
        self.assertEqual([value for _, value in interrupt], [0, 1] * 8 + [0])
        self.assertEqual(settled(self.signals["event.AF"]), [(0, 0), (40_960, 1), (58_458, 0)])
        # the third fails by a late word, the fourth expires: TO, cleared by the reads of FEh
        self.assertEqual(settled(self.signals["event.TO"])[1:3], [(32_858, 1), (32_888, 0)])
        awaited = settled(self.signals["event.awaited_flight"])
        self.assertEqual([tick for tick, value in awaited if value], STARTED)
        self.assertEqual([tick for tick, value in awaited if not value], [90, 16_474, 32_858, 57_344, 65_658, 82_088])

    def test_pulses(self) -> None:
        started = self.signals["event.started_flight"]
        self.assertEqual(started, [change for tick in STARTED for change in ((tick, 1), (tick + 1, 0))])
        self.assertEqual([tick for tick, value in self.signals["event.failed_flight"] if value], [32_858, 57_344])
        self.assertEqual([tick for tick, value in self.signals["event.failed_temperature"] if value], [33_858])
        self.assertEqual([tick for tick, value in self.signals["event.good_temperature"] if value], [1_000, 66_558])

    def test_changes_within_a_tick_stand_in_order(self) -> None:
        """examples/first.item: at tick 100 INT stays up with the delivery, falls by the read, rises by the failure."""
        signals = read(vcd.vcd_text(runs(text_of(EXAMPLES, "first.item"))))
        self.assertEqual(signals["first.INT"], [(0, 0), (0, 1), (100, 0), (100, 1)])
        self.assertEqual(signals["first.good_flight"], [(0, 0), (100, 1), (101, 0)])

    def test_several_items(self) -> None:
        signals = read(vcd.vcd_text(runs(text_of(CRATES, "replay", "data", "all.item"))))
        scopes = {name.partition(".")[0] for name in signals}
        self.assertEqual(len(scopes), len({name for name in signals if name.endswith(".INT")}))
        self.assertEqual(settled(signals["item_14_10_undelivered.awaited_flight"]), [(0, 1), (8_192, 0)])

    def test_one_unit_a_tick(self) -> None:
        self.assertIn("$timescale 1 us $end", self.text)
        self.assertEqual(re.findall(r"^#(\d+)$", self.text, re.M)[-1], "82118")

    @unittest.skipUnless(shutil.which("sigrok-cli"), "sigrok-cli is not installed")
    def test_sigrok(self) -> None:
        """sigrok-cli gives one sample a tick; INT and AF change where they should."""
        with tempfile.TemporaryDirectory() as folder:
            path = os.path.join(folder, "event.vcd")
            with open(path, "w") as file:
                file.write(self.text)
            command = ["sigrok-cli", "-I", "vcd", "-i", path, "-C", "INT,AF", "-O", "csv:header=false:label=off"]
            output = subprocess.run(command, capture_output=True, text=True, check=True).stdout
        samples = [line.split(",") for line in output.split("\n") if re.fullmatch("[01],[01]", line)]
        self.assertIn(len(samples), (82_118, 82_119))
        for column, wanted in enumerate((INT[1:], [40_960, 58_458])):
            values = [sample[column] for sample in samples] + ["0"]
            changes = [tick for tick in range(1, len(values)) if values[tick] != values[tick - 1]]
            self.assertEqual(changes, wanted)
