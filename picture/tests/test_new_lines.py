"""Items with `set`, `at`, `stretch`, `=>` and `degrees`; left out where the program does not know these lines."""

import unittest

import page
from tests.support import answers_new_lines, labels, overlaps, runs

# An event of differences, P 16,384 and N 2, by its moments.
MOMENTS = """item moments
set 38 1010 0000 => ok
set 3F 0080 0060
bus 08 => no 8
bus 05
bus 08 => ok flight
at 100
flight 64 / 0 => good
at 16384 => 16384 started-flight@16384
awaited => 0
stretch 16384 => 16384
stretch 16385
at 40000
bus 02
at 8192
"""
# T1 320 periods, T2 304, references 248: 1,290,322 and 1,225,806 milliohms.
# By the rule of the table, entries 75 and 76 are 1,289,874 and 1,293,695, entries 58 and 59 1,224,739 and 1,228,579.
DEGREES = """item degrees
set 3F 0000 0860
bus 05
bus 09
temperature 1400000 1300000 F80000 F80000
degrees 1400000 F80000
tick 32768
temperature 1300000 1400000 F80000 F80000
"""


@unittest.skipUnless(answers_new_lines(), "the program does not know these lines")
class NewLines(unittest.TestCase):
    def test_moments(self) -> None:
        (run,) = runs(MOMENTS)
        found = [(run.steps[one.first].tick, run.steps[one.last].tick, one.outcome) for one in run.measurements]
        # the stretch ends at 32,768, `at` goes on to 40,000, and counts anew from the command there
        wanted = [(0, 100, "good"), (16_384, 24_576, "expired"), (40_000, 48_192, "expired")]
        self.assertEqual(found, wanted)
        self.assertEqual([check.words for check in run.checks("differs")], [["awaited 1 0, expected 0"]])
        self.assertEqual(run.expected, 7)
        refused = [step.transaction.label for step in run.steps if step.transaction and step.transaction.refused]
        self.assertEqual(refused, ["EVTMG2: no 8 not initialised", "stretch: no 12 span"])

    def test_degrees(self) -> None:
        (run,) = runs(DEGREES)
        found = [(step.tick, reading.ports, reading.value) for step in run.steps for reading in step.readings]
        # 75 + (1,290,322 - 1,289,874) / 3,821 and, asked for the second delivery, 58 + 1,067 / 3,840
        self.assertEqual(found, [(0, (1, 3), 75.117), (32_768, (1, 3), 58.277)])
        text = page.svg_text([run])
        self.assertIn("T1/T3 75.117 °C", [label.words for label in labels(text)])
        self.assertEqual(overlaps(text), [])
