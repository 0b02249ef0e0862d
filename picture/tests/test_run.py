"""What happened in stored items, against values worked out from the items."""

import unittest

from registers import clock_text, means
from run import Run
from tests.support import CRATES, EXAMPLES, NEEDS_PROGRAM, runs, text_of


def outcomes(run: Run, kind: str) -> list[tuple[int, int, str]]:
    """Each measurement's start, end and outcome, in ticks."""
    found = [one for one in run.measurements if one.kind == kind]
    return [(run.steps[one.first].tick, run.steps[one.last].tick, one.outcome) for one in found]


def levels(run: Run, is_high) -> list[int]:
    """The ticks at which something goes up, down, up and so on."""
    found, was = [], False
    for step in run.steps:
        if is_high(step.state) != was:
            was = not was
            found.append(step.tick)
    return found


@NEEDS_PROGRAM
class Event(unittest.TestCase):
    """examples/event.item: P is 16,384 and N 6 for differences, 32,768 and 3 for temperatures."""

    def setUp(self) -> None:
        self.run_of = runs(text_of(EXAMPLES, "event.item"))[0]

    def test_flights(self) -> None:
        wanted = [
            (0, 90, "good"),
            (16_384, 16_474, "good"),
            (32_768, 32_858, "failed"),
            (49_152, 57_344, "expired"),
            (65_536, 65_658, "good"),
            (81_920, 82_088, "good"),
            (3_031_238, 3_031_358, "dropped"),
        ]
        self.assertEqual(outcomes(self.run_of, "flight"), wanted)

    def test_temperatures(self) -> None:
        wanted = [(0, 1_000, "good"), (32_768, 33_858, "failed"), (65_536, 66_558, "good")]
        self.assertEqual(outcomes(self.run_of, "temperature"), wanted)

    def test_alarm(self) -> None:
        # From 06:59:58.75 to 07:00 there are 1.25 s, 40,960 ticks; the read of FEh at 58,458 clears AF.
        self.assertEqual(levels(self.run_of, lambda state: state.status >> 14 & 1 == 1), [40_960, 58_458])

    def test_interrupt(self) -> None:
        # Up with INT_EN, since POR is set, then with each settling and the alarm; down by the read 30 ticks later.
        # 42h is one of five writes that share a place, so the first rise is at 0, as is the first read.
        wanted = [0, 0, 90, 120, 1_000, 1_030, 16_474, 16_504, 32_858, 32_888, 33_858, 33_888]
        wanted += [40_960, 58_458, 65_658, 66_588, 82_088, 82_118, 3_031_358, 3_031_388]
        self.assertEqual(levels(self.run_of, lambda state: state.interrupt), wanted)

    def test_status_reads(self) -> None:
        read = [(step.tick, step.status_read) for step in self.run_of.steps if step.status_read is not None]
        wanted = [(0, 0x000C), (120, 0x1000), (1_030, 0x0800), (16_504, 0x1000), (32_888, 0x9000), (33_888, 0x8800)]
        wanted += [(58_458, 0xD000), (66_588, 0x1900), (82_118, 0x1200), (3_031_388, 0x0020)]
        self.assertEqual(read, wanted)

    def test_groups(self) -> None:
        flight, temperature = self.run_of.groups
        self.assertEqual((flight.kind, flight.size, flight.started), ("flight", 6, 6))
        self.assertEqual((flight.settled, flight.good), (6, 4))
        # -(125,902 + 125,640 + 126,164 + 125,377) / 4 = -125,770.75, rounded down
        self.assertEqual(flight.means, [-125_771])
        self.assertEqual((temperature.size, temperature.settled, temperature.good), (3, 3, 2))
        self.assertEqual(temperature.means, [0x1401000, 0x1300800, 0xF80000, 0xF80000])

    def test_differences_and_means(self) -> None:
        taken = [(step.delivery.difference, means(step.state, "flight")) for step in self.run_of.steps if step.delivery]
        good = [(difference, mean) for difference, mean in taken if difference is not None]
        wanted = [
            (-125_902, (1, [-125_902])),
            (-125_640, (2, [-125_771])),
            (-126_164, (3, [-125_902])),
            (-125_377, (4, [-125_771])),
        ]
        self.assertEqual(good, wanted)

    def test_late_bound(self) -> None:
        bounds = {step.delivery.bound for step in self.run_of.steps if step.delivery and step.delivery.kind == "flight"}
        self.assertEqual(bounds, {512 * 65_536})

    def test_expectations(self) -> None:
        # the words of the `expect` lines, and one refusal that is announced
        self.assertEqual(self.run_of.expected, 2 + 3 + 2 + 3 + 3 + 1)
        (check,) = self.run_of.checks("differs")
        self.assertEqual((check.line.number, check.words), (55, ["E6 has 14B5, expected 14B6"]))
        place = next(step.tick for step in self.run_of.steps if check in step.checks)
        self.assertEqual(place, 82_088)

    def test_refusal(self) -> None:
        refused = [step for step in self.run_of.steps if step.transaction and step.transaction.refused]
        self.assertEqual([(step.tick, step.transaction.label) for step in refused], [(16_474, "write 39: no 6 busy")])

    def test_clock(self) -> None:
        # 06:59:58.75 and 3,031,388 / 32,768 = 92.51062 s
        self.assertEqual(clock_text(self.run_of.steps[-1].state), "2026-03-02 07:01:31.26")


@NEEDS_PROGRAM
class Stored(unittest.TestCase):
    """crates/replay/data/all.item and more.item: the marked examples of document 01, and long random items."""

    @classmethod
    def setUpClass(cls) -> None:
        cls.of_name = {run.name: run for run in runs(text_of(CRATES, "replay", "data", "all.item") + text_of(CRATES, "replay", "data", "more.item"))}

    def test_first_example(self) -> None:
        run = runs(text_of(EXAMPLES, "first.item"))[0]
        self.assertEqual(outcomes(run, "flight"), [(0, 100, "good"), (100, 100, "failed")])
        self.assertEqual(run.checks("differs"), [])
        self.assertEqual(run.groups, [])

    def test_example_that_differs(self) -> None:
        run = runs(text_of(EXAMPLES, "differs.item"))[0]
        self.assertEqual([check.words for check in run.checks("differs")], [["E3 has 0000, expected 0001"]])

    def test_difference(self) -> None:
        run = self.of_name["1 difference -125902"]
        self.assertEqual([step.delivery.difference for step in run.steps if step.delivery], [-125_902])

    def test_late_bounds(self) -> None:
        # k = 0: 512 x 65,536; k = 6 and 7: words that are late are no hits.
        for name, bound in (("3 timeout k 0", 1 << 25), ("3 timeout k 6", 1 << 31), ("3 timeout k 7", 1 << 31)):
            run = self.of_name[name]
            found = [(step.delivery.outcome, step.delivery.bound) for step in run.steps if step.delivery]
            self.assertEqual(found, [("good", bound), ("failed", bound)], name)

    def test_single_direction_has_no_difference(self) -> None:
        run = self.of_name["5 stop 5"]
        found = [(step.delivery.outcome, step.delivery.difference) for step in run.steps if step.delivery]
        self.assertEqual(found, [("refused", None), ("good", None)])

    def test_two_starts(self) -> None:
        run = self.of_name["9 two starts"]
        # N is 2, and none is delivered; the item ends 16,384 ticks after the second start.
        self.assertEqual(outcomes(run, "flight"), [(0, 8_192, "expired"), (16_384, 24_576, "expired")])
        (group,) = run.groups
        self.assertEqual((group.size, group.started, group.settled, group.good), (2, 2, 2, 0))

    def test_undelivered(self) -> None:
        run = self.of_name["10 undelivered"]
        self.assertEqual(outcomes(run, "flight"), [(0, 8_192, "expired")])
        # between: awaited after 8,191 ticks
        self.assertEqual([step.tick for step in run.steps if step.state.awaited[0]], [0])

    def test_mean(self) -> None:
        (group,) = self.of_name["11 mean of -1 and 0"].groups
        self.assertEqual((group.good, group.means), (2, [-1]))

    def test_differing_expectation(self) -> None:
        (check,) = self.of_name["an expectation that differs"].checks("differs")
        self.assertEqual(check.words, ["E3 has FFFF, expected FFFE"])

    def test_end_of_the_century(self) -> None:
        run = self.of_name["7 end of the century"]
        self.assertEqual(clock_text(run.steps[-1].state), "2000-01-01 00:00:00.00")

    def test_twelve_hour_clock(self) -> None:
        found = {clock_text(step.state)[-2:] for step in self.of_name["twelve-hour clock"].steps}
        self.assertTrue({"AM", "PM"} & found)

    def test_bad_lines(self) -> None:
        found = [check for run in runs(text_of(CRATES, "replay", "data", "bad.item")) for check in run.checks("bad")]
        stored = text_of(CRATES, "replay", "stdout").split("\n")
        # bad.item is the first of the stored run with such lines, and has 33
        wanted = [line for line in stored if line.startswith("line ")][:33]
        self.assertEqual([f"line {check.line.number}: {check.words[0]}" for check in found], wanted)

    def test_every_start_has_one_end(self) -> None:
        """started = good + failed + expired + dropped + awaited, and the registers agree with what is awaited."""
        for run in self.of_name.values():
            last = run.steps[-1].state.awaited
            for kind, awaited in zip(("flight", "temperature"), last):
                self.assertEqual(run.count(kind, "awaited"), int(awaited), run.name)
