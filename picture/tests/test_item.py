"""Lines and answers, by docs/ITEMS.md."""

import unittest

import item
from item import Answer, Line, Report


def read(text: str) -> Line:
    line = item.read_line(1, text)
    assert line
    return line


class Lines(unittest.TestCase):
    def test_what_answers_nothing(self) -> None:
        text = "# a comment\n\n \t \nint\r\n  tick\t 5 "
        found = [(line.number, line.words) for line in item.read_lines(text)]
        self.assertEqual(found, [(4, ("int",)), (5, ("tick", "5"))])

    def test_too_long_comment_is_a_bad_line(self) -> None:
        self.assertIsNone(item.read_line(1, "#" * 1000))
        self.assertIsNotNone(item.read_line(1, "#" * 1001))

    def test_expected_words(self) -> None:
        self.assertEqual(read("bus 08 => no 8").wanted, ("no", "8"))
        self.assertEqual(read("bus 08 =>").wanted, ())
        self.assertIsNone(read("bus 08").wanted)
        self.assertEqual(read("item => 5").words, ("item", "=>", "5"))

    def test_frames(self) -> None:
        self.assertEqual(item.frame(read("bus out=3 FE 0a 00")), bytes([0xFE, 0x0A, 0x00]))
        self.assertEqual(item.frame(read("set 38 1010 5")), bytes([0x38, 0x10, 0x10, 0x00, 0x05]))

    def test_delivered_words(self) -> None:
        self.assertEqual(item.delivered(read("flight 1 2 / 3")), ([1, 2], [3]))
        self.assertEqual(item.delivered(read("temperature A 0B C D")), ([10, 11, 12, 13], []))


class Answers(unittest.TestCase):
    def test_refusals(self) -> None:
        self.assertEqual(Answer("bus no 5 short output out EE").refused, "5 short output")
        self.assertEqual(Answer("flight no 10 not awaited").refused, "10 not awaited")
        self.assertEqual(Answer("int no").refused, "")
        self.assertEqual(Answer("item no 6 busy").refused, "")

    def test_started(self) -> None:
        self.assertEqual(Answer("bus ok flight+temperature").started, ("flight", "temperature"))
        self.assertEqual(Answer("bus ok - out 0004").started, ())

    def test_bad_line(self) -> None:
        self.assertEqual(item.read_answer(read("int x"), ["line 7: wrong count"]).bad, "wrong count")

    def test_expectation_that_differs(self) -> None:
        answer = item.read_answer(read("set 38 1010 => ok"), ["set no 6 busy expected ok"])
        self.assertEqual((answer.refused, answer.expected), ("6 busy", "ok"))
        answer = item.read_answer(read("expect E2 1 2"), ["expect E2 differs E2:0000/0001 E3:FFFF/0002"])
        self.assertEqual(answer.differences, [("E2", "0000", "0001"), ("E3", "FFFF", "0002")])

    def test_waits(self) -> None:
        line, answer = read("at 16500"), Answer("at 16500 started-flight@16384")
        self.assertEqual(item.waited(line, answer, 100), 16400)
        self.assertEqual(item.reports(line, answer, 100), [Report("started", "flight", 16284)])
        line, answer = read("tick 9"), Answer("tick 9 failed-temperature@3")
        self.assertEqual(item.waited(line, answer, 100), 9)
        self.assertEqual(item.reports(line, answer, 100), [Report("failed", "temperature", 3)])
        self.assertEqual(item.waited(read("stretch 16385"), Answer("stretch no 12 span"), 0), 0)

    def test_word_of_a_read(self) -> None:
        answer = Answer("bus ok - out 00011002")
        self.assertEqual(item.read_word(bytes([0xFD, 0, 0, 0, 0]), answer, 0xFE), 0x1002)
        self.assertIsNone(item.read_word(bytes([0xFC, 0, 0, 0, 0]), answer, 0xFE))
        self.assertIsNone(item.read_word(bytes([0xFE, 0, 0]), Answer("bus no 5 short output out EE"), 0xFE))
        # a longer buffer than was filled: what lies behind was not read
        self.assertIsNone(item.read_word(bytes([0xFD, 0, 0]), Answer("bus ok - out 0001EEEE"), 0xFE))

    def test_degrees(self) -> None:
        self.assertEqual(item.degrees(Answer("degrees 99.998")), 99.998)
        self.assertIsNone(item.degrees(Answer("degrees no 13 off the table")))
