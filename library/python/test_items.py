"""Tests of the reader of items: lines and their faults. library/items.py compares whole items with stored answers."""

from __future__ import annotations

import unittest

from max35101 import Delivered, Refusal
from max35101.items import BadLine, Replay, lines, read


def answered(*text: str) -> list[str]:
    """The answers to lines, and the counts."""
    replay = Replay()
    return [answer.text for answer in replay.answers(text)] + [str(replay.counts)]


class Lines(unittest.TestCase):
    """What a line holds."""

    def fault(self, line: str) -> str | None:
        try:
            read(line)
        except BadLine as bad:
            return str(bad)
        return None

    def test_line_ends(self) -> None:
        self.assertEqual(list(lines(b"a\r\nb\n\r\r\nc\r")), ["a", "b", "\r", "c"])
        self.assertEqual(list(lines(b"")), [])
        self.assertEqual(list(lines(b"a\n\n")), ["a", ""])

    def test_nothing(self) -> None:
        for line in ("", " \t ", "#", "  # tick x", "#" * 1000):
            self.assertIsNone(read(line))

    def test_words(self) -> None:
        self.assertEqual(read("\tbus  out=3 FE 0a\t=> no  5"), ("bus", (b"\xfe\x0a", 3), ["no", "5"]))
        self.assertEqual(read("set 38 1 23"), ("set", (b"\x38\x00\x01\x00\x23",), None))
        self.assertEqual(read("flight / 1 FFFFFFFF"), ("flight", ([], [1, 0xFFFFFFFF]), None))
        self.assertEqual(read("record -2147483648 0000000007 =>"), ("record", ([-(1 << 31), 7],), []))
        self.assertEqual(read("listing old F7"), ("listing", (2, 0xF7), None))
        self.assertEqual(read("item => x"), ("item", (["=>", "x"],), None))

    def test_lines_that_are_calls(self) -> None:
        for line in (
            "tick 4294967295", "bus out=200 ff", "bus", "flight /", "set 43 0", "record", "listing old FFFFFFFF", "int => x",
            "bus 05 =>", "temperature => =>", "show", "expect FF 0", "record" + " 1" * 497,
        ):  # fmt: skip
            self.assertIsNone(self.fault(line), line)

    def test_bad_numbers(self) -> None:
        for line in (
            "tick 4294967296", "tick 00000000003", "tick +3", "tick ٣", "bus out=201 FF", "bus 5", "bus FF out=2",
            "flight 1 / 2 / x", "temperature 000000001", "expect AF 0", "expect FF x 0", "expect E0 0 => ok", "set 2F 0",
            "set 44 0", "set 30 x => ok", "at -1", "stretch x", "degrees x", "degrees 1 123456789", "probe 1 -1",
            "record 2147483648", "record -2147483649", "listing old old", "quietest 1.0", "bus 0_", "tick 5\x0b",
        ):  # fmt: skip
            self.assertEqual(self.fault(line), "bad number", line)

    def test_wrong_counts(self) -> None:
        for line in (
            "tick", "tick 5 x", "tick => 5", "flight 1", "flight / /", "expect FF 0 x", "expect FF 0 => ok", "expect FF", "item",
            "show => x", "set", "set 30", "int x => x", "degrees", "degrees 1", "degrees 1 2 x", "probe", "listing",
            "listing old", "listing 1 x", "quietest 1 x", "frames x", "bus" + " 00" * 201, "set 30" + " 0" * 100,
            "flight /" + " 1" * 17, "temperature" + " 1" * 17,
        ):  # fmt: skip
            self.assertEqual(self.fault(line), "wrong count", line)

    def test_unknown_words_and_long_lines(self) -> None:
        for line in ("ticks 5", "=> 5", "frame", "Tick 5", "expected"):
            self.assertEqual(self.fault(line), "unknown word", line)
        self.assertEqual(self.fault("#" * 1001), "too long")


class Replays(unittest.TestCase):
    """What lines answer."""

    def test_answers(self) -> None:
        replay = Replay()
        text = ("# a comment", "bus 05", "set 38 1010", "bus 02 => ok flight", "flight 64 / 1", "bus 06 => no 2", "bus", "tick x")
        said = list(replay.answers(text))
        self.assertEqual([answer.number for answer in said], [2, 3, 4, 5, 6, 7, 8])
        self.assertIs(said[3].delivered, Delivered.GOOD)
        self.assertEqual([answer.refusal for answer in said[4:6]], [Refusal.OPCODE, Refusal.NO_FRAME])
        self.assertEqual([answer.announced for answer in said[4:6]], [True, False])
        self.assertEqual([answer.line is None for answer in said[5:]], [False, True])
        self.assertEqual((said[6].text, said[6].fault), ("line 8: bad number", "bad number"))
        self.assertEqual(replay.model.peek(0xE3), 0x63)

    def test_moments_count_from_the_last_start(self) -> None:
        self.assertEqual(
            answered(
                "tick 5", "at 7", "set 38 0110", "bus 05", "at 6", "stretch 3", "at 10", "bus 02", "at 8192", "bus 02", "bus 02",
                "at 0", "at 8200", "item x", "at 0",
            ),
            [
                "tick 5", "at 7", "set ok -", "bus ok -", "line 5: past", "stretch 3", "at 10", "bus ok flight",
                "at 8192 failed-flight@8192", "bus ok flight", "bus no 6 busy", "at 0", "at 8200 failed-flight@8192", "item x",
                "at 0", "13 calls, 1 refused, 1 unannounced, 1 bad lines, 0 expectations, 0 differ",
            ],
        )  # fmt: skip

    def test_expectations(self) -> None:
        self.assertEqual(
            answered("bus => ok", "bus => no 1", "record 0 1", "listing 0 =>  3\tlines", "expect B2 0101 100 1", "at x => x"),
            [
                "bus no 1 no frame expected ok", "bus no 1 no frame", "record 0 1",
                "listing 2 expected 3 lines\n00000000        0.0000\n00000001        0.0038",
                "expect B2 differs B4:0000/0001", "line 6: bad number",
                "3 calls, 2 refused, 1 unannounced, 1 bad lines, 6 expectations, 3 differ",
            ],
        )  # fmt: skip

    def test_full_records_and_tables(self) -> None:
        text = ["record 7 7 7 7 7 7 7 7"] * 512 + ["record", "quietest 4096", "quietest 4097"]
        self.assertEqual(answered(*text)[-4:-1], ["line 513: no room", "quietest 0 0", "quietest no 18 width"])
        text = ["probe 1 2 3 4 5 6 7 8"] * 127 + ["probe 1 2 3 4 5 6 7 8 9", "probe 1 2 3 4 5 6 7 8", "degrees 1 1"]
        self.assertEqual(answered(*text)[-4:-1], ["line 128: no room", "probe 1024", "degrees no 14 bad table"])


if __name__ == "__main__":
    unittest.main()
