"""Tests of the Python layer: what it adds to the library."""

from __future__ import annotations

import copy
import doctest
import os
import pickle
import subprocess
import sys
import threading
import unittest
from pathlib import Path
from typing import Any, Callable

import max35101
import max35101.items
from max35101 import Delivered, Model, Refusal, Refused


def load_tests(loader: unittest.TestLoader, tests: unittest.TestSuite, pattern: object) -> unittest.TestSuite:
    """The examples of the package's own pages too."""
    for module in (max35101, max35101.items):
        tests.addTests(doctest.DocTestSuite(module))
    return tests


class Calls(unittest.TestCase):
    """The model's calls."""

    def refused(self, refusal: Refusal, call: Callable[..., object], *arguments: object) -> None:
        """The call must be refused, by this number."""
        with self.assertRaises(Refused) as caught:
            call(*arguments)
        self.assertIs(caught.exception.refusal, refusal)

    def test_a_model_is_kept_as_bytes(self) -> None:
        model = Model()
        model.transaction(bytes.fromhex("381010"))
        again = Model(bytes(model), model.flash)
        self.assertEqual(again, model)
        self.assertNotEqual(again, Model())
        self.refused(Refusal.UNSOUND, Model, b"")
        self.refused(Refusal.UNSOUND, Model, bytes(233))
        self.refused(Refusal.UNSOUND, Model, b"\2" + bytes(model)[1:])
        self.assertEqual(Model(bytearray(bytes(model)), memoryview(model.flash)), model)
        with self.assertRaises(ValueError):
            Model(bytes(model), b"")
        with self.assertRaises(TypeError):
            Model(233)  # type: ignore[arg-type]

    def test_a_copy_goes_its_own_way(self) -> None:
        model = Model()
        other = model.copy()
        other.stretch(100)
        self.assertEqual(model, Model())
        self.assertNotEqual(other, model)

    def test_copies_and_pickles(self) -> None:
        model = Model()
        model.transaction(b"\x0c")
        model.transaction(bytes.fromhex("1000001234"))
        for other in (copy.copy(model), copy.deepcopy(model), pickle.loads(pickle.dumps(model))):
            self.assertEqual(other, model)
            other.transaction(bytes.fromhex("130000"))
            self.assertNotEqual(other, model)
        refused = pickle.loads(pickle.dumps(Refused(Refusal.SET_UP)))
        self.assertEqual((refused.refusal, str(refused)), (Refusal.SET_UP, "9: set-up"))

    def test_a_model_is_equal_to_models_alone(self) -> None:
        class Anything:
            def __eq__(self, other: object) -> bool:
                return True

        self.assertEqual(Model(), Anything())
        self.assertNotEqual(Model(), bytes(Model()))
        with self.assertRaises(TypeError):
            hash(Model())

    def test_a_refusal_changes_nothing(self) -> None:
        model = Model()
        self.refused(Refusal.NOT_INITIALISED, model.transaction, b"\2")
        self.refused(Refusal.NO_FRAME, model.transaction, b"")
        self.refused(Refusal.SPAN, model.stretch, 16385)
        self.refused(Refusal.NOT_AWAITED, model.deliver_flight, [], [])
        self.refused(Refusal.ADDRESS, model.peek, 0x30)
        self.assertEqual(model, Model())

    def test_a_list_is_its_calls_one_after_the_other(self) -> None:
        calls = max35101.Calls().transaction(b"\2").transaction(bytes.fromhex("381010")).transaction(b"\5")
        calls.transaction(b"\2").tick().stretch(16385).deliver_flight([0x64], [0x01])
        calls.transaction(bytes.fromhex("E200000000")).deliver_temperature([1, 2, 3, 4])
        calls.transaction(b"\2").stretch(8192).transaction(bytes.fromhex("FE0000"), 1).deliver_flight([1], [1])
        model, single = Model(), Model()
        self.assertEqual(
            model.run(calls),
            [
                Refusal.NOT_INITIALISED,
                max35101.Started(False, False, b""),
                max35101.Started(False, False, b""),
                max35101.Started(True, False, b""),
                max35101.Ticked(False, False, False, False),
                Refusal.SPAN,
                Delivered.GOOD,
                max35101.Started(False, False, b"\0\0\0\x63"),
                Refusal.NOT_AWAITED,
                max35101.Started(True, False, b""),
                max35101.Stretched(None, 8192, None, None),
                Refusal.SHORT_OUTPUT,
                Refusal.NOT_AWAITED,
            ],
        )
        for frame in ("381010", "05", "02"):
            single.transaction(bytes.fromhex(frame))
        single.tick()
        single.deliver_flight([0x64], [0x01])
        single.transaction(b"\2")
        single.stretch(8192)
        self.assertEqual(model, single)
        self.assertEqual(model.run(max35101.Calls()), [])
        self.assertEqual(model, single)

    def test_what_counts_as_true(self) -> None:
        model = Model()
        calls = max35101.Calls().transaction(bytes.fromhex("381010")).transaction(b"\5").transaction(b"\2")
        calls.deliver_flight([1], [1]).deliver_flight([1], [1])
        calls.transaction(b"\2").deliver_flight([0xFFFFFFFF], [1])
        *_, good, refused, _, failed = model.run(calls)
        self.assertEqual((good, refused, failed), (Delivered.GOOD, Refusal.NOT_AWAITED, Delivered.FAILED))
        self.assertEqual((bool(good), bool(failed)), (True, False))
        for refusal in (refused, *Refusal):
            with self.assertRaises(TypeError):
                bool(refusal)
        model.transaction(b"\2")
        self.assertIs(model.deliver_flight([0xFFFFFFFF], [1]), Delivered.FAILED)

    def test_a_list_stays_as_it_was_after_an_error(self) -> None:
        calls = max35101.Calls().transaction(bytes.fromhex("381010"))
        wrong: list[tuple[type[Exception], Callable[[], Any]]] = [
            (OverflowError, lambda: calls.transaction(b"\5", -1)),
            (TypeError, lambda: calls.transaction("05")),  # type: ignore[arg-type]
            (TypeError, lambda: calls.transaction(3)),  # type: ignore[arg-type]
            (OverflowError, lambda: calls.stretch(1 << 32)),
            (OverflowError, lambda: calls.deliver_flight([1], [-1])),
            (TypeError, lambda: calls.deliver_flight([1], [0.5])),  # type: ignore[list-item]
            (OverflowError, lambda: calls.deliver_temperature([1, 2, 3, 1 << 32])),
        ]
        for error, add in wrong:
            with self.assertRaises(error):
                add()
        calls.transaction(b"\5").transaction(b"\2").deliver_flight([2], [1])
        self.assertEqual(len(calls), 4)
        model = Model()
        self.assertIs(model.run(calls)[-1], Delivered.GOOD)
        self.assertEqual(model.difference(), 1)

    def test_the_words_are_those_of_one_moment(self) -> None:
        class Changing(list):  # type: ignore[type-arg]
            """Has more words each time it is asked how many."""

            def __len__(self) -> int:
                self.append(0)
                return super().__len__() + 1000

        model = Model()
        for frame in ("381010", "400060", "05", "02"):
            model.transaction(bytes.fromhex(frame))
        self.assertIs(model.deliver_flight(Changing([3]), Changing([1])), Delivered.GOOD)
        model.transaction(b"\3")
        self.assertIs(model.deliver_temperature(Changing([0x200000] * 4)), Delivered.GOOD)
        self.assertEqual(max35101.degrees_by(Changing([500_000, 1_500_000]), 1, 1), 0.5)
        self.assertEqual(max35101.quietest(Changing([9, 1, 2]), 2), [1, 2])
        self.assertEqual(len(max35101.listing(Changing([1, 2]), 0)), 46)
        wide = memoryview(bytes.fromhex("FE000000")).cast("I")
        self.refused(Refusal.FRAME_LENGTH, model.transaction, wide)

    def test_threads_share_a_model(self) -> None:
        model = Model()
        calls = max35101.Calls()
        for _ in range(100):
            calls.tick()

        def work() -> None:
            for _ in range(50):
                model.tick()
                model.stretch(9)
                model.run(calls)
                model.copy().difference()

        threads = [threading.Thread(target=work) for _ in range(4)]
        for thread in threads:
            thread.start()
        for thread in threads:
            thread.join()
        single = Model()
        for _ in range(2):
            single.stretch(4 * 50 * 110 // 2)
        self.assertEqual(model, single)

    def test_the_output_of_a_frame(self) -> None:
        model = Model()
        for frame, size in (("", 0), ("05", 0), ("fe", 0), ("fe00", 0), ("fe0000", 2), ("9000", 2), ("b0000000", 2)):
            self.assertEqual(max35101.output_size(bytes.fromhex(frame)), size)
        self.assertEqual(model.transaction(bytes.fromhex("fe0000")).output, b"\0\4")
        self.assertEqual(model.transaction(bytes.fromhex("fe0000"), 4, 0xEE).output, b"\0\0\xee\xee")
        self.refused(Refusal.SHORT_OUTPUT, model.transaction, bytes.fromhex("fe0000"), 1)

    def test_words_out_of_range(self) -> None:
        model = Model()
        for word in (-1, 1 << 32):
            with self.assertRaises(OverflowError):
                model.deliver_flight([word], [])
            with self.assertRaises(OverflowError):
                model.stretch(word)
        with self.assertRaises(OverflowError):
            max35101.nanoseconds(1 << 31)

    def test_the_flash_is_the_model_s_own(self) -> None:
        model = Model()
        model.transaction(b"\x0c")
        model.transaction(bytes.fromhex("1000001234"))
        self.assertEqual(model.transaction(bytes.fromhex("9000000000")).output, b"\x12\x34")
        self.assertEqual(model.flash[:3], b"\x12\x34\xff")
        self.assertTrue(model.regulator_on())
        self.refused(Refusal.NOT_ERASED, model.transaction, bytes.fromhex("1000005678"))

    def test_the_state_of_the_run(self) -> None:
        model = Model()
        self.assertFalse(model.initialised())
        self.assertIsNone(model.flight_place())
        for frame in ("381010", "3f0100", "05", "08"):
            model.transaction(bytes.fromhex(frame))
        self.assertTrue(model.initialised())
        model.tick()
        self.assertEqual((model.flight_left(), model.temperature_left()), (8191, None))
        place = max35101.EventPlace(planned=3, started=1, settled=0, good=0, next_start=16383, continuous=False)
        self.assertEqual(model.flight_place(), place)
        model.deliver_flight([100], [90])
        self.assertEqual(model.flight_place(), place._replace(settled=1, good=1))
        self.assertEqual((model.flight_left(), model.temperature_place()), (None, None))
        model.stretch(16384)
        model.stretch(16384)
        started = model.flight_place()
        assert started
        self.assertEqual((started.started, started.next_start), (3, None))

    def test_set_up_frames(self) -> None:
        model = Model()
        self.assertEqual(model.setup_frames(), [])
        model.transaction(bytes.fromhex("3812340001"))
        for frame in model.setup_frames():
            other = Model()
            other.transaction(frame)
            self.assertEqual(other.setup_frames(), model.setup_frames())


class Analysis(unittest.TestCase):
    """The calls beside the model."""

    def test_degrees(self) -> None:
        self.assertEqual(max35101.degrees(1_385_055, 1_000_000), 100.0)
        self.assertEqual(max35101.degrees_by([500_000, 1_500_000], 1, 1), 0.5)
        with self.assertRaises(Refused):
            max35101.degrees(1, 0)

    def test_quietest(self) -> None:
        values = [9, 1, 2, 2, 7]
        self.assertEqual(max35101.quietest_place(values, 2), 2)
        self.assertEqual(max35101.quietest(values, 3), [1, 2, 2])
        for width in (-1, 0, 6, 1 << 70):
            with self.assertRaises(Refused):
                max35101.quietest(values, width)

    def test_nanoseconds_are_exact(self) -> None:
        for quanta in (-(1 << 31), -1, 0, 1, 65_536, (1 << 31) - 1):
            self.assertEqual(max35101.nanoseconds(quanta) * 65_536, quanta * 250)

    def test_listing(self) -> None:
        self.assertEqual(len(max35101.listing([1, 2], 0)), 46)
        self.assertEqual(len(max35101.listing([1, 2], 0, digits=2)), 34)
        for digits in (0, 3, 0xFFFFFFFF):
            with self.assertRaises(Refused) as caught:
                max35101.listing([1], 0, digits=digits)
            self.assertIs(caught.exception.refusal, Refusal.DIGITS)
        for digits in (-15, 1 << 32):
            with self.assertRaises(OverflowError):
                max35101.listing([1], 0, digits=digits)


class Import(unittest.TestCase):
    """What an import says without a library."""

    def said(self, library: str) -> str:
        environment = {**os.environ, "MAX35101_LIBRARY": library}
        done = subprocess.run(
            [sys.executable, "-c", "import max35101"], cwd=Path(__file__).parent, env=environment, text=True,
            stderr=subprocess.PIPE,
        )  # fmt: skip
        self.assertEqual(done.returncode, 1)
        return done.stderr.splitlines()[-1]

    def test_no_library(self) -> None:
        said = self.said("/none/libmax35101.so")
        self.assertTrue(said.startswith("ImportError: /none/libmax35101.so: "), said)
        self.assertTrue("library/build" in said and "MAX35101_LIBRARY" in said, said)

    def test_a_library_without_the_functions(self) -> None:
        said = self.said("libc.so.6")
        self.assertTrue(said.startswith("ImportError: ") and "max35101_fresh" in said and "library/build" in said, said)


if __name__ == "__main__":
    unittest.main()
