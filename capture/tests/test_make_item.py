"""The examples against their items, ticks, expected answers, and the command with its faults."""

from __future__ import annotations

import os
import resource
import subprocess
import sys
import tempfile
import unittest
from typing import Any

import make_item

from tests.helper import EXAMPLES, FOLDER, PROGRAM, RATE, Case, made_of, run, stored

TABLE = "time,mosi\n0,05\n"


class Examples(Case):
    def made(self, wanted: str, *arguments: str) -> None:
        done = run(*arguments)
        self.assertEqual((done.stdout, done.stderr, done.returncode), (stored(wanted), "", 0))

    def test_every_form_gives_the_same_item(self) -> None:
        with_words = ("--name", "example", "--lines", "words.csv")
        self.made("example.item", "--name", "example", "table.csv")
        self.made("example.item", "--name", "example", "semicolons.csv")
        self.made("example.item", *with_words, "logic2.csv")
        self.made("example.item", *with_words, "logic1.csv")
        self.made("example.item", *with_words, "--sigrok", "1M", "sigrok.txt")

    def test_samples(self) -> None:
        self.made("samples.item", "--sigrok", "10k", "samples.csv")

    def test_a_capture_without_words(self) -> None:
        """The delivery, which is not on the bus, is lacking, and its ticks are in one line."""
        delivered = ["tick 102", "flight 460000 470000 / 480000 490000", "tick 227"]
        wanted = stored("example.item").splitlines()[1:]
        place = wanted.index(delivered[1]) - 1
        self.assertEqual(wanted[place : place + 3], delivered)
        self.assertEqual(made_of(stored("logic2.csv")), wanted[:place] + ["tick 329"] + wanted[place + 3 :])

    def test_replayed(self) -> None:
        if not os.path.exists(PROGRAM):
            self.skipTest("the program replay is not built")
        for name in ("example", "samples"):
            done = subprocess.run([PROGRAM], input=stored(f"{name}.item"), capture_output=True, text=True)
            self.assertEqual((done.stdout, done.returncode), (stored(f"{name}.expected"), 0))


class Ticks(Case):
    def test_errors_do_not_add_up(self) -> None:
        # a window each millisecond: 32.768 ticks each, 32,768 after a second
        rows = ["time,mosi"] + [f"{5 + n / 1000:.3f},05" for n in range(1001)]
        ticks = [int(line.split()[1]) for line in made_of("\n".join(rows)) if line.startswith("tick")]
        self.assertEqual((sum(ticks), set(ticks)), (32_768, {32, 33}))

    def test_rounded_down(self) -> None:
        made = made_of("time,mosi\n0,05\n0.0000305,05\n0.0000306,05\n1,05\n")
        # 0.0000305 s are 0.9994 ticks
        self.assertEqual(made, ["bus 05", "bus 05", "tick 1", "bus 05", "tick 32767", "bus 05"])

    def test_times_before_a_trigger(self) -> None:
        self.assertEqual(made_of("time,mosi\n-1.5,05\n-5e-1,05\n"), ["bus 05", "tick 32768", "bus 05"])

    def test_two_days(self) -> None:
        made = made_of("time,mosi\n0,05\n172800,05\n")
        self.assertEqual(made, ["bus 05", "tick 4294967295", "tick 1367343105", "bus 05"])
        self.assertEqual(4_294_967_295 + 1_367_343_105, 172_800 * 32_768)

    def test_rates(self) -> None:
        for text, rate in [("1M", 10**6), ("1MHz", 10**6), ("24 MHz", 24 * 10**6), ("12.5k", 12_500), ("8000000", 8 * 10**6)]:
            self.assertEqual(make_item.read_rate(text), rate)
        for text in ["", "0", "fast", "-1M", "1T", "1" * 5_000]:
            with self.assertRaises(make_item.argparse.ArgumentTypeError):
                make_item.read_rate(text)


class Answers(Case):
    def test_reads(self) -> None:
        made = made_of("time,mosi,miso\n0,B0 00 00 00 00,EE 12 34 56 78\n0,90 00 02 00 00,EE EE EE AB CD\n")
        self.assertEqual(made[0], "bus B0 00 00 00 00 => ok - out 12345678")
        self.assertEqual(made[1], "bus 90 00 02 00 00 => ok - out ABCD")

    def test_no_read(self) -> None:
        rows = ["time,mosi,miso", "0,38 10 10,00 00 00", "0,FE 00,12 34", "0,FE,12", "0,90 00 00,00 00 00", "0,,"]
        made = made_of("\n".join(rows))
        self.assertEqual(made, ["bus 38 10 10", "bus FE 00", "bus FE", "bus 90 00 00", "bus"])

    def test_sent_alone(self) -> None:
        self.assertEqual(made_of("0-1 spi-1: mosi-transfer: FE 00 00\n", RATE), ["bus FE 00 00"])
        self.assertEqual(made_of("time,mosi\n0,FE 00 00\n"), ["bus FE 00 00"])

    def test_starts_ask_for_a_delivery(self) -> None:
        made = made_of("time,mosi\n1,07\n1.5,03\n")
        words = "`flight U .. / D ..` and `temperature T1 T2 T3 T4`"
        self.assertEqual(made[1], f"# EVTMG1 at 0.000000 s: {words} within 8,192 ticks of a start")
        self.assertIn("Temperature at 0.500000 s", made[4])


class Limits(Case):
    def test_frames(self) -> None:
        self.assertEqual(made_of("time,mosi\n0," + "00 " * 200 + "\n"), ["bus" + " 00" * 200])
        self.refused("time,mosi\n0,05\n1," + "00 " * 201 + "\n", "3: a window of 201 bytes; a line takes 200")

    def test_lines(self) -> None:
        line = "record" + " 1" * 497
        self.assertEqual(len(line), 1_000)
        self.assertEqual(made_of(f"time,mosi\n0,05\n0,{line}\n"), ["bus 05", line])
        self.refused(f"time,mosi\n0,05\n0,{line}1\n", "3: a line of 1001 bytes; an item takes 1000")
        # a read of 98 words has 999 bytes with what is expected of it, one of 99 has 1,009
        for words, length in ((98, 999), (99, 0)):
            text = "time,mosi,miso\n0,B0" + " 00" * 2 * words + ",00" + " 00" * 2 * words + "\n"
            if length:
                self.assertEqual([len(line) for line in made_of(text)], [length])
            else:
                self.refused(text, "2: a line of 1009 bytes")

    def test_lengths(self) -> None:
        self.refused("time,mosi,miso\n0,05,00\n0,FE 00 00,10 00\n", "3: a window with 3 bytes of MOSI and 2 of MISO")
        self.refused("time,mosi,miso\n0,FE 00 00,\n", "2: a window with 3 bytes of MOSI and 0 of MISO")


class Command(Case):
    def fails(self, message: str, *arguments: str, text: str = "", **options: Any) -> None:
        done = run(*arguments, text=text, **options)
        self.assertEqual((done.returncode, done.stdout), (1, ""))
        self.assertEqual(done.stderr.count("\n"), 1, done.stderr)
        self.assertIn(message, done.stderr)

    def test_messages(self) -> None:
        self.fails("cannot read no.csv: No such file", "no.csv")
        self.fails("cannot read .: Is a directory", ".")
        self.fails("-:2: these are no bytes of two hexadecimal digits: x", text="time,mosi\n0,x\n")
        self.fails("words.csv:1: no window in the whole capture", "words.csv")
        self.fails("table.csv:2: not a line of an item", "--lines", "table.csv", "logic2.csv")

    def test_no_time_without_end(self) -> None:
        self.fails("-:2: no time in seconds: 1e6000", text="time,mosi\n1e6000,05\n", timeout=10)
        self.fails("-:2: a time of more than 10,000,000,000 seconds", text="time,mosi\n1e99,05\n", timeout=10)
        self.fails("-:1: a time of", "--sigrok", "0.000000000001", text="0-9 spi-1: mosi-transfer: 05\n", timeout=10)

    def test_a_cell_without_end(self) -> None:
        self.fails("-:2: no row of a table: field larger", text="time,mosi\n0," + "0" * 200_000 + "\n")
        self.fails("-:1: a window of 66667 bytes", "--sigrok", "1M", text="0-9 spi-1: mosi-transfer:" + " 00" * 66_667)
        self.fails("-:3: no row of a table: unexpected end", text='time,mosi\n0,"05\n0,05\n')

    def test_names(self) -> None:
        for name, wanted in (("two words", "two words"), ("a\nbus 04", "a?bus 04"), ("a\r\u2028\x1b", "a???"), ("", "capture")):
            done = run("--name", name, text=TABLE)
            self.assertEqual((done.stdout, done.returncode), (f"item {wanted}\nbus 05\n", 0))
        self.fails("no name for an item", "--name", " ", text=TABLE)
        self.fails("no name for an item", "--name", "n" * 996, text=TABLE)

    def test_the_name_of_a_file(self) -> None:
        with tempfile.TemporaryDirectory() as folder:
            for name in (b"a\nbus 04.csv", b"a\xffbus 04.csv"):
                path = os.path.join(os.fsencode(folder), name)
                with open(path, "w", encoding="utf-8") as file:
                    file.write(TABLE)
                done = run(os.fsdecode(path))
                self.assertEqual((done.stdout, done.returncode), ("item a?bus 04\nbus 05\n", 0))

    def test_closed_ends(self) -> None:
        """Outputs that are full, closed, or that nobody reads, and an input that is closed."""
        script = f"'{sys.executable}' '{FOLDER}/make_item.py'"
        for command, message in (
            (f"{script} table.csv > /dev/full", "cannot write standard output: No space left"),
            (f"{script} --output /dev/full table.csv", "cannot write /dev/full: No space left"),
            (f"{script} table.csv >&-", "cannot write standard output: it is closed"),
            (f"{script} <&-", "cannot read -: standard input is closed"),
            (f"(sleep 0.3; {script} table.csv; echo $? >&2) | true", "cannot write standard output: Broken pipe"),
        ):
            done = subprocess.run(["bash", "-c", command], capture_output=True, text=True, cwd=EXAMPLES)
            self.assertIn(message, done.stderr)
            self.assertNotIn("Traceback", done.stderr)
            self.assertEqual("true" in command or done.returncode == 1, True, command)
            self.assertEqual("true" not in command or done.stderr.endswith("\n1\n"), True, done.stderr)

    def test_output(self) -> None:
        with tempfile.TemporaryDirectory() as folder:
            path = os.path.join(folder, "made.item")
            for _ in range(2):
                done = run("--name", "example", "--output", path, "table.csv")
                self.assertEqual((done.stdout, done.stderr, done.returncode), ("", "", 0))
                with open(path, encoding="utf-8") as file:
                    self.assertEqual(file.read(), stored("example.item"))
            limit = lambda: resource.setrlimit(resource.RLIMIT_FSIZE, (10, 10))  # noqa: E731
            self.fails(f"cannot write {path}: File too large", "--output", path, "table.csv", preexec_fn=limit)
            self.fails("words.csv:1: no window", "--output", path, "words.csv")
            with open(path, encoding="utf-8") as file:
                self.assertEqual(file.read(), stored("example.item"))
            self.assertEqual(os.listdir(folder), ["made.item"])
            self.fails("cannot write", "--output", os.path.join(folder, "none", "made.item"), "table.csv")

    @unittest.skipIf(os.geteuid() == 0, "root may write every file")
    def test_a_file_that_is_not_to_be_written(self) -> None:
        with tempfile.TemporaryDirectory() as folder:
            path = os.path.join(folder, "made.item")
            os.close(os.open(path, os.O_CREAT, 0o444))
            self.fails(f"cannot write {path}: it is not to be written", "--output", path, "table.csv")

    def test_standard_input_is_read_once(self) -> None:
        done = run("--lines", "-", "-", text=TABLE)
        self.assertEqual((done.returncode, done.stdout, "Traceback" in done.stderr), (2, "", False))

    def test_the_capture_is_not_written_over(self) -> None:
        with tempfile.TemporaryDirectory() as folder:
            path = os.path.join(folder, "bus.csv")
            with open(path, "w", encoding="utf-8") as file:
                file.write(TABLE)
            os.symlink(path, os.path.join(folder, "link"))
            self.fails("the capture itself", "--output", os.path.join(folder, "link"), path)
            with open(path, encoding="utf-8") as file:
                self.assertEqual(file.read(), TABLE)
