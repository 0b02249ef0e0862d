"""What sigrok prints: transfers of its spi decoder, and samples of the wires."""

from __future__ import annotations

import os
import shutil
import subprocess
import tempfile
import unittest

from tests.helper import RATE, Case, made_of

MOSI = "0-9 spi-1: mosi-transfer: FE 00 00\n"
MISO = "0-9 spi-1: miso-transfer: 00 10 0C\n"
WINDOW = ["bus FE 00 00 => ok - out 100C"]


class Transfers(Case):
    def of(self, text: str, transfers: str = "") -> list[str]:
        return made_of(text, RATE, transfers)

    def no(self, text: str, message: str, transfers: str = "") -> None:
        self.refused(text, message, RATE, transfers)

    def test_either_order(self) -> None:
        self.assertEqual(self.of(MOSI + MISO), WINDOW)
        self.assertEqual(self.of(MISO + MOSI), WINDOW)
        self.assertEqual(self.of(MOSI), ["bus FE 00 00"])
        self.assertEqual(self.of((MISO + MOSI).replace("\n", "\r\n\n")), WINDOW)

    def test_one_wire_behind_the_other(self) -> None:
        later = "1000-1009 spi-1: mosi-transfer: 05\n", "1000-1009 spi-1: miso-transfer: 00\n"
        self.assertEqual(self.of(MOSI + later[0] + MISO + later[1]), WINDOW + ["tick 32", "bus 05"])

    def test_as_pulseview_prints_them(self) -> None:
        self.assertEqual(self.of("0-9 SPI: MISO transfer: 00 10 0C\n0-9 SPI: MOSI transfer: FE 00 00\n"), WINDOW)
        self.assertEqual(self.of('0-9 spi-1: mosi-transfer: "05"\n'), ["bus 05"])

    def test_without_names(self) -> None:
        mosi, miso = MOSI.replace("mosi-transfer: ", ""), MISO.replace("miso-transfer: ", "")
        self.assertEqual(self.of(miso + mosi, "miso-mosi"), WINDOW)
        self.assertEqual(self.of(mosi + miso, "mosi-miso"), WINDOW)
        self.assertEqual(self.of(mosi, "mosi"), ["bus FE 00 00"])
        self.no(mosi, "1: no name tells whether this is a mosi-transfer: print the lines with --protocol-decoder-ann-class")
        self.no(mosi + miso, "2: more lines of the samples 0-9 than --transfers names", "mosi")
        self.no(miso, "1: a miso-transfer without a mosi-transfer", "miso-mosi")

    def test_end_of_a_window(self) -> None:
        made = self.of("0-10 spi-1: mosi-transfer: 05\n0999000-1000010 spi-1: mosi-transfer: 0A\n")
        self.assertEqual(made, ["bus 05", "tick 32768", "bus 0A"])

    def test_an_empty_window(self) -> None:
        self.assertEqual(self.of("0-10 spi-1: mosi-transfer: \n"), ["bus"])

    def test_refused(self) -> None:
        self.no("spi-1: 05\n", "1: neither FIRST-LAST spi-1: mosi-transfer: BYTES, with sample numbers")
        self.no(MOSI + "spi-1: 05\n", "2: not FIRST-LAST spi-1: mosi-transfer: BYTES, with sample numbers")
        self.no(MOSI + "\n20-10 spi-1: mosi-transfer: 05\n", "3: not FIRST-LAST")
        self.no("0-1 spi-1: mosi-transfer: 0x1 05\n", "1: these are no bytes")
        self.no("0-1 spi-1: mosi-data: 05\n", "1: no name tells whether this is a mosi-transfer")
        self.no(MOSI + MISO + MOSI, "3: a second mosi-transfer of the samples 0-9")
        self.no(MOSI + MISO.replace("spi-1", "spi-2"), "2: a second decoder, spi-2")
        self.no(MOSI + "20-29 i2c-1: mosi-transfer: 05\n", "2: not FIRST-LAST")
        self.no(MISO, "1: a miso-transfer without a mosi-transfer of the same samples")
        self.no(MOSI + MISO + "20-29 spi-1: mosi-transfer: 05\n", "3: a window with 1 bytes of MOSI and 0 of MISO")
        self.no(MOSI + MISO.replace(" 0C", ""), "1: a window with 3 bytes of MOSI and 2 of MISO")
        self.no("20-29 spi-1: mosi-transfer: 05\n" + MOSI, "2: the time goes back")
        self.no(MOSI + "8-20 spi-1: mosi-transfer: 05\n", "2: the time goes back")
        self.no("9" * 5_000 + MOSI, "1: neither FIRST-LAST")
        self.no("\n\n", "1: an empty capture")


def samples(windows: list[tuple[int, int]], names: str = "CE,SCK,DIN,DOUT") -> str:
    """A sample before and one behind windows of one byte each, and two samples a bit."""
    rows = [names, "1,0,0,0"]
    for sent, received in windows:
        rows.append("0,0,0,0")
        for bit in range(7, -1, -1):
            rows += [f"0,{clock},{sent >> bit & 1},{received >> bit & 1}" for clock in (1, 0)]
        rows.append("1,0,0,0")
    return "\n".join(rows) + "\n"


class Samples(Case):
    def test_columns_by_their_names(self) -> None:
        text = samples([(0x05, 0xFF), (0x0A, 0x00)])
        # 18 samples from one end to the other, 5,898.24 ticks at 100 Hz
        wanted = ["bus 05", "tick 5898", "bus 0A"]
        self.assertEqual(made_of(text, RATE / 10_000), wanted)
        self.assertEqual(made_of(text.replace("DIN,DOUT", "MOSI,MISO").replace("CE", "CS#"), RATE / 10_000), wanted)
        turned = "\n".join(",".join(reversed(row.split(","))) for row in text.split("\n"))
        self.assertEqual(made_of(turned, RATE / 10_000), wanted)
        self.assertEqual(made_of("; Channels (4/8): CE, SCK, DIN, DOUT\n" + text, RATE / 10_000), wanted)

    def test_times(self) -> None:
        rows = samples([(0x05, 0xFF), (0x0A, 0x00)]).splitlines()
        timed = ["Time [s]," + rows[0]] + [f"{count / 100:.2f},{row}" for count, row in enumerate(rows[1:])]
        self.assertEqual(made_of("\n".join(timed)), ["bus 05", "tick 5898", "bus 0A"])
        self.refused("\n".join(timed), "1: a time column beside --sigrok", RATE)
        self.refused("\n".join(rows), "1: no times: give --sigrok RATE")

    def test_without_received(self) -> None:
        text = samples([(0xFE, 0), (0x0A, 0)]).replace("DOUT", "other")
        self.assertEqual(made_of(text, RATE), ["bus FE", "bus 0A"])

    def test_refused(self) -> None:
        good = samples([(0x05, 0xFF)])
        rows = good.splitlines()
        self.refused("\n".join(rows[:1] + rows[2:]), "2: a window that begins before the samples, or with SCK high", RATE)
        self.refused("\n".join(rows[:2] + ["0,1,0,0"] + rows[3:]), "3: a window that begins before the samples, or", RATE)
        self.refused("\n".join(rows[:-1]), "3: a window without an end", RATE)
        self.refused("\n".join(rows[:5] + rows[7:]), "3: a window of 7 bits, which are no whole bytes", RATE)
        self.refused(good.replace("1,0,0,0", "1,0,x,0"), "2: a level other than 0 and 1: 1 0 x 0", RATE)
        self.refused(good.replace("DIN", "D2"), "1: the first row has to name a mosi column", RATE)
        self.refused(good.replace("CE", "D0"), "1: no column for CE or none for SCK", RATE)
        self.refused(good.replace("CE,SCK,DIN,DOUT", "logic,logic,logic,logic"), "1: no column for CE", RATE)


def wave(windows: list[tuple[int, list[int], list[int]]]) -> str:
    """A value change dump, one unit a microsecond: SCK low when idle, bits taken at its falling edge."""
    changes: list[tuple[int, str]] = [(0, "1c"), (0, "0k"), (0, "0o"), (0, "0i")]
    for time, sent, received in windows:
        changes.append((time, "0c"))
        time += 2
        for out, into in zip(sent, received):
            for bit in range(7, -1, -1):
                changes += [(time, "1k"), (time, f"{out >> bit & 1}o"), (time, f"{into >> bit & 1}i"), (time + 1, "0k")]
                time += 2
        changes.append((time + 1, "1c"))
    lines = ["$timescale 1 us $end", "$scope module bus $end"]
    lines += [f"$var wire 1 {letter} {name} $end" for letter, name in zip("ckoi", ("CE", "SCK", "DIN", "DOUT"))]
    lines += ["$upscope $end", "$enddefinitions $end"]
    for time, change in changes + [(changes[-1][0] + 1_000, "1c")]:
        lines += [f"#{time}", change]
    return "\n".join(lines) + "\n"


@unittest.skipUnless(shutil.which("sigrok-cli"), "sigrok-cli is not installed")
class Sigrok(Case):
    windows = [
        (1_000, [0x38, 0x10, 0x10], [0, 0, 0]),
        (2_000, [0x05], [0]),
        (1_002_000, [0xFE, 0x00, 0x00], [0, 0x00, 0x0C]),
    ]
    # the first and the last window end 1,001,000 us apart, 32,800.8 ticks; the first two 968 us, 31.7 ticks
    wanted = ["bus 38 10 10", "tick 31", "bus 05", "tick 32769", "bus FE 00 00"]

    def printed(self, *arguments: str) -> str:
        with tempfile.TemporaryDirectory() as folder:
            path = os.path.join(folder, "bus.vcd")
            with open(path, "w", encoding="utf-8") as file:
                file.write(wave(self.windows))
            command = ["sigrok-cli", "-I", "vcd", "-i", path, *arguments]
            return subprocess.run(command, capture_output=True, text=True, check=True).stdout

    def test_what_it_prints(self) -> None:
        decoder = ("-P", "spi:clk=SCK:mosi=DIN:miso=DOUT:cs=CE:cpol=0:cpha=1", "--protocol-decoder-samplenum", "-A")
        for rows, order in (("spi=mosi-transfer:miso-transfer", "miso-mosi"), ("spi=mosi-transfer", "mosi")):
            answer = " => ok - out 000C" if "miso" in rows else ""
            wanted = self.wanted[:-1] + [self.wanted[-1] + answer]
            self.assertEqual(made_of(self.printed(*decoder, rows), RATE, order), wanted)
            self.assertEqual(made_of(self.printed(*decoder, rows, "--protocol-decoder-ann-class"), RATE), wanted)

    def test_samples(self) -> None:
        printed = self.printed("-O", "csv:label=channel:time=false")
        self.assertEqual(made_of(printed, RATE), self.wanted[:-1] + [self.wanted[-1] + " => ok - out 000C"])
