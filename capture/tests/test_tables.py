"""Tables: rows that are windows, Logic 1, Logic 2, and how cells are written."""

from __future__ import annotations

from tests.helper import RATE, Case, made_of, stored

LOGIC1 = "Time [s],Packet ID,MOSI,MISO\n"
LOGIC2 = "name,type,start_time,duration,mosi,miso\n"


def logic2(*rows: str) -> str:
    """A table of these rows: a type, then the bytes of a result; a row each millisecond."""
    text = LOGIC2
    for count, row in enumerate(rows):
        kind, *content = row.split()
        text += f"SPI,{kind},{count / 1000:.3f},1e-07,{','.join(content) or ','}\n"
    return text


class Rows(Case):
    def test_lines_between_rows(self) -> None:
        made = made_of("time,mosi,miso\n0,02,00\n1,flight 1 / 2,\n2,0A,00\n")
        self.assertEqual(made[0::2], ["bus 02", "tick 32768", "tick 32768"])
        self.assertEqual(made[3::2], ["flight 1 / 2", "bus 0A"])

    def test_an_empty_window(self) -> None:
        self.assertEqual(made_of("time,mosi\n0,\n"), ["bus"])

    def test_refused(self) -> None:
        self.refused("a,b\n0,05\n", "1: the first row has to name a time and a mosi column")
        self.refused("0.5\n0,05\n", "1: the first row has to name columns")
        self.refused("time,mosi\n0,05\nsoon,05\n", "3: no time in seconds: soon")
        self.refused("time,mosi\n0,5\n", "2: these are no bytes")
        self.refused("time,mosi\n0,0x100\n", "2: these are no bytes")
        self.refused("time,mosi\n1,05\n0.5,05\n", "3: the time goes back")
        self.refused("time,mosi,mosi\n1,05,05\n", "1: two columns for mosi")
        self.refused("time,mosi\n1,05,05\n", "2: 3 cells, and the first row has 2")
        self.refused("1000-1090 spi-1: mosi-transfer: 05\n", "1: transfers by sample numbers: give the rate")
        self.refused("time,mosi\n0,05\n", "1: no column for CE or none for SCK", RATE)

    def test_empty(self) -> None:
        for text in ("", "\n", "\r\n\r\n"):
            self.refused(text, "1: an empty capture")
        for text in ("time,mosi\n", "time,mosi\n0,flight 1 / 2\n", LOGIC1, LOGIC2):
            self.refused(text, "1: no window in the whole capture")

    def test_no_cell_adds_a_line(self) -> None:
        self.refused('time,mosi\n0,02\n0,"flight 1 / 2\nbus 04"\n', "4: a control character in a line: flight 1 / 2?bus 04")
        self.refused('time,mosi\n0,02\n0,flight 1\x0b/ 2\n', "3: a control character")
        self.refused("time,mosi\n0,bus 04\n", "2: these are no bytes")
        self.refused("time,mosi\n0,tick 4\n", "2: these are no bytes")

    def test_units_of_time(self) -> None:
        for name in ("time", "Time [s]", "start_time", "Time (seconds)", "TIMESTAMP"):
            self.assertEqual(made_of(f"{name},mosi\n0,05\n"), ["bus 05"])
        for name in ("time_ms", "Time [us]", "Time [µs]", "time (ns)", "time of day"):
            self.refused(f"{name},mosi\n0,05\n", "1: not a time in seconds")


class Cells(Case):
    """Semicolons, tabs, quotes, line ends, byte order marks and decimal commas."""

    wanted = ["bus FE 00 00 => ok - out 000C", "tick 16384", "bus 0A"]

    def test_parted(self) -> None:
        text = "time,miso,mosi\n0,00 00 0C,FE 00 00\n0.5,00,0A\n"
        self.assertEqual(made_of(text), self.wanted)
        for mark in ";\t":
            self.assertEqual(made_of(text.replace(",", mark)), self.wanted)
            self.assertEqual(made_of(text.replace(",", mark).replace("0.5", "0,5")), self.wanted)
        self.assertEqual(made_of(text.replace("\n", "\r\n")), self.wanted)
        self.assertEqual(made_of(text.replace("\n", "\n\n")), self.wanted)
        self.assertEqual(made_of(text.replace("\n", ",,\n")), self.wanted)

    def test_quotes(self) -> None:
        self.assertEqual(made_of('"time","mosi","miso"\n"0","FE 00 00", "00 00 0C"\n"0.5","0A","00"\n'), self.wanted)
        self.refused('time,mosi\n0,"05"x\n', "2: no row of a table")
        self.refused('time,"mosi\n0,05\n', "1: no row of a table")

    def test_two_marks(self) -> None:
        self.refused("time;mosi,miso\n0;05,00\n", "1: the first row has to name columns, parted by commas, semicolons or tabs")

    def test_decimal_marks(self) -> None:
        self.refused('time,mosi\n0,05\n"0,5",05\n', "3: no time in seconds: 0,5")
        self.refused("time;mosi\n0,5;05\n0.6;05\n", "3: no time in seconds: 0.6")
        self.refused("time;mosi\n0.5;05\n0,6;05\n", "3: no time in seconds: 0,6")
        self.refused("time;mosi\n1.000,5;05\n", "2: no time in seconds")

    def test_numbers_that_are_none(self) -> None:
        for text in ("1/3", "1_000", "nan", "inf", "٣", "0x10", "1e", "1" * 16, "2024-03-04T10:12:00"):
            self.refused(f"time,mosi\n{text},05\n", "2: no time in seconds")


class Logic1(Case):
    def test_packets(self) -> None:
        text = LOGIC1 + "0.1,0,0xFE,0xFF\n0.2,0,0x00,0x10\n0.3,0,0x00,0x0C\n1.3,1,0x0a,0x00\n"
        self.assertEqual(made_of(text), ["bus FE 00 00 => ok - out 100C", "tick 32768", "bus 0A"])

    def test_lines_between_packets(self) -> None:
        made = made_of("time,packet,mosi\n0,0,02\n1,,flight 1 / 2\n2,1,0A\n")
        self.assertEqual(made[:1] + made[2:], ["bus 02", "tick 32768", "flight 1 / 2", "tick 32768", "bus 0A"])

    def test_refused(self) -> None:
        self.refused(LOGIC1 + "0.1,,0xFE,0x00\n0.2,,0x00,0x00\n", "2: no packet: nothing tells where a window ends")
        self.refused(LOGIC1 + "0.1,0,0x05,0x00\n0.2,,0x05,0x00\n", "3: no packet")
        self.refused(LOGIC1 + "0,0,0x05,0x00\n0,1,0x05,0x00\n0,0,0x05,0x00\n", "4: packet 0 comes back")
        self.refused("time,packet,mosi\n0,0,02\n1,,int\n2,0,0A\n", "4: packet 0 comes back")
        self.refused(LOGIC1 + "0.2,0,0xFE,0x00\n0.1,0,0x00,0x00\n", "3: the time goes back")
        self.refused(LOGIC1 + "0.1,0,0xFE,\n", "2: a window with 1 bytes of MOSI and 0 of MISO")
        self.refused(LOGIC1 + "0,0,0x00,0x00\n" * 201, "2: a window of 201 bytes")

    def test_decimal_bytes(self) -> None:
        self.refused(LOGIC1 + "0,0,56,16\n0,0,16,16\n", "2: bytes that may be decimal")
        self.refused(LOGIC1 + "0,0,5,0\n", "2: these are no bytes")
        self.assertEqual(made_of(LOGIC1 + "0,0,38,00\n0,0,10,00\n0,1,05,00\n"), ["bus 38 10", "bus 05"])


class Logic2(Case):
    def test_windows(self) -> None:
        text = logic2("enable", "result 0xFE 0x00", "result 0x00 0x10", "result 0x00 0x0C", "disable", "enable", "disable")
        # from one `disable` to the other 2 ms, 65.5 ticks
        self.assertEqual(made_of(text), ["bus FE 00 00 => ok - out 100C", "tick 65", "bus"])

    def test_columns_in_any_order(self) -> None:
        text = 'duration,"miso","mosi",start_time,type,name\n,,,0,enable,SPI\n,0x01,0x05,0,result,SPI\n,,,0,disable,SPI\n'
        self.assertEqual(made_of(text), ["bus 05"])

    def test_lines_between_windows(self) -> None:
        text = stored("logic2.csv").replace('"SPI","enable",0.020000', ',,0.013115,,flight 1 / 2,\n"SPI","enable",0.020000')
        self.assertIn("flight 1 / 2", made_of(text))

    def test_refused(self) -> None:
        byte = "result 0x05 0x00"
        self.refused(logic2(byte), "2: result outside a window: no enable before it")
        self.refused(logic2("disable", "enable"), "2: disable outside a window")
        self.refused(logic2("enable", byte), "2: a window without an end: no disable behind it")
        self.refused(logic2("enable", byte, "enable"), "4: the window that began in line 2 has no end before this")
        self.refused(logic2("enable", "error"), "3: neither enable, result nor disable: error")
        self.refused(logic2("enable 0x05"), "2: bytes in a row enable")
        self.refused(logic2("enable", "result int", "disable"), "3: the window that began in line 2 has no end before this")
        self.refused(logic2("enable", "result 0x3810 0x0000", "disable"), "3: these are no bytes")
        self.refused(logic2("enable", "result 0x38", "disable"), "2: a window with 1 bytes of MOSI and 0 of MISO")
        self.refused(logic2("enable", "result 56 16", "disable"), "3: bytes that may be decimal")
        self.refused(logic2("enable", *[byte] * 201, "disable"), "2: a window of 201 bytes")

    def test_no_type_column(self) -> None:
        self.refused("name,start_time,duration,mosi\nSPI,0,0,0x05\n", "1: a table of Logic 2 without its type column")

    def test_two_analysers(self) -> None:
        text = logic2("enable", "result 0x05 0x00", "disable", "enable").replace("SPI,enable,0.003", "I2C,enable,0.003")
        self.refused(text, "5: a second analyser, I2C: export the table of one alone")
