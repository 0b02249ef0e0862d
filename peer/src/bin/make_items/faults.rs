//! Lines that are mostly no calls.

use peer::item::{LONGEST_FRAME, LONGEST_LINE, LONGEST_LIST, LONGEST_SET};
use peer::registers::words_from;

use crate::maker::Maker;

impl Maker {
    pub fn faulty_lines(&mut self) {
        if self.replay.is_some() {
            for _ in 0..self.random.between(1, 20) {
                self.strange_line();
            }
        }
        for _ in 0..self.random.between(1, 5) {
            match self.random.below(10) {
                0 => self.crowded_line(),
                1 => self.long_line(),
                2..=4 => self.known_faulty_line(),
                _ => self.altered_line(),
            }
        }
    }

    fn known_faulty_line(&mut self) {
        const LINES: [&str; 44] = [
            "tick",
            "tick x y",
            "tick 4294967296",
            "tick 00000000003",
            "tick 3 x",
            "tick -1",
            "flight",
            "flight x",
            "flight 1 / 2 / x",
            "flight 1 / 2 / 3",
            "flight / /",
            "flight 1/2",
            "temperature 1 2 3 x",
            "expect",
            "expect B0",
            "expect AF 0",
            "expect FF 0 x",
            "expect FF x 0",
            "expect b0 00000",
            "item",
            "bus out=201 B0 00 00",
            "bus out= B0 00 00",
            "bus B0 00 00 out=2",
            "bus OUT=2 B0 00 00",
            "set 38",
            "set 2F 0",
            "set 44 0",
            "set 38 12345",
            "at",
            "at 4294967296",
            "stretch 1 x",
            "frames 1",
            "probe",
            "probe 4294967296",
            "degrees 1",
            "degrees 1 2 x",
            "record 2147483648",
            "record -2147483649",
            "listing old",
            "listing 123456789",
            "quietest -1",
            "=> ok",
            "show => x",
            "tick => 5",
        ];
        let line = self.random.one_of(&LINES);
        self.line(line.as_bytes());
    }

    /// Lists at and past their longest.
    fn crowded_line(&mut self) {
        let (name, separator, word, most) = self.random.one_of(&[
            ("bus", "", " 3A", LONGEST_FRAME),
            ("bus out=9", "", " B0", LONGEST_FRAME),
            ("flight", " /", " 7", LONGEST_LIST),
            ("flight 1 /", "", " 7", LONGEST_LIST),
            ("temperature", "", " 7", LONGEST_LIST),
            ("expect F0", "", " 0", words_from(0xF0)),
            ("set 30", "", " 0", LONGEST_SET),
        ]);
        let count = most - 1 + self.random.place(3);
        let words = word.repeat(count);
        let mut line = format!("{name}{words}{separator}");
        if self.random.percent(20) {
            line += " x";
        }
        self.line(line.as_bytes());
    }

    /// A line about as long as one may be.
    fn long_line(&mut self) {
        let length = LONGEST_LINE - 1 + self.random.place(4);
        let (start, filler) = self.random.one_of(&[
            ("#", 'x'),
            ("tick 1", ' '),
            ("item long", 'g'),
            ("int", '\t'),
            ("", ' '),
            ("unknown", 'n'),
        ]);
        let mut line = String::from(start);
        line.extend((start.len()..length).map(|_| filler));
        self.line(line.as_bytes());
    }

    /// A good line with one byte changed, added or removed.
    fn altered_line(&mut self) {
        const LINES: [&str; 24] = [
            "item an altered line",
            "bus 38 01 10",
            "bus out=4 FE 00 00",
            "bus 10 00 02 12 34",
            "bus out=2 90 00 02 00 00",
            "tick 12",
            "flight 5 / 6",
            "temperature 1 2 3 4",
            "int",
            "awaited",
            "regs",
            "expect E2 FFFF 1432",
            "set 38 0110 => ok -",
            "set 43 C",
            "stretch 12 => 12",
            "frames",
            "probe 1000000 1003908",
            "degrees F4240 F4240",
            "record 7 -8 9",
            "record",
            "listing old 3",
            "listing 3 => 0",
            "quietest 2",
            "int => no",
        ];
        const BYTES: &[u8] = b" \t/#=gxGB0179-.\r\x00\x0B\xA0\xFF";
        let mut line = self.random.one_of(&LINES).as_bytes().to_vec();
        let place = self.random.place(line.len());
        let byte = self.random.one_of(BYTES);
        match self.random.below(3) {
            0 => line[place] = byte,
            1 => line.insert(place, byte),
            _ => {
                line.remove(place);
            }
        }
        self.line(&line);
    }
}
