//! Lines of the new format with words that stand wrongly, and long lines with comments.

use peer::item::LONGEST_LINE;
use peer::registers;

use crate::maker::Maker;

/// Lines that are calls, of every sort.
const LINES: [&str; 27] = [
    "bus 38 01 10",
    "bus out=4 FE 00 00",
    "bus FE 00 00 => ok - out xxxx",
    "set 38 0110",
    "set 43 C => ok x",
    "read FE xxxx",
    "read E2 x 14x2 FFFF",
    "read FF 0",
    "expect B2 0101 1xx",
    "expect FE x 0",
    "tick 12",
    "tick 3 => 3 # a note",
    "at 60000",
    "stretch 12 => xx",
    "flight 5 / 6",
    "flight 5 / => no xx",
    "temperature 1 2 3 4",
    "int => xx",
    "awaited # x",
    "regs => x",
    "frames",
    "probe 1000000 1003908",
    "degrees F4240 F4240",
    "record 7 -8 9",
    "listing old 3",
    "listing 3 => x",
    "quietest 2",
];

/// Words that are near to ones of the format.
const WORDS: [&str; 40] = [
    "x",
    "X",
    "xx",
    "xE",
    "0x",
    "0x1",
    "0x12",
    "x0x0",
    "xxxx",
    "xxxxx",
    "00000",
    "BEEX",
    "-xxx",
    "#",
    "##",
    "#1",
    "1#",
    "=>",
    "=>1",
    "/",
    "//",
    "1/2",
    "old",
    "out=",
    "out=2",
    "out=201",
    "out=00000000002",
    "Out=2",
    "-",
    "-0",
    "--1",
    "+1",
    "4294967295",
    "4294967296",
    "2147483648",
    "-2147483649",
    "00000000000",
    "read",
    "Read",
    "AF",
];

impl Maker {
    pub fn strange_line(&mut self) {
        match self.random.below(20) {
            0..=2 => return self.long_commented_line(),
            3 => return self.crowded_patterns(),
            _ => {}
        }
        let line = self.random.one_of(&LINES);
        let mut words: Vec<Vec<u8>> = line.split(' ').map(|word| word.into()).collect();
        for _ in 0..self.random.one_of(&[1, 1, 1, 2]) {
            let word = self.strange_word();
            let place = self.random.place(words.len());
            match self.random.below(4) {
                0 => words.insert(place, word),
                1 => words.push(word),
                _ => words[place] = word,
            }
        }
        if waits_long(&words) {
            words.truncate(1);
        }
        let blanks: &[u8] = self.random.one_of(&[b" ", b" ", b"\t", b" \t "]);
        self.line(&words.join(blanks));
    }

    /// About as many words as there are registers, the last of them strange or not.
    fn crowded_patterns(&mut self) {
        let name = self.random.one_of(&["read", "expect"]);
        let first = self
            .random
            .between(registers::FIRST.into(), registers::LAST.into()) as u8;
        let count = registers::words_from(first) - 1 + self.random.place(3);
        let word = self.random.one_of(&[" x", " xxxx", " 0", " 00x0"]);
        let mut line = format!("{name} {first:X}{}", word.repeat(count)).into_bytes();
        if self.random.percent(30) {
            line.push(b' ');
            line.extend(self.strange_word());
        }
        self.line(&line);
    }

    /// A word as it may stand in a bad line, about as long as such a line names it.
    fn strange_word(&mut self) -> Vec<u8> {
        if self.random.percent(50) {
            return self.random.one_of(&WORDS).into();
        }
        let length = match self.random.below(3) {
            0 => self.random.between(1, 12),
            1 => self.random.between(30, 34),
            _ => self.random.between(1, 80),
        };
        let sort = self.random.below(4);
        let mut word = Vec::new();
        while word.len() < length as usize {
            let byte = match sort {
                0 => self.random.one_of(b"0123456789"),
                1 => self.random.one_of(b"0123456789abcdefABCDEFxX"),
                2 => self.random.between(0x21, 0x7E) as u8,
                _ => self.random.byte(),
            };
            if !matches!(byte, b' ' | b'\t' | b'\n') {
                word.push(byte);
            }
        }
        if self.random.percent(10) {
            word.splice(
                0..0,
                self.random
                    .one_of(&[&b"out="[..], b"-", b"#", b"0x"])
                    .iter()
                    .copied(),
            );
        }
        word
    }

    /// A line about as long as one may be, with its comment.
    fn long_commented_line(&mut self) {
        let length = LONGEST_LINE - 1 + self.random.place(5);
        let start = self.random.one_of(&[
            "tick 1 # ",
            "tick 1 => 2 # ",
            "tick 1 => ",
            "read FE xxxx # ",
            "expect FE 0 #",
            "read FE xxxx # => ",
            "bus 05 # ",
            "item long # ",
            "# ",
            "record 1 2",
            "at 60000 # ",
            "int => ",
        ]);
        let filler = self.random.one_of(b"  \tx.#\r\xFF");
        let mut line = start.as_bytes().to_vec();
        line.resize(length, filler);
        self.line(&line);
    }
}

/// Whether such a line may take more ticks than a comparison has time for.
fn waits_long(words: &[Vec<u8>]) -> bool {
    let [name, number, ..] = words else {
        return false;
    };
    let number = std::str::from_utf8(number).ok();
    let ticks = number.and_then(|number| number.parse::<u32>().ok());
    matches!(&name[..], b"tick" | b"at") && ticks > Some(100_000)
}
