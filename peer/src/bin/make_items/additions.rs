//! What the new format adds to lines: right and wrong words of registers and of answers, digits
//! and bytes that may be any, comments.

use peer::item::{Words, LONGEST_LINE};

use crate::maker::Maker;

impl Maker {
    /// Adds an expected answer and a comment to some lines of the new format. Neither makes another
    /// call of a line.
    pub fn add_to(&mut self, line: &mut Vec<u8>) {
        let Some(replay) = &mut self.replay else {
            return;
        };
        let answer = replay.answer(1, line);
        let first = Words::of(line).next().unwrap_or_default();
        let takes_arrow = !matches!(first, b"item" | b"show" | b"expect" | b"read");
        let takes_comment = first != b"item";
        let mut added = Vec::new();
        if takes_arrow && self.random.percent(25) {
            added = self.expected(&answer);
        }
        if takes_comment && self.random.percent(8) {
            added.extend(self.comment());
        }
        if line.len() + added.len() < LONGEST_LINE {
            line.extend(added);
        }
    }

    /// An arrow with the first words of this answer, or with others.
    fn expected(&mut self, answer: &[u8]) -> Vec<u8> {
        let first_line = answer.split(|&byte| byte == b'\n').next();
        let words: Vec<&[u8]> = Words::of(first_line.unwrap_or_default()).skip(1).collect();
        let count = match self.random.below(4) {
            0 => self.random.place(words.len() + 1),
            _ => words.len(),
        };
        let mut expected = b" =>".to_vec();
        for word in &words[..count] {
            let blanks: &[u8] = self.random.one_of(&[b" ", b" ", b" ", b"  ", b"\t"]);
            expected.extend_from_slice(blanks);
            expected.extend(self.expected_word(word));
        }
        if self.random.percent(5) {
            expected.extend_from_slice(self.random.one_of(&[&b" x"[..], b" =>", b" ##", b" #1 x"]));
        }
        expected
    }

    /// The word with some of its bytes as `x`, and sometimes another one.
    fn expected_word(&mut self, word: &[u8]) -> Vec<u8> {
        let mut word = word.to_vec();
        let chance = self.random.one_of(&[0, 0, 0, 30, 100]);
        for byte in &mut word {
            if self.random.percent(chance) {
                *byte = b'x';
            }
        }
        if self.random.percent(4) {
            let place = self.random.place(word.len());
            match self.random.below(4) {
                0 => word.push(b'x'),
                1 if word.len() > 1 => drop(word.remove(place)),
                2 => word[place] = b'X',
                _ => word[place] = self.random.one_of(b"#-0189AFaz\xFF\r"),
            }
        }
        word
    }

    fn comment(&mut self) -> &'static [u8] {
        self.random.one_of(&[
            b" #",
            b"\t#\t",
            b" # a note",
            b"  # => ok",
            b" # 00 / x",
            b" # # #",
            b" # \xC3\xA4\x00\x7F",
        ])
    }

    /// A line `read` or `expect` with words that are mostly those of the registers.
    pub fn patterns(&mut self, name: &str, first: u8, count: usize) {
        let mut line = format!("{name} {}", self.hexadecimal(first.into(), 2));
        let chance = self.random.one_of(&[0, 0, 20, 50]);
        for address in (first..=u8::MAX).take(count) {
            line.push(' ');
            line += &self.pattern(address, chance);
        }
        self.line(line.as_bytes());
    }

    /// A register's word, with digits that may be any in so many of 100 cases.
    fn pattern(&mut self, address: u8, chance: i64) -> String {
        if self.random.percent(5) {
            return String::from("xxxx");
        }
        let has = self
            .replay
            .as_ref()
            .map_or(0, |replay| replay.register(address));
        let one_bit = has ^ 1 << self.random.below(16);
        let random = self.random.word();
        let value = match self.random.below(25) {
            0 => one_bit,
            1 => random,
            _ => has,
        };
        let digits = self.hexadecimal(value.into(), 4);
        let any = |digit| {
            if self.random.percent(chance) {
                'x'
            } else {
                digit
            }
        };
        let digits: String = digits.chars().map(any).collect();
        // `0x` would be taken for a prefix.
        let keeps_zeros = if digits.starts_with("0x") { 2 } else { 70 };
        match digits.trim_start_matches('0') {
            _ if self.random.percent(keeps_zeros) => digits,
            "" => String::from("0"),
            shortest => shortest.into(),
        }
    }
}
