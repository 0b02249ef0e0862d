//! The record, its quietest run and its listing.

use peer::record::{DIGITS, OLD_DIGITS};
use peer::LONGEST_RECORD;

use crate::maker::Maker;

/// Differences of one `record` line, each of eleven characters at most.
const DIFFERENCES_OF_A_LINE: usize = 80;

impl Maker {
    pub fn record(&mut self) {
        let longest = LONGEST_RECORD as i64;
        let count = match self.random.below(40) {
            0 => self.random.between(longest - 1, longest + 1),
            1..=4 => self.random.between(200, 300),
            _ => self.random.between(0, 20),
        };
        let spread = self.random.one_of(&[1, 3, 1_000, 1_000_000]);
        let mut differences: Vec<i32> = Vec::new();
        for _ in 0..count {
            differences.push(self.difference(spread));
        }
        for part in differences.chunks(DIFFERENCES_OF_A_LINE) {
            let words: String = part
                .iter()
                .map(|difference| format!(" {difference}"))
                .collect();
            self.question(&format!("record{words}"));
        }
        for _ in 0..self.random.between(1, 6) {
            match self.random.below(8) {
                0 => self.measured_difference(),
                1..=3 => self.listing(count),
                _ => self.quietest(count),
            }
        }
    }

    /// Adds what was last measured.
    pub fn measured_difference(&mut self) {
        self.question("record");
    }

    fn difference(&mut self, spread: i64) -> i32 {
        let random = self.random.between(i32::MIN.into(), i32::MAX.into());
        // Halves of a ten-thousandth of a nanosecond.
        let half = 1_024 * self.random.between(-1_000, 1_000);
        let near = self.random.between(-spread, spread);
        let difference = match self.random.below(40) {
            0 => i32::MIN.into(),
            1 => i32::MAX.into(),
            2 => random,
            3 | 4 => half,
            _ => near,
        };
        difference as i32
    }

    /// Capture numbers about the last that the form has, at times.
    fn listing(&mut self, count: i64) {
        let (form, digits) = self.random.one_of(&[("", DIGITS), (" old", OLD_DIGITS)]);
        let past = 1 << (4 * digits);
        let random = self.random.below(1 << (4 * DIGITS));
        let last = (past - count + self.random.between(-1, 1)).clamp(0, u32::MAX.into());
        let first = self.random.one_of(&[0, last, last, random]);
        let first = self.hexadecimal(first, 1);
        self.call(&format!("listing{form} {first}"));
    }

    fn quietest(&mut self, count: i64) {
        let within = self.random.between(0, count + 1);
        let width = self
            .random
            .one_of(&[0, 1, 2, 3, count, count + 1, within, within, within]);
        self.call(&format!("quietest {width}"));
    }
}
