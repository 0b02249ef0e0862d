//! Probe tables and degrees.

use peer::thermometer::pt1000;
use peer::LARGEST_PROBE_TABLE;

use crate::maker::Maker;

/// The reference word at which a probe's word is its resistance in milliohms.
const PLAIN_REFERENCE: i64 = 1_000_000;
/// Entries of one `probe` line.
const ENTRIES_OF_A_LINE: usize = 90;

impl Maker {
    pub fn thermometer(&mut self) {
        let table = if self.random.percent(50) {
            self.own_table()
        } else {
            pt1000()
        };
        for _ in 0..self.random.between(1, 8) {
            self.degrees_by(&table);
        }
    }

    /// Notes what a temperature delivery has, for a line that asks for its degrees.
    pub fn measured(&mut self, probe: i64, reference: i64) {
        self.last_words = (probe, reference);
        if self.random.percent(10) {
            self.degrees(probe, reference);
        }
    }

    fn degrees(&mut self, probe: i64, reference: i64) {
        let [probe, reference] = [probe, reference].map(|word| word.clamp(0, u32::MAX.into()));
        let [probe, reference] = [probe, reference].map(|word| self.hexadecimal(word, 1));
        self.call(&format!("degrees {probe} {reference}"));
    }

    /// Mostly at an entry or beside it.
    fn degrees_by(&mut self, table: &[u32]) {
        let last = i64::from(u32::MAX);
        let entry = i64::from(self.random.one_of(table)) + self.random.between(-1, 1);
        let ends = [table[0], table[table.len() - 1]].map(i64::from);
        let end = self.random.one_of(&ends) + self.random.between(-1, 1);
        let reference = self.random.between(1, last);
        let (probe, reference) = match self.random.below(10) {
            0..=3 => (entry, PLAIN_REFERENCE),
            4 => (end, PLAIN_REFERENCE),
            // The resistance of the entry, by another reference.
            5 | 6 => (entry * reference / PLAIN_REFERENCE, reference),
            7 => self.last_words,
            8 => self
                .random
                .one_of(&[(last, 1), (1, last), (1, 0), (0, 0), (0, 1), (last - 1, 1)]),
            _ => (self.random.between(0, last), reference),
        };
        self.degrees(probe, reference);
    }

    /// Adds to the item's table what mostly makes one; answers what was added.
    fn own_table(&mut self) -> Vec<u32> {
        let largest = LARGEST_PROBE_TABLE as i64;
        let count = match self.random.below(20) {
            0 => 1,
            1 => self.random.between(510, 514),
            2 => self.random.between(largest - 1, largest + 1),
            _ => self.random.between(2, 12),
        };
        let step = self.random.one_of(&[1, 7, 3_900, 19_000]);
        let first = self
            .random
            .one_of(&[0, 500_000, 1_000_000, 10_000_000 - count * step]);
        let entry = |place| (first.max(0) + place * step) as u32;
        let mut table: Vec<u32> = (0..count).map(entry).collect();
        if self.random.percent(10) {
            let place = self.random.place(table.len());
            let other = self.random.between(0, u32::MAX.into()) as u32;
            table[place] = self.random.one_of(&[0, 10_000_001, u32::MAX, other]);
        }
        for part in table.chunks(ENTRIES_OF_A_LINE) {
            let words: String = part.iter().map(|entry| format!(" {entry}")).collect();
            self.question(&format!("probe{words}"));
        }
        table
    }
}
