//! The maker of items and what one item is made of.

use peer::opcode::{HALT, INITIALIZE};
use peer::registers::Registers;
use peer::{Format, Replay};

use crate::random::Random;

pub struct Maker {
    pub random: Random,
    pub text: Vec<u8>,
    pub items: i64,
    pub calls: i64,
    pub ticks: i64,
    /// Ticks since the last start that was meant to be accepted, or since the item's line.
    pub moment: i64,
    /// The probe's word and its reference's of the last temperature delivery.
    pub last_words: (i64, i64),
    /// What was last written, supposing that it was accepted.
    pub set_up: Registers,
    pub initialised: bool,
    /// What the lines until now have made of the model, where they are of the new format.
    pub replay: Option<Replay>,
}

impl Maker {
    pub fn new(seed: i64, format: Format) -> Maker {
        Maker {
            random: Random::new(seed as u64),
            text: Vec::new(),
            items: 0,
            calls: 0,
            ticks: 0,
            moment: 0,
            last_words: (0, 0),
            set_up: Registers::factory(),
            initialised: false,
            replay: (format == Format::New).then(|| Replay::new(format)),
        }
    }

    /// Items with at least `size` calls.
    pub fn make(&mut self, size: i64) {
        while self.calls < size {
            self.item();
        }
        // The last line of a text may lack its line feed.
        if self.random.percent(50) {
            while matches!(self.text.last(), Some(b'\n' | b'\r')) {
                self.text.pop();
            }
            if self.replay.is_some() && self.random.percent(50) {
                self.text.push(b'\r');
            }
        }
    }

    fn item(&mut self) {
        self.items += 1;
        self.forget_set_up();
        self.moment = 0;
        let name = format!("item random {}", self.items);
        self.line(name.as_bytes());
        for _ in 0..self.random.between(1, 12) {
            self.make_ready();
            match self.random.below(100) {
                0..=4 => self.configure(),
                5..=26 => self.calendar(),
                27..=29 => self.continuous_event(),
                30..=55 => self.single_measurement(),
                56..=59 => self.flash(),
                60..=69 => self.event(),
                70..=76 => self.frames(),
                77..=81 => self.mixture(),
                82..=87 => self.record(),
                88..=92 => self.thermometer(),
                _ => self.faulty_lines(),
            }
            self.look();
        }
        self.line(b"regs");
    }

    /// A fresh model, or one after Reset.
    pub fn forget_set_up(&mut self) {
        self.set_up = Registers::factory();
        self.initialised = false;
    }

    /// Mostly ends what still runs, and initialises the model after a Reset.
    fn make_ready(&mut self) {
        if self.random.percent(40) {
            self.bus(&[HALT]);
        }
        if !self.initialised && self.random.percent(90) {
            self.bus(&[INITIALIZE]);
            self.configure();
        }
    }
}

#[cfg(test)]
mod tests {
    use super::*;

    fn items(seed: i64, format: Format) -> Vec<u8> {
        let mut maker = Maker::new(seed, format);
        maker.make(4_000);
        maker.text
    }

    #[test]
    fn a_seed_makes_the_same_items() {
        for format in [Format::Old, Format::New] {
            assert_eq!(items(3, format), items(3, format));
            assert_ne!(items(3, format), items(4, format));
        }
    }

    fn answers(seed: i64, format: Format) -> String {
        let mut answers = Vec::new();
        peer::replay(&items(seed, format), format, &mut answers).unwrap();
        String::from_utf8_lossy(&answers).into_owned()
    }

    #[test]
    fn items_reach_every_refusal() {
        let answers = answers(1, Format::Old);
        for number in (1..=18).chain([20]) {
            assert!(answers.contains(&format!(" no {number} ")), "{number}");
        }
    }

    #[test]
    fn items_reach_every_answer_of_a_line() {
        let answers = answers(2, Format::Old);
        let wanted = [
            "bus ok",
            "set ok",
            "set no",
            "tick ",
            "at ",
            "stretch ",
            "flight good",
            "temperature failed",
            "int yes",
            "awaited 1 1",
            "frames ",
            "frame 3",
            "probe ",
            "degrees 1",
            "record -",
            "listing 0",
            "listing 1",
            "quietest 0",
            " expected ",
            ": too long",
            ": unknown word",
            ": bad number",
            ": wrong count",
            ": past",
            ": no room",
        ];
        for wanted in wanted {
            assert!(answers.contains(wanted), "{wanted}");
        }
    }

    #[test]
    fn items_of_the_new_format_are_right_and_wrong() {
        let answers = answers(5, Format::New);
        let count = |wanted: &str| answers.lines().filter(|line| line.contains(wanted)).count();
        for wanted in ["read FE ok", " differs ", "expect ", " expected ", "x "] {
            assert!(count(wanted) >= 10, "{wanted}");
        }
        for wanted in ["unknown word ", "bad number ", "wrong count", "too long"] {
            assert!(count(&format!(": {wanted}")) >= 10, "{wanted}");
        }
        for wanted in ["unknown word ?", "bad number out=", "bad number 0x", ".."] {
            assert!(count(wanted) >= 2, "{wanted}");
        }
        let last: Vec<&str> = answers.lines().last().unwrap().split(' ').collect();
        let [expectations, differ] = [10, 12].map(|place| last[place].parse::<i64>().unwrap());
        assert!(
            expectations >= 2_000 && differ <= expectations / 5,
            "{last:?}"
        );
    }
}
