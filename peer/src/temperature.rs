//! Temperature measurements: delivery, failure and their results.

use crate::model::{Model, Outcome};
use crate::refusal::Refusal;
use crate::registers::{self, pair, status, PORTS, SHORT_LIMIT};

impl Model {
    /// The first start of a group takes back the count and the averages of the one before.
    pub fn start_temperature(&mut self) {
        if self.temperature.start(self.now) {
            self.registers.set(registers::TEMPERATURE_CYCLE_COUNT, 0);
            for port in 0..PORTS {
                self.registers
                    .set_pair(pair(registers::PORT_AVERAGES, port), 0);
            }
        }
    }

    pub fn deliver_temperature(&mut self, words: &[i64]) -> Result<Outcome, Refusal> {
        if !self.temperature.is_awaited() {
            return Err(Refusal::NotAwaited);
        }
        if words.len() != PORTS {
            return Err(Refusal::WordCount);
        }
        let limit = self.registers.open_limit();
        for (port, &word) in words.iter().enumerate() {
            let shown = match word {
                _ if word >= limit => -1,
                _ if word < SHORT_LIMIT => 0,
                _ => word,
            };
            self.registers
                .set_pair(pair(registers::PORT_RESULTS, port), shown);
        }
        let any_open = words.iter().any(|&word| word >= limit);
        let any_short = words.iter().any(|&word| word < SHORT_LIMIT);
        if any_open {
            self.registers.raise(status::TO);
        }
        let outcome = if any_open || any_short {
            Outcome::Failed
        } else {
            self.count_temperature(words);
            Outcome::Good
        };
        self.settle_temperature();
        Ok(outcome)
    }

    fn count_temperature(&mut self, words: &[i64]) {
        if let Some(series) = &mut self.temperature.series {
            series.add_good(words);
            self.registers
                .set(registers::TEMPERATURE_CYCLE_COUNT, series.good() as u16);
            for port in 0..PORTS {
                let address = pair(registers::PORT_AVERAGES, port);
                self.registers.set_pair(address, series.mean(port));
            }
        }
    }

    /// The awaited measurement fails because nothing was delivered.
    pub fn fail_temperature(&mut self) {
        for port in 0..PORTS {
            self.registers
                .set_pair(pair(registers::PORT_RESULTS, port), -1);
        }
        self.registers.raise(status::TO);
        self.settle_temperature();
    }

    fn settle_temperature(&mut self) {
        if self.temperature.series.is_none() || self.registers.continuous_interrupt() {
            self.registers.raise(status::TE);
        }
        if self.temperature.settle() {
            self.registers.raise(status::TEMP_EVTMG);
        }
        self.end_event_when_finished();
    }
}

#[cfg(test)]
mod tests {
    use super::*;
    use crate::chip::Chip;

    const GOOD: i64 = SHORT_LIMIT;
    const OPEN: i64 = 33_030_144;

    /// The outcome of a single measurement, its four pairs and the status.
    fn single(words: [i64; 4]) -> (Outcome, [u16; 8], u16) {
        let mut chip = Chip::ready();
        chip.accept(&[0x03]);
        let outcome = chip.model.deliver_temperature(&words).unwrap();
        assert_eq!(chip.registers(registers::TEMPERATURE_CYCLE_COUNT), [0; 9]);
        let results = chip.registers(registers::PORT_RESULTS);
        (outcome, results, chip.status())
    }

    #[test]
    fn good_words_to_their_limits() {
        let (outcome, results, status) = single([GOOD, GOOD + 1, OPEN - 1, GOOD]);
        assert_eq!(outcome, Outcome::Good);
        assert_eq!(results, [32, 0, 32, 1, 503, 0xFFFF, 32, 0]);
        assert_eq!(status, status::TE);
    }

    #[test]
    fn an_open_port() {
        let (outcome, results, status) = single([GOOD, OPEN, GOOD, 0xFFFF_FFFF]);
        assert_eq!(outcome, Outcome::Failed);
        assert_eq!(results, [32, 0, 0xFFFF, 0xFFFF, 32, 0, 0xFFFF, 0xFFFF]);
        assert_eq!(status, status::TO | status::TE);
    }

    #[test]
    fn a_short_port_does_not_set_to() {
        let (outcome, results, status) = single([GOOD, GOOD - 1, GOOD, GOOD]);
        assert_eq!(outcome, Outcome::Failed);
        assert_eq!(results, [32, 0, 0, 0, 32, 0, 32, 0]);
        assert_eq!(status, status::TE);
        let (outcome, _, status) = single([OPEN, 0, GOOD, GOOD]);
        assert_eq!(outcome, Outcome::Failed);
        assert_eq!(status, status::TO | status::TE);
    }

    #[test]
    fn each_port_has_its_mean() {
        let mut chip = Chip::ready();
        // Three temperatures.
        chip.accept(&[0x40, 0x10, 0x60]);
        chip.accept(&[0x09]);
        for (words, count) in [
            ([GOOD, GOOD, GOOD, GOOD + 9], 1),
            ([0, GOOD, GOOD, GOOD], 1),
            ([GOOD + 1, GOOD + 2, GOOD + 3, GOOD], 2),
        ] {
            chip.model.deliver_temperature(&words).unwrap();
            assert_eq!(chip.registers(registers::TEMPERATURE_CYCLE_COUNT), [count]);
            chip.ticks(32_768);
        }
        let means = [32, 0, 32, 1, 32, 1, 32, 4];
        assert_eq!(chip.registers(registers::PORT_AVERAGES), means);
        assert_eq!(chip.status(), status::TEMP_EVTMG);
    }

    #[test]
    fn refused_deliveries() {
        let mut chip = Chip::ready();
        let answer = chip.model.deliver_temperature(&[GOOD; 4]);
        assert_eq!(answer, Err(Refusal::NotAwaited));
        chip.accept(&[0x03]);
        for count in [0, 3, 5] {
            let answer = chip.model.deliver_temperature(&[GOOD; 5][..count]);
            assert_eq!(answer, Err(Refusal::WordCount));
        }
    }
}
