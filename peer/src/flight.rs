//! Flight measurements: delivery, failure and their results.

use crate::model::{Model, Outcome};
use crate::refusal::Refusal;
use crate::registers::{self, pair, status, HITS};

/// The directions that a flight measurement covers.
#[derive(Clone, Copy)]
pub struct Directions {
    pub up: bool,
    pub down: bool,
}

impl Directions {
    pub const UP: Directions = Directions {
        up: true,
        down: false,
    };
    pub const DOWN: Directions = Directions {
        up: false,
        down: true,
    };
    pub const BOTH: Directions = Directions {
        up: true,
        down: true,
    };

    fn is_difference(self) -> bool {
        self.up && self.down
    }
}

impl Model {
    /// The first start of a group takes back the count and the average of the one before.
    pub fn start_flight(&mut self) {
        if self.flight.start(self.now) {
            self.registers.set(registers::TOF_CYCLE_COUNT, 0);
            self.registers.set_pair(registers::TOF_DIFF_AVERAGE, 0);
        }
    }

    pub fn deliver_flight(&mut self, up: &[i64], down: &[i64]) -> Result<Outcome, Refusal> {
        if !self.flight.is_awaited() {
            return Err(Refusal::NotAwaited);
        }
        let hits = self.registers.hits();
        let Directions {
            up: measures_up,
            down: measures_down,
        } = self.directions;
        let wanted = |measured| if measured { hits } else { 0 };
        if up.len() != wanted(measures_up) || down.len() != wanted(measures_down) {
            return Err(Refusal::WordCount);
        }
        let limit = self.registers.late_limit();
        if up.iter().chain(down).any(|&word| word >= limit) {
            self.fail_flight();
            return Ok(Outcome::Failed);
        }
        let mut difference = 0;
        if measures_up {
            difference += self.store_hits(registers::UP_RESULTS, up);
        }
        if measures_down {
            difference -= self.store_hits(registers::DOWN_RESULTS, down);
        }
        if self.directions.is_difference() {
            self.registers.set_pair(registers::TOF_DIFF, difference);
            self.count_difference(difference);
        }
        self.settle_flight();
        Ok(Outcome::Good)
    }

    /// Fills one direction's HIT and AVG pairs and answers its average.
    fn store_hits(&mut self, first: u8, words: &[i64]) -> i64 {
        for hit in 0..HITS {
            let word = words.get(hit).copied().unwrap_or(0);
            self.registers.set_pair(pair(first, hit), word);
        }
        let average = words.iter().sum::<i64>() / words.len() as i64;
        self.registers.set_pair(pair(first, HITS), average);
        average
    }

    fn count_difference(&mut self, difference: i64) {
        if let Some(series) = &mut self.flight.series {
            series.add_good(&[difference]);
            self.registers
                .set(registers::TOF_CYCLE_COUNT, series.good() as u16);
            self.registers
                .set_pair(registers::TOF_DIFF_AVERAGE, series.mean(0));
        }
    }

    /// The awaited measurement fails, by a late word or because nothing was delivered.
    pub fn fail_flight(&mut self) {
        let directions = [
            (self.directions.up, registers::UP_RESULTS),
            (self.directions.down, registers::DOWN_RESULTS),
        ];
        for (measured, first) in directions {
            if measured {
                for place in 0..=HITS {
                    self.registers.set_pair(pair(first, place), -1);
                }
            }
        }
        if self.directions.is_difference() {
            self.registers.set_pair(registers::TOF_DIFF, -1);
        }
        self.registers.raise(status::TO);
        self.settle_flight();
    }

    fn settle_flight(&mut self) {
        if self.flight.series.is_none() || self.registers.continuous_interrupt() {
            self.registers.raise(status::TOF);
        }
        if self.flight.settle() {
            self.registers.raise(status::TOF_EVTMG);
        }
        self.end_event_when_finished();
    }
}

#[cfg(test)]
mod tests {
    use super::*;
    use crate::chip::Chip;

    #[test]
    fn a_difference() {
        let mut chip = Chip::ready();
        chip.accept(&[0x02]);
        let answer = chip.model.deliver_flight(&[0x0001_0000], &[0x0002_EBCE]);
        assert_eq!(answer, Ok(Outcome::Good));
        assert_eq!(chip.registers(registers::TOF_DIFF), [0xFFFE, 0x1432]);
        assert_eq!(chip.status(), status::TOF);
        assert_eq!(chip.registers(registers::TOF_CYCLE_COUNT), [0; 3]);
    }

    #[test]
    fn hits_and_their_average() {
        let mut chip = Chip::ready();
        chip.accept(&[0x39, 0x20, 0x00]);
        chip.accept(&[0x02]);
        let answer = chip.model.deliver_flight(&[65_536, 65_539], &[1, 2]);
        assert_eq!(answer, Ok(Outcome::Good));
        let up = [1, 0, 1, 3, 0, 0, 0, 0, 0, 0, 0, 0, 1, 1];
        assert_eq!(chip.registers(registers::UP_RESULTS), up);
        let down = [0, 1, 0, 2, 0, 0, 0, 0, 0, 0, 0, 0, 0, 1];
        assert_eq!(chip.registers(registers::DOWN_RESULTS), down);
    }

    #[test]
    fn one_late_word_fails_both_directions() {
        let mut chip = Chip::ready();
        for down in [33_554_432, 0x8000_0000, 0xFFFF_FFFF] {
            chip.accept(&[0x02]);
            let answer = chip.model.deliver_flight(&[33_554_431], &[down]);
            assert_eq!(answer, Ok(Outcome::Failed));
            assert_eq!(chip.registers(registers::UP_RESULTS), [0xFFFF; 14]);
            assert_eq!(chip.registers(registers::DOWN_RESULTS), [0xFFFF; 14]);
            assert_eq!(chip.registers(registers::TOF_DIFF), [0xFFFF; 2]);
            assert_eq!(chip.status(), status::TO | status::TOF);
        }
    }

    #[test]
    fn one_direction_leaves_the_other() {
        let mut chip = Chip::ready();
        chip.accept(&[0x02]);
        chip.model.deliver_flight(&[9], &[4]).unwrap();
        chip.accept(&[0x00]);
        chip.model.deliver_flight(&[0x8000_0000], &[]).unwrap();
        assert_eq!(chip.registers(registers::UP_RESULTS), [0xFFFF; 14]);
        assert_eq!(chip.registers(registers::DOWN_RESULTS), [0, 4]);
        assert_eq!(chip.registers(registers::TOF_DIFF), [0, 5]);
        chip.accept(&[0x01]);
        chip.model.deliver_flight(&[], &[7]).unwrap();
        assert_eq!(chip.registers(registers::DOWN_RESULTS), [0, 7]);
        assert_eq!(chip.registers(registers::TOF_DIFF), [0, 5]);
    }

    #[test]
    fn refused_deliveries() {
        let mut chip = Chip::ready();
        let answer = chip.model.deliver_flight(&[], &[]);
        assert_eq!(answer, Err(Refusal::NotAwaited));
        chip.accept(&[0x00]);
        for (up, down) in [(&[][..], &[][..]), (&[5, 5], &[]), (&[5], &[5])] {
            let answer = chip.model.deliver_flight(up, down);
            assert_eq!(answer, Err(Refusal::WordCount));
        }
        let answer = chip.model.deliver_temperature(&[]);
        assert_eq!(answer, Err(Refusal::NotAwaited));
        assert!(chip.model.flight.is_awaited());
    }
}
