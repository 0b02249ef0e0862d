//! The register words that are stored as they are written or measured, and the set-up they hold.
//!
//! A register's address is the opcode that reads it.

use crate::event::Timing;
use crate::opcode::{FIRST_READ, LAST_READ, LAST_WRITE, READ_ABOVE_WRITE};

pub const FIRST: u8 = FIRST_READ;
/// The first that is not the clock's.
pub const FIRST_SET_UP: u8 = 0xB4;
pub const ALARM: u8 = 0xB5;
pub const TOF1: u8 = 0xB8;
const TOF2: u8 = 0xB9;
pub const EVENT_TIMING_1: u8 = 0xBF;
const EVENT_TIMING_2: u8 = 0xC0;
pub const CALIBRATION_AND_CONTROL: u8 = 0xC2;
pub const REAL_TIME_CLOCK: u8 = 0xC3;
pub const LAST_WRITABLE: u8 = LAST_WRITE + READ_ABOVE_WRITE;
pub const UP_RESULTS: u8 = 0xC5;
pub const DOWN_RESULTS: u8 = 0xD4;
pub const TOF_DIFF: u8 = 0xE2;
pub const TOF_CYCLE_COUNT: u8 = 0xE4;
pub const TOF_DIFF_AVERAGE: u8 = 0xE5;
pub const PORT_RESULTS: u8 = 0xE7;
pub const TEMPERATURE_CYCLE_COUNT: u8 = 0xEF;
pub const PORT_AVERAGES: u8 = 0xF0;
pub const STATUS: u8 = 0xFE;
pub const LAST: u8 = LAST_READ;

/// All registers.
pub const COUNT: usize = words_from(FIRST);
/// The clock's registers, the first of all.
pub const CLOCK_WORDS: usize = 4;
/// Registers that can be written.
pub const WRITABLE: usize = (LAST_WRITABLE - FIRST) as usize + 1;

/// Bits of the interrupt status.
pub mod status {
    pub const TO: u16 = 1 << 15;
    pub const AF: u16 = 1 << 14;
    pub const TOF: u16 = 1 << 12;
    pub const TE: u16 = 1 << 11;
    pub const LDO: u16 = 1 << 10;
    pub const TOF_EVTMG: u16 = 1 << 9;
    pub const TEMP_EVTMG: u16 = 1 << 8;
    pub const FLASH: u16 = 1 << 7;
    pub const HALT: u16 = 1 << 5;
    pub const INIT: u16 = 1 << 3;
    pub const POR: u16 = 1 << 2;
}

/// Bits of the Calibration and Control register.
pub mod control {
    pub const INT_EN: u16 = 1 << 9;
    pub const ET_CONT: u16 = 1 << 8;
    pub const CONT_INT: u16 = 1 << 7;
}

/// The bit of the Real-Time Clock register that stops the clock.
pub const EOSC: u16 = 1 << 4;
/// The bits of the same register that say when the alarm flag is set.
pub const ALARM_MODE: u16 = 3 << 2;

/// The bits of the Event Timing 2 register that have all four ports measured.
pub const ALL_PORTS: u16 = 3 << 5;

/// HIT pairs of one direction.
pub const HITS: usize = 6;
/// Temperature ports.
pub const PORTS: usize = 4;
/// Quanta in one period of 4 MHz.
const QUANTA_PER_PERIOD: i64 = 65_536;
/// A word of this size or more means that no hit came.
pub const NO_HIT: i64 = 1 << 31;
/// A port whose word is below this is short: 8 µs, 32 periods of 4 MHz.
pub const SHORT_LIMIT: i64 = 32 * QUANTA_PER_PERIOD;

/// When the alarm flag is set.
#[derive(Clone, Copy, PartialEq, Eq)]
pub enum AlarmMode {
    Off,
    Minutes,
    Hours,
    Both,
}

pub struct Registers {
    words: [u16; COUNT],
}

impl Registers {
    /// The factory values, results and status 0.
    pub fn factory() -> Registers {
        let mut registers = Registers { words: [0; COUNT] };
        registers.set(TOF1, 0x0010);
        registers
    }

    #[inline]
    pub fn get(&self, address: u8) -> u16 {
        self.words[usize::from(address - FIRST)]
    }

    pub fn set(&mut self, address: u8, word: u16) {
        self.words[usize::from(address - FIRST)] = word;
    }

    /// Stores the low 32 bits of `value` in an Int register and the Frac register after it.
    pub fn set_pair(&mut self, address: u8, value: i64) {
        self.set(address, (value >> 16) as u16);
        self.set(address + 1, value as u16);
    }

    /// TOF_DIFF as the signed number that its pair holds.
    pub fn difference(&self) -> i32 {
        let [int, frac] = [TOF_DIFF, TOF_DIFF + 1].map(|address| u32::from(self.get(address)));
        (int << 16 | frac) as i32
    }

    pub fn raise(&mut self, status_bits: u16) {
        self.set(STATUS, self.get(STATUS) | status_bits);
    }

    pub fn lower(&mut self, status_bits: u16) {
        self.set(STATUS, self.get(STATUS) & !status_bits);
    }

    fn field(&self, address: u8, high: u32, low: u32) -> i64 {
        i64::from(self.get(address)) >> low & ((1 << (high - low + 1)) - 1)
    }

    fn controls(&self, bit: u16) -> bool {
        self.get(CALIBRATION_AND_CONTROL) & bit != 0
    }

    #[inline]
    pub fn clock_stands(&self) -> bool {
        self.get(REAL_TIME_CLOCK) & EOSC != 0
    }

    pub fn alarm_mode(&self) -> AlarmMode {
        match self.field(REAL_TIME_CLOCK, 3, 2) {
            0 => AlarmMode::Off,
            1 => AlarmMode::Minutes,
            2 => AlarmMode::Hours,
            _ => AlarmMode::Both,
        }
    }

    pub fn interrupt_enabled(&self) -> bool {
        self.controls(control::INT_EN)
    }

    pub fn continuous_interrupt(&self) -> bool {
        self.controls(control::CONT_INT)
    }

    /// The pulse launcher has pulses and a frequency.
    pub fn flight_ready(&self) -> bool {
        self.field(TOF1, 15, 8) != 0 && self.field(TOF1, 7, 4) != 0
    }

    /// All four ports are measured.
    pub fn temperature_ready(&self) -> bool {
        self.get(EVENT_TIMING_2) & ALL_PORTS == ALL_PORTS
    }

    /// Hits of each measured direction.
    pub fn hits(&self) -> usize {
        (self.field(TOF2, 15, 13) as usize + 1).min(HITS)
    }

    /// The smallest word that is late.
    pub fn late_limit(&self) -> i64 {
        let periods = 512 << self.field(TOF2, 2, 0);
        (periods * QUANTA_PER_PERIOD).min(NO_HIT)
    }

    /// The smallest word that an open port gives.
    pub fn open_limit(&self) -> i64 {
        let periods = 512 * (self.field(EVENT_TIMING_2, 1, 0) + 1) - 8;
        periods * QUANTA_PER_PERIOD
    }

    /// The differences of an event.
    pub fn difference_timing(&self) -> Timing {
        Timing {
            period: 16_384 * (self.field(EVENT_TIMING_1, 15, 12) + 1),
            total: self.field(EVENT_TIMING_1, 11, 7) + 1,
            continuous: self.controls(control::ET_CONT),
        }
    }

    /// The temperatures of an event.
    pub fn temperature_timing(&self) -> Timing {
        Timing {
            period: 32_768 * (self.field(EVENT_TIMING_1, 6, 1) + 1),
            total: self.field(EVENT_TIMING_2, 15, 11) + 1,
            continuous: self.controls(control::ET_CONT),
        }
    }
}

/// The Int address of the pair at `place` in a row of pairs.
pub fn pair(first: u8, place: usize) -> u8 {
    first + 2 * place as u8
}

/// Registers from `address` to the last.
pub const fn words_from(address: u8) -> usize {
    (LAST - address) as usize + 1
}

#[cfg(test)]
mod tests {
    use super::*;

    fn with(address: u8, word: u16) -> Registers {
        let mut registers = Registers::factory();
        registers.set(address, word);
        registers
    }

    #[test]
    fn a_difference_is_signed() {
        let mut registers = Registers::factory();
        for difference in [-125_902, -1, 0, i32::MAX, i32::MIN] {
            registers.set_pair(TOF_DIFF, i64::from(difference));
            assert_eq!(registers.difference(), difference);
        }
    }

    #[test]
    fn hits_by_stop() {
        let hits = [0, 1, 2, 3, 4, 5, 6, 7].map(|stop| with(TOF2, stop << 13).hits());
        assert_eq!(hits, [1, 2, 3, 4, 5, 6, 6, 6]);
    }

    #[test]
    fn late_words_by_timeout() {
        let limits = [0, 1, 2, 3, 4, 5, 6, 7].map(|k| with(TOF2, k).late_limit());
        assert_eq!(limits[0], 33_554_432);
        assert_eq!(limits[1..6], [1 << 26, 1 << 27, 1 << 28, 1 << 29, 1 << 30]);
        assert_eq!(limits[6..], [2_147_483_648; 2]);
    }

    #[test]
    fn open_words_by_port_cycles() {
        let limits = [0, 1, 2, 3].map(|cycles| with(EVENT_TIMING_2, cycles).open_limit());
        let periods = [504, 1_016, 1_528, 2_040];
        assert_eq!(limits, periods.map(|periods| periods * 65_536));
    }

    #[test]
    fn event_timing_fields() {
        let mut registers = with(EVENT_TIMING_1, 0xFFFE);
        registers.set(EVENT_TIMING_2, 0xF800);
        let timing = registers.difference_timing();
        assert_eq!((timing.period, timing.total), (262_144, 32));
        let timing = registers.temperature_timing();
        assert_eq!((timing.period, timing.total), (2_097_152, 32));
    }
}
