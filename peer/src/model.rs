//! The device's state and what one tick does to it. Transactions and deliveries are in modules of
//! their own.

use crate::calendar::{Clock, TimeOfDay};
use crate::event::{Kind, NEVER};
use crate::flight::Directions;
use crate::registers::{self, status, AlarmMode, Registers};

/// How an accepted delivery ended.
#[derive(Clone, Copy, Debug, PartialEq, Eq)]
pub enum Outcome {
    Good,
    Failed,
}

#[derive(Clone, Copy, Debug, Default, PartialEq, Eq)]
pub struct TickReport {
    pub flight_failed: bool,
    pub flight_started: bool,
    pub temperature_failed: bool,
    pub temperature_started: bool,
}

impl TickReport {
    pub fn is_empty(self) -> bool {
        !(self.flight_failed
            || self.flight_started
            || self.temperature_failed
            || self.temperature_started)
    }
}

pub struct Model {
    /// All but the clock's four words, which `clock` holds.
    pub registers: Registers,
    pub clock: Clock,
    pub initialised: bool,
    /// The flash has its supply.
    pub regulator_on: bool,
    /// Ticks since the model was fresh, those with a standing clock included.
    pub now: i64,
    /// The next tick that starts or fails a measurement.
    next_due: i64,
    pub flight: Kind,
    /// What the awaited flight measurement covers.
    pub directions: Directions,
    pub temperature: Kind,
}

impl Model {
    pub fn fresh() -> Model {
        let mut model = Model::after_reset();
        model.registers.raise(status::POR);
        model
    }

    pub fn after_reset() -> Model {
        Model {
            registers: Registers::factory(),
            clock: Clock::fresh(),
            initialised: false,
            regulator_on: false,
            now: 0,
            next_due: NEVER,
            flight: Kind::idle(),
            directions: Directions::BOTH,
            temperature: Kind::idle(),
        }
    }

    /// The word that a read of `address`, B0h to FFh, returns; clears nothing.
    pub fn register(&self, address: u8) -> u16 {
        let index = usize::from(address - registers::FIRST);
        if index < registers::CLOCK_WORDS {
            self.clock.word(index)
        } else {
            self.registers.get(address)
        }
    }

    pub fn interrupt(&self) -> bool {
        self.registers.interrupt_enabled() && self.registers.get(registers::STATUS) != 0
    }

    pub fn is_busy(&self) -> bool {
        let event_runs = self.flight.series.is_some() || self.temperature.series.is_some();
        event_runs || self.flight.is_awaited() || self.temperature.is_awaited()
    }

    pub fn end_event_when_finished(&mut self) {
        if self.flight.is_finished() && self.temperature.is_finished() {
            self.flight.series = None;
            self.temperature.series = None;
        }
        self.schedule();
    }

    pub fn schedule(&mut self) {
        self.next_due = self.flight.next_due().min(self.temperature.next_due());
    }

    /// One period of 32,768 Hz.
    #[inline]
    pub fn tick(&mut self) -> TickReport {
        if !self.registers.clock_stands() && self.clock.tick() {
            self.check_alarm();
        }
        self.now += 1;
        if self.now == self.next_due {
            self.run_due()
        } else {
            TickReport::default()
        }
    }

    /// Called in a tick that changed the minutes; the hours changed too where these became 0.
    fn check_alarm(&mut self) {
        let Some(alarm) = TimeOfDay::from_word(self.registers.get(registers::ALARM)) else {
            return;
        };
        let time = self.clock.time();
        let minutes_match = time.minute == alarm.minute;
        let hours_match = time.hour == alarm.hour;
        let rings = match self.registers.alarm_mode() {
            AlarmMode::Off => false,
            AlarmMode::Minutes => minutes_match,
            AlarmMode::Hours => time.minute == 0 && hours_match,
            AlarmMode::Both => minutes_match && hours_match,
        };
        if rings {
            self.registers.raise(status::AF);
        }
    }

    #[cold]
    fn run_due(&mut self) -> TickReport {
        let report = TickReport {
            flight_failed: self.flight.fails_at(self.now),
            flight_started: self.flight.starts_at(self.now),
            temperature_failed: self.temperature.fails_at(self.now),
            temperature_started: self.temperature.starts_at(self.now),
        };
        if report.flight_failed {
            self.fail_flight();
        }
        if report.flight_started {
            self.start_flight();
        }
        if report.temperature_failed {
            self.fail_temperature();
        }
        if report.temperature_started {
            self.start_temperature();
        }
        self.schedule();
        report
    }
}

#[cfg(test)]
mod tests {
    use super::*;
    use crate::chip::Chip;

    #[test]
    fn an_undelivered_measurement_fails() {
        let mut chip = Chip::ready();
        // The clock stands, and the count goes on.
        chip.accept(&[0x43, 0x00, 0x10]);
        chip.accept(&[0x03]);
        assert_eq!(chip.ticks(8_191), []);
        assert!(chip.model.temperature.is_awaited());
        let failed = TickReport {
            temperature_failed: true,
            ..TickReport::default()
        };
        assert_eq!(chip.ticks(2), [(1, failed)]);
        assert!(!chip.model.temperature.is_awaited());
        assert_eq!(chip.status(), status::TO | status::TE);
        assert_eq!(chip.registers(registers::PORT_RESULTS), [0xFFFF; 8]);
        assert_eq!(chip.registers(registers::FIRST), [0; 2]);
    }

    /// Whether the alarm rings in the tick that ends a minute.
    fn rings(time: u16, alarm: u16, mode: u8) -> bool {
        let mut chip = Chip::fresh();
        let [time_high, time_low] = time.to_be_bytes();
        let [alarm_high, alarm_low] = alarm.to_be_bytes();
        chip.accept(&[0x30, 0x99, 0x59, time_high, time_low]);
        chip.accept(&[0x35, alarm_high, alarm_low]);
        chip.accept(&[0x43, 0x00, mode << 2]);
        chip.status();
        chip.ticks(326);
        assert_eq!(chip.registers(registers::FIRST), [0x9959]);
        chip.ticks(1);
        chip.status() == status::AF
    }

    #[test]
    fn alarms_by_mode() {
        let modes = |time, alarm| [0, 1, 2, 3].map(|mode| rings(time, alarm, mode));
        assert_eq!(modes(0x5923, 0x0000), [false, true, true, true]);
        assert_eq!(modes(0x5923, 0x0001), [false, true, false, false]);
        assert_eq!(modes(0x5923, 0x3000), [false, false, true, false]);
        assert_eq!(modes(0x2923, 0x3023), [false, true, false, true]);
        // Noon, which each of the two has in its own form.
        assert_eq!(modes(0x5911, 0x0072), [false, true, true, true]);
    }
}
