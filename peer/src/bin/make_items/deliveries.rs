//! Deliveries and single measurements.

use peer::event::DELIVERY_LIMIT;
use peer::opcode::{
    EVTMG1, EVTMG2, EVTMG3, HALT, INITIALIZE, RESET, TEMPERATURE, TOF_DIFF, TOF_DOWN, TOF_UP,
};
use peer::registers::{FIRST_SET_UP, NO_HIT, PORTS, SHORT_LIMIT, STATUS};

use crate::maker::Maker;

/// Opcodes that start a measurement.
pub const STARTS: [u8; 7] = [
    TOF_UP,
    TOF_DOWN,
    TOF_DIFF,
    TEMPERATURE,
    EVTMG1,
    EVTMG2,
    EVTMG3,
];

/// How a delivery is meant to be answered.
#[derive(Clone, Copy)]
pub enum Quality {
    Good,
    /// With late words, or with ports that are open or short.
    Failing,
    Miscounted,
}

impl Maker {
    pub fn quality(&mut self) -> Quality {
        match self.random.below(10) {
            0..=6 => Quality::Good,
            7 | 8 => Quality::Failing,
            _ => Quality::Miscounted,
        }
    }

    /// Words from `least` to below `limit`, or with one or more at or past it.
    fn words(&mut self, count: usize, least: i64, limit: i64, failing: bool) -> Vec<i64> {
        let mut words = vec![0; count];
        for word in &mut words {
            let random = self.random.between(least, limit - 1);
            let choices = [least, least + 1, random, random, limit - 1];
            *word = self.random.one_of(&choices);
        }
        if failing && count > 0 {
            let place = self.random.place(count);
            let last = i64::from(u32::MAX);
            let random = self.random.between(limit, last);
            let late = [limit, limit, NO_HIT, last, random];
            words[place] = self.random.one_of(&late);
        }
        words
    }

    fn count(&mut self, right: usize, quality: Quality) -> usize {
        match quality {
            Quality::Miscounted if self.random.percent(50) => right + 1,
            Quality::Miscounted => self.random.between(0, 8) as usize,
            _ => right,
        }
    }

    pub fn deliver_flight(&mut self, up: bool, down: bool, quality: Quality) {
        let hits = self.set_up.hits();
        let limit = self.set_up.late_limit();
        let failing = matches!(quality, Quality::Failing);
        let late_up = failing && up && (!down || self.random.percent(50));
        let late_down = failing && down && !late_up;
        let count_up = self.count(if up { hits } else { 0 }, quality);
        let count_down = self.count(if down { hits } else { 0 }, quality);
        let up = self.words(count_up, 0, limit, late_up);
        let down = self.words(count_down, 0, limit, late_down);
        self.flight(&up, &down);
    }

    pub fn deliver_temperature(&mut self, quality: Quality) {
        let limit = self.set_up.open_limit();
        let count = self.count(PORTS, quality);
        let failing = matches!(quality, Quality::Failing);
        let (open, short) = self
            .random
            .one_of(&[(true, false), (false, true), (true, true)]);
        let mut words = self.words(count, SHORT_LIMIT, limit, failing && open);
        if failing && short {
            self.shorten(&mut words);
        }
        if let [probe, reference, ..] = words[..] {
            self.measured(probe, reference);
        }
        self.temperature(&words);
    }

    /// Makes one word short, or more.
    fn shorten(&mut self, words: &mut [i64]) {
        for _ in 0..self.random.one_of(&[1, 1, 2, 4]) {
            let place = self.random.place(words.len());
            let random = self.random.below(SHORT_LIMIT);
            let last = SHORT_LIMIT - 1;
            words[place] = self.random.one_of(&[0, 1, last, last, random]);
        }
    }

    pub fn single_measurement(&mut self) {
        let opcode = self
            .random
            .one_of(&[TOF_UP, TOF_DOWN, TOF_DIFF, TEMPERATURE]);
        self.start(opcode);
        self.look();
        let delay = match self.random.below(20) {
            0 => DELIVERY_LIMIT - 1,
            1 => DELIVERY_LIMIT,
            2 => DELIVERY_LIMIT + 1,
            3 => 2 * DELIVERY_LIMIT - self.random.below(2),
            _ => self.random.below(40),
        };
        self.wait(delay);
        if self.random.percent(15) {
            self.disturb();
        }
        if self.random.percent(10) {
            self.line(b"awaited");
        }
        for _ in 0..self.random.one_of(&[0, 1, 1, 1, 1, 1, 1, 2]) {
            let quality = self.quality();
            match opcode {
                TEMPERATURE => self.deliver_temperature(quality),
                _ => self.deliver_flight(opcode != TOF_DOWN, opcode != TOF_UP, quality),
            }
        }
        if self.random.percent(20) {
            self.measured_difference();
        }
        self.look();
    }

    /// A call that what runs refuses or leaves room for.
    pub fn disturb(&mut self) {
        match self.random.below(10) {
            0 => self.deliver_flight(true, true, Quality::Good),
            1 => self.deliver_temperature(Quality::Good),
            2 => self.write(FIRST_SET_UP, &[0x1234]),
            3 => self.bus(&[INITIALIZE]),
            4 if self.random.percent(20) => self.bus(&[HALT]),
            4 if self.random.percent(5) => self.bus(&[RESET]),
            4 | 5 => {
                let opcode = self.random.one_of(&STARTS);
                self.bus(&[opcode]);
            }
            6 => self.line(b"awaited"),
            7 => self.flash_frame(),
            8 => self.switch_regulator(),
            _ => self.read(STATUS, 1),
        }
    }
}
