//! Events: a plan of what is done at which of their ticks.

use peer::event::{Timing, DELIVERY_LIMIT};
use peer::opcode::{EVTMG1, EVTMG2, EVTMG3, HALT, RESET};
use peer::registers::{EVENT_TIMING_1, TOF_CYCLE_COUNT};

use crate::deliveries::Quality;
use crate::maker::Maker;

/// Registers from E4h to F7h, the counts and averages of both kinds.
const AVERAGES: usize = 20;

/// What is done at one moment of an event.
#[derive(Clone, Copy)]
pub enum Action {
    Flight(Quality),
    Temperature(Quality),
    Disturb,
    Awaited,
    /// A read of the counts and averages.
    Averages,
    Command(u8),
}

/// Actions and the ticks after acceptance at which they are due.
pub type Plan = Vec<(i64, Action)>;

/// The measurements of one kind in an event.
#[derive(Clone, Copy)]
pub struct Course {
    pub timing: Timing,
    deliver: fn(Quality) -> Action,
}

impl Maker {
    pub fn event(&mut self) {
        if self.random.percent(80) {
            let words = self.event_timing();
            self.write(EVENT_TIMING_1, &words);
        }
        let opcode = self.event_command();
        let mut plan = Plan::new();
        for course in self.courses(opcode) {
            self.plan(&mut plan, course, course.timing.total);
        }
        plan.sort_by_key(|&(moment, _)| moment);
        self.follow(&plan);
    }

    /// Begins an event; answers its opcode.
    pub fn event_command(&mut self) -> u8 {
        let opcode = self.random.one_of(&[EVTMG1, EVTMG2, EVTMG3]);
        self.start(opcode);
        opcode
    }

    /// What an event command runs by the set-up.
    pub fn courses(&self, opcode: u8) -> Vec<Course> {
        let differences = Course {
            timing: self.set_up.difference_timing(),
            deliver: Action::Flight,
        };
        let temperatures = Course {
            timing: self.set_up.temperature_timing(),
            deliver: Action::Temperature,
        };
        match opcode {
            EVTMG1 => vec![differences, temperatures],
            EVTMG2 => vec![differences],
            _ => vec![temperatures],
        }
    }

    /// Deliveries for the first measurements of one kind, and looks at the moments that matter.
    pub fn plan(&mut self, plan: &mut Plan, course: Course, starts: i64) {
        let period = course.timing.period;
        for start in (0..starts).map(|number| number * period) {
            let soon = self.random.below(300);
            let within = self.random.below(DELIVERY_LIMIT);
            let delays = [0, soon, soon, within, DELIVERY_LIMIT - 1, DELIVERY_LIMIT];
            for _ in 0..self.random.one_of(&[0, 1, 1, 1, 2]) {
                let moment = start + self.random.one_of(&delays);
                plan.push((moment, (course.deliver)(self.quality())));
            }
            for offset in [DELIVERY_LIMIT - 1, DELIVERY_LIMIT, period - 1, period] {
                if self.random.percent(15) {
                    plan.push((start + offset, Action::Awaited));
                }
            }
            if self.random.percent(10) {
                plan.push((start + self.random.below(period), Action::Disturb));
            }
        }
        let last = (starts - 1) * period + DELIVERY_LIMIT;
        plan.push((last + self.random.below(20), Action::Awaited));
    }

    /// Does what is planned, in the order of the plan.
    pub fn follow(&mut self, plan: &[(i64, Action)]) {
        // Long plans are mostly followed to their end too.
        let leaves = (4 * plan.len() as i64).max(100);
        let mut now = 0;
        for &(moment, action) in plan {
            self.wait(moment - now);
            now = moment;
            match action {
                Action::Flight(quality) => self.deliver_flight(true, true, quality),
                Action::Temperature(quality) => self.deliver_temperature(quality),
                Action::Disturb => self.disturb(),
                Action::Awaited => self.line(b"awaited"),
                Action::Averages => self.read(TOF_CYCLE_COUNT, AVERAGES),
                Action::Command(opcode) => self.bus(&[opcode]),
            }
            if self.random.below(leaves) == 0 {
                let opcode = self.random.one_of(&[HALT, HALT, RESET]);
                self.bus(&[opcode]);
                return;
            }
            if self.random.percent(20) {
                self.look();
            }
        }
    }
}
