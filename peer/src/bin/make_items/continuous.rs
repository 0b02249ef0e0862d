//! Continuous events: groups that turn, and an end at each of their places.

use peer::event::{Timing, DELIVERY_LIMIT};
use peer::opcode::{HALT, RESET};
use peer::registers::{control, ALL_PORTS, CALIBRATION_AND_CONTROL, EVENT_TIMING_1, TOF1};

use crate::events::{Action, Plan};
use crate::maker::Maker;
use crate::set_up::timing_words;

impl Maker {
    /// An event over one group or more, mostly ended by HALT, and sometimes left running.
    pub fn continuous_event(&mut self) {
        let opcode = self.begin_continuous();
        let courses = self.courses(opcode);
        let followed = self.random.one_of(&courses).timing;
        let end = self.last_moment(followed);
        let mut plan = Plan::new();
        for course in courses {
            let starts = end / course.timing.period + 1;
            self.plan(&mut plan, course, starts);
            self.plan_turns(&mut plan, course.timing, starts);
        }
        // Few deliveries make long waits.
        let kept = self.random.one_of(&[100, 100, 100, 40, 5]);
        plan.retain(|_| self.random.percent(kept));
        let command = self.random.one_of(&[HALT, HALT, HALT, HALT, HALT, RESET]);
        if self.random.percent(85) {
            // Before all that is done in the same tick, or after it.
            let place = self.random.one_of(&[0, plan.len()]);
            plan.insert(place, (end, Action::Command(command)));
        }
        let further = self.random.one_of(&[0, followed.period]);
        plan.retain(|&(moment, _)| moment <= end + further);
        plan.sort_by_key(|&(moment, _)| moment);
        self.follow(&plan);
    }

    /// Sets a continuous event up and begins it; answers its opcode.
    fn begin_continuous(&mut self) -> u8 {
        if self.random.percent(80) {
            self.bus(&[HALT]);
        }
        let timing = self.group_timing();
        self.write(EVENT_TIMING_1, &timing);
        let control = self.random.word() | control::ET_CONT;
        self.write(CALIBRATION_AND_CONTROL, &[control]);
        if self.random.percent(80) {
            self.write(TOF1, &[0x0110]);
        }
        self.event_command()
    }

    /// Short periods mostly, and groups of every size: 1 and 32 among them.
    fn group_timing(&mut self) -> [u16; 2] {
        let mut total = || match self.random.below(16) {
            0..=5 => 0,
            6..=9 => 1,
            10..=12 => 2,
            13 | 14 => self.random.between(3, 7) as u16,
            _ => 31,
        };
        let (tdm, tmm) = (total(), total());
        let tdf = self.random.one_of(&[0, 0, 0, 1, 2]);
        let tmf = self.random.one_of(&[0, 0, 0, 1, 2]);
        let [timing1, timing2] = timing_words(tdf, tdm, tmf, tmm);
        [timing1, timing2 | ALL_PORTS | self.random.word() & 3]
    }

    /// Where a continuous event is left: at each place of a measurement, often about the turn of
    /// a group.
    fn last_moment(&mut self, timing: Timing) -> i64 {
        let Timing { period, total, .. } = timing;
        let most = (1_500_000 / (total * period)).clamp(2, 6);
        let turn = self.random.between(1, most) * total;
        let before = self.random.below(total + 1);
        let start = turn - self.random.one_of(&[0, 0, 1, before]);
        let soon = self.random.below(300);
        let offsets = [
            0,
            1,
            soon,
            DELIVERY_LIMIT - 1,
            DELIVERY_LIMIT,
            DELIVERY_LIMIT + 1,
            period - 1,
        ];
        start * period + self.random.one_of(&offsets)
    }

    /// Looks at the counts and averages about the first start of each group.
    fn plan_turns(&mut self, plan: &mut Plan, timing: Timing, starts: i64) {
        for group in 1..=starts / timing.total {
            let turn = group * timing.total * timing.period;
            for moment in [turn - 1, turn, turn + 1] {
                if self.random.percent(30) {
                    plan.push((moment, Action::Averages));
                }
            }
        }
    }
}
