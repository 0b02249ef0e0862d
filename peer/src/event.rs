//! The measurements of one kind: the awaited one, and the series that an event runs.

use crate::registers::PORTS;

/// Ticks after its start at which an undelivered measurement fails.
pub const DELIVERY_LIMIT: i64 = 8_192;
/// A moment that is never reached.
pub const NEVER: i64 = i64::MAX;

/// When the measurements of one kind start, and how many make a group. An event that is not
/// continuous has one group.
#[derive(Clone, Copy)]
pub struct Timing {
    pub period: i64,
    pub total: i64,
    pub continuous: bool,
}

/// The measurements of one kind that a running event starts.
pub struct Series {
    timing: Timing,
    /// The moment of the next start, `NEVER` when all have started.
    next_start: i64,
    group: Group,
}

/// What the current group holds so far.
#[derive(Default)]
struct Group {
    started: i64,
    settled: i64,
    good: i64,
    sums: [i64; PORTS],
}

impl Series {
    /// A series whose first start is at `begin`.
    pub fn new(begin: i64, timing: Timing) -> Series {
        Series {
            timing,
            next_start: begin,
            group: Group::default(),
        }
    }

    /// The start that is due; true when it is the first of its group.
    fn start(&mut self) -> bool {
        let Timing {
            period,
            total,
            continuous,
        } = self.timing;
        // A period is longer than a measurement can be awaited, so a full group is settled here.
        if self.group.started == total {
            self.group = Group::default();
        }
        self.group.started += 1;
        self.next_start = if continuous || self.group.started < total {
            self.next_start + period
        } else {
            NEVER
        };
        self.group.started == 1
    }

    /// True when this settles the last measurement of the group.
    fn settle(&mut self) -> bool {
        self.group.settled += 1;
        self.group.settled == self.timing.total
    }

    /// Only HALT and Reset end a continuous series.
    fn is_finished(&self) -> bool {
        !self.timing.continuous && self.group.settled == self.timing.total
    }

    /// Good measurements of the current group.
    pub fn good(&self) -> i64 {
        self.group.good
    }

    pub fn add_good(&mut self, values: &[i64]) {
        self.group.good += 1;
        for (sum, value) in self.group.sums.iter_mut().zip(values) {
            *sum += value;
        }
    }

    /// Mean of the current group's good values, rounded toward minus infinity.
    pub fn mean(&self, index: usize) -> i64 {
        self.group.sums[index].div_euclid(self.group.good)
    }
}

/// All moments are ticks counted from the fresh model.
pub struct Kind {
    /// The tick that fails the awaited measurement, `NEVER` when none is awaited.
    deadline: i64,
    pub series: Option<Series>,
}

impl Kind {
    pub fn idle() -> Kind {
        Kind {
            deadline: NEVER,
            series: None,
        }
    }

    pub fn is_awaited(&self) -> bool {
        self.deadline != NEVER
    }

    pub fn next_due(&self) -> i64 {
        let next_start = self.series.as_ref().map(|series| series.next_start);
        self.deadline.min(next_start.unwrap_or(NEVER))
    }

    pub fn fails_at(&self, now: i64) -> bool {
        self.deadline == now
    }

    pub fn starts_at(&self, now: i64) -> bool {
        self.series
            .as_ref()
            .is_some_and(|series| series.next_start == now)
    }

    /// True when this is the first start of a group.
    pub fn start(&mut self, now: i64) -> bool {
        self.deadline = now + DELIVERY_LIMIT;
        self.series.as_mut().is_some_and(Series::start)
    }

    /// The awaited measurement is good or failed; true when it was the last of its group.
    pub fn settle(&mut self) -> bool {
        self.deadline = NEVER;
        self.series.as_mut().is_some_and(Series::settle)
    }

    /// Whether an event has nothing more to do for this kind.
    pub fn is_finished(&self) -> bool {
        self.series.as_ref().is_none_or(Series::is_finished)
    }
}

#[cfg(test)]
mod tests {
    use super::*;
    use crate::chip::Chip;
    use crate::model::TickReport;
    use crate::refusal::Refusal;
    use crate::registers::{status, TEMPERATURE_CYCLE_COUNT, TOF_CYCLE_COUNT};

    const PORT: i64 = 32 << 16;

    const STARTED: TickReport = TickReport {
        flight_failed: false,
        flight_started: true,
        temperature_failed: false,
        temperature_started: false,
    };
    const FAILED: TickReport = TickReport {
        flight_failed: true,
        flight_started: false,
        ..STARTED
    };

    /// Differences of 16,384 ticks in groups of two, the first at 100.
    fn series(continuous: bool) -> Series {
        let timing = Timing {
            period: 16_384,
            total: 2,
            continuous,
        };
        Series::new(100, timing)
    }

    /// The moment of the start, whether it begins a group, and whether its settling ends one.
    fn cycle(series: &mut Series) -> (i64, bool, bool) {
        let moment = series.next_start;
        let begins = series.start();
        series.add_good(&[moment]);
        (moment, begins, series.settle())
    }

    #[test]
    fn one_group_and_no_more() {
        let mut series = series(false);
        assert_eq!(cycle(&mut series), (100, true, false));
        assert!(!series.is_finished());
        assert_eq!(cycle(&mut series), (16_484, false, true));
        assert!(series.is_finished());
        assert_eq!(series.next_start, NEVER);
    }

    #[test]
    fn continuous_groups_turn() {
        let mut series = series(true);
        for group in 0..1_000 {
            let first = 100 + 2 * 16_384 * group;
            assert_eq!(cycle(&mut series), (first, true, false));
            assert_eq!((series.good(), series.mean(0)), (1, first));
            assert_eq!(cycle(&mut series), (first + 16_384, false, true));
            assert_eq!((series.good(), series.mean(0)), (2, first + 8_192));
            assert!(!series.is_finished());
        }
    }

    /// Ready for groups of two differences and three temperatures.
    fn chip(control: u8) -> Chip {
        let mut chip = Chip::ready();
        chip.accept(&[0x3F, 0x00, 0x80, 0x10, 0x60]);
        chip.accept(&[0x42, control, 0x00]);
        chip
    }

    #[test]
    fn an_event_ends_with_its_last_settling() {
        let mut chip = chip(0);
        assert!(chip.accept(&[0x08]).flight);
        chip.model.deliver_flight(&[0], &[1]).unwrap();
        assert_eq!(chip.ticks(16_384), [(16_384, STARTED)]);
        assert_eq!(chip.send(&[0x05]), Err(Refusal::Busy));
        chip.model.deliver_flight(&[0], &[0]).unwrap();
        // The mean of -1 and 0, rounded down.
        assert_eq!(chip.registers(TOF_CYCLE_COUNT), [2, 0xFFFF, 0xFFFF]);
        assert_eq!(chip.status(), status::TOF_EVTMG);
        chip.accept(&[0x05]);
        assert_eq!(chip.ticks(40_000), []);
    }

    #[test]
    fn a_failed_cycle_is_not_in_the_mean() {
        let mut chip = chip(0);
        chip.accept(&[0x08]);
        chip.model.deliver_flight(&[7], &[0]).unwrap();
        let reports = [(16_384, STARTED), (24_576, FAILED)];
        assert_eq!(chip.ticks(50_000), reports);
        assert_eq!(chip.registers(TOF_CYCLE_COUNT), [1, 0, 7]);
        assert_eq!(chip.status(), status::TO | status::TOF_EVTMG);
    }

    #[test]
    fn a_continuous_event_until_halt() {
        let mut chip = chip(1);
        chip.accept(&[0x08]);
        for _ in 0..3 {
            chip.model.deliver_flight(&[5], &[0]).unwrap();
            assert_eq!(chip.status(), 0);
            assert_eq!(chip.ticks(16_384), [(16_384, STARTED)]);
            chip.model.deliver_flight(&[8], &[0]).unwrap();
            assert_eq!(chip.status(), status::TOF_EVTMG);
            chip.ticks(16_383);
            assert_eq!(chip.registers(TOF_CYCLE_COUNT), [2, 0, 6]);
            assert_eq!(chip.ticks(1), [(1, STARTED)]);
            assert_eq!(chip.registers(TOF_CYCLE_COUNT), [0, 0, 0]);
        }
        chip.model.deliver_flight(&[5], &[0]).unwrap();
        assert_eq!(chip.send(&[0x08]), Err(Refusal::Busy));
        chip.accept(&[0x0A]);
        assert_eq!(chip.ticks(40_000), []);
        assert_eq!(chip.status(), status::HALT);
        assert_eq!(chip.registers(TOF_CYCLE_COUNT), [1, 0, 5]);
    }

    #[test]
    fn the_kinds_turn_by_themselves() {
        let mut chip = chip(1);
        chip.accept(&[0x07]);
        chip.model.deliver_temperature(&[PORT; 4]).unwrap();
        chip.model.deliver_flight(&[5], &[0]).unwrap();
        chip.ticks(32_768);
        // The second group of differences began, within the first of temperatures.
        assert_eq!(chip.registers(TOF_CYCLE_COUNT), [0, 0, 0]);
        assert_eq!(chip.registers(TEMPERATURE_CYCLE_COUNT), [1, 32, 0]);
        chip.model.deliver_flight(&[9], &[0]).unwrap();
        chip.ticks(2 * 32_768 - 1);
        assert_eq!(chip.registers(TEMPERATURE_CYCLE_COUNT), [1, 32, 0]);
        chip.ticks(1);
        assert_eq!(chip.registers(TEMPERATURE_CYCLE_COUNT), [0; 9]);
    }

    #[test]
    fn a_standing_clock_has_no_events() {
        let mut chip = chip(1);
        chip.accept(&[0x43, 0x00, 0x10]);
        for opcode in [0x07, 0x08, 0x09] {
            assert_eq!(chip.send(&[opcode]), Err(Refusal::SetUp));
        }
        assert!(chip.accept(&[0x02]).flight);
    }
}
