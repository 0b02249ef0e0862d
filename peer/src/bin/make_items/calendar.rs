//! The clock and the alarm, mostly about a roll.

use peer::calendar::{bcd, first_tick, HourForm, TimeOfDay, TICKS_PER_SECOND};
use peer::registers::{ALARM, ALARM_MODE, FIRST, REAL_TIME_CLOCK};

use crate::maker::Maker;

/// A time of day with its words for 30h and 31h.
struct Time {
    time: TimeOfDay,
    hundredths: i32,
    words: [u16; 2],
}

impl Maker {
    pub fn calendar(&mut self) {
        let time = self.time();
        let [seconds, minutes] = time.words;
        let [day, month] = self.date();
        let random = self.random.word();
        let alarm_hour = self.random.below(24);
        let alarm_minute = self.random.below(60);
        let alarm = time_of_day(alarm_hour, alarm_minute).to_word(self.hour_form());
        let mut words = vec![seconds, minutes, day, month, random, alarm, random];
        if self.random.percent(25) {
            self.damage(&mut words);
        }
        let (first, count) = match self.random.below(10) {
            0..=5 => (0, 4),
            6 => (0, self.random.between(5, 7)),
            _ => {
                let first = self.random.below(4);
                (first, self.random.between(1, 4 - first))
            }
        };
        if self.random.percent(40) {
            self.alarm(time.time);
        }
        let written = &words[first as usize..(first + count) as usize];
        self.write(FIRST + first as u8, written);
        self.cross_second(time.hundredths);
    }

    fn date(&mut self) -> [u16; 2] {
        let leap = self.random.below(25) * 4;
        let year = self.random.below(100);
        let (year, month, date) = match self.random.below(8) {
            0 | 1 => (99, 12, 31),
            2 => (leap, 2, self.random.between(28, 29)),
            3 => (year, 2, self.random.between(28, 29)),
            4 => (year, self.random.between(1, 12), 30),
            5 => (year, self.random.between(1, 12), 31),
            6 => (year, 12, 31),
            _ => (year, self.random.between(1, 12), self.random.between(1, 28)),
        };
        let weekday = self.random.between(1, 7) as u16;
        let [year, month, date] = [year, month, date].map(|value| bcd(value as i32));
        [weekday << 8 | date, month << 8 | year]
    }

    /// Mostly just before a roll.
    fn time(&mut self) -> Time {
        let hour = match self.random.below(6) {
            0 | 1 => 23,
            2 => 11,
            _ => self.random.below(24),
        };
        let minute = match self.random.below(4) {
            0 => self.random.below(60),
            _ => 59,
        };
        let second = match self.random.below(6) {
            0 => self.random.below(60),
            _ => 59,
        };
        let hundredth = match self.random.below(4) {
            0 => self.random.below(100),
            _ => 99,
        };
        let time = time_of_day(hour, minute);
        let hundredths = hundredth as i32;
        let seconds = bcd(hundredths) << 8 | bcd(second as i32);
        Time {
            time,
            hundredths,
            words: [seconds, time.to_word(self.hour_form())],
        }
    }

    fn hour_form(&mut self) -> HourForm {
        if self.random.percent(50) {
            HourForm::TwentyFour
        } else {
            HourForm::Twelve
        }
    }

    fn damage(&mut self, words: &mut [u16]) {
        let place = self.random.place(words.len());
        let shift = 4 * self.random.below(4);
        words[place] = match self.random.below(3) {
            0 => words[place] ^ 1 << self.random.below(16),
            1 => words[place] & !(15 << shift) | (self.random.word() & 15) << shift,
            _ => self.random.word(),
        };
    }

    /// An alarm, mostly at the minute that follows.
    fn alarm(&mut self, time: TimeOfDay) {
        let next = time.hour * 60 + time.minute + 1;
        let hour = self.random.one_of(&[next / 60 % 24, next / 60 % 24, 0, 23]);
        let minute = self.random.one_of(&[next % 60, next % 60, 0, 59]);
        let form = self.hour_form();
        let mut words = [TimeOfDay { hour, minute }.to_word(form)];
        match self.random.below(10) {
            0 => self.damage(&mut words),
            1 | 2 => words[0] |= 0x8080,
            _ => {}
        }
        self.write(ALARM, &words);
        let mode = self.random.below(4) as u16;
        let others = self.set_up.get(REAL_TIME_CLOCK) & !ALARM_MODE;
        self.write(REAL_TIME_CLOCK, &[others | mode << 2]);
    }

    /// Waits over the end of a second that was written with these hundredths.
    fn cross_second(&mut self, hundredths: i32) {
        let second = i64::from(TICKS_PER_SECOND);
        self.wait(second - 1 - i64::from(first_tick(hundredths)));
        self.read(FIRST, 4);
        self.tick(1);
        self.read(FIRST, 4);
        if self.random.percent(5) {
            let seconds = self.random.one_of(&[1, 1, 2, 5]);
            let early = self.random.below(2);
            self.wait(seconds * second - early);
        }
        self.look();
    }
}

fn time_of_day(hour: i64, minute: i64) -> TimeOfDay {
    TimeOfDay {
        hour: hour as i32,
        minute: minute as i32,
    }
}
