//! The calendar clock of registers 30h to 33h and the alarm's time of day.

pub const TICKS_PER_SECOND: i32 = 32_768;

/// Bit 6 of 31h and 35h.
const TWELVE_HOURS: u16 = 1 << 6;
/// Bit 5 of a word in 12-hour form.
const PM: u16 = 1 << 5;

/// How a word of 31h or 35h gives its hours.
#[derive(Clone, Copy, Debug, PartialEq, Eq)]
pub enum HourForm {
    TwentyFour,
    Twelve,
}

impl HourForm {
    fn of_word(word: u16) -> HourForm {
        if word & TWELVE_HOURS == 0 {
            HourForm::TwentyFour
        } else {
            HourForm::Twelve
        }
    }
}

#[derive(Clone, Copy, Debug, PartialEq, Eq)]
pub struct TimeOfDay {
    /// 0 to 23.
    pub hour: i32,
    pub minute: i32,
}

impl TimeOfDay {
    /// Reads the layout of 31h and 35h, in either form; `None` where it is invalid.
    pub fn from_word(word: u16) -> Option<TimeOfDay> {
        let minute = two_digits(word >> 12 & 7, word >> 8 & 15).filter(|&minute| minute <= 59)?;
        let hour = match HourForm::of_word(word) {
            HourForm::TwentyFour => {
                two_digits(word >> 4 & 3, word & 15).filter(|&hour| hour <= 23)?
            }
            HourForm::Twelve => match two_digits(word >> 4 & 1, word & 15)? {
                12 if word & PM == 0 => 0,
                12 => 12,
                hour @ 1..=11 if word & PM == 0 => hour,
                hour @ 1..=11 => hour + 12,
                _ => return None,
            },
        };
        Some(TimeOfDay { hour, minute })
    }

    pub fn to_word(self, form: HourForm) -> u16 {
        let hours = match (form, self.hour) {
            (HourForm::TwentyFour, hour) => bcd(hour),
            (HourForm::Twelve, 0) => TWELVE_HOURS | bcd(12),
            (HourForm::Twelve, hour @ 1..=11) => TWELVE_HOURS | bcd(hour),
            (HourForm::Twelve, 12) => TWELVE_HOURS | PM | bcd(12),
            (HourForm::Twelve, hour) => TWELVE_HOURS | PM | bcd(hour - 12),
        };
        bcd(self.minute) << 8 | hours
    }
}

#[derive(Clone, Copy, Debug, PartialEq, Eq)]
pub struct Clock {
    /// Year of the century that starts with 2000.
    year: i32,
    month: i32,
    date: i32,
    weekday: i32,
    time: TimeOfDay,
    /// The form that 31h was last written in.
    form: HourForm,
    second: i32,
    /// Ticks of the running second.
    ticks: i32,
}

impl Clock {
    pub fn fresh() -> Clock {
        Clock {
            year: 0,
            month: 1,
            date: 1,
            weekday: 1,
            time: TimeOfDay { hour: 0, minute: 0 },
            form: HourForm::TwentyFour,
            second: 0,
            ticks: 0,
        }
    }

    pub fn time(&self) -> TimeOfDay {
        self.time
    }

    /// Moves the clock by one tick and says whether the minutes changed.
    #[inline]
    pub fn tick(&mut self) -> bool {
        self.ticks += 1;
        if self.ticks < TICKS_PER_SECOND {
            return false;
        }
        self.ticks = 0;
        self.next_second()
    }

    fn next_second(&mut self) -> bool {
        self.second += 1;
        if self.second < 60 {
            return false;
        }
        self.second = 0;
        self.time.minute += 1;
        if self.time.minute == 60 {
            self.time.minute = 0;
            self.time.hour += 1;
            if self.time.hour == 24 {
                self.time.hour = 0;
                self.next_day();
            }
        }
        true
    }

    fn next_day(&mut self) {
        self.weekday = self.weekday % 7 + 1;
        self.date += 1;
        if self.date <= days_in_month(self.year, self.month) {
            return;
        }
        self.date = 1;
        self.month += 1;
        if self.month == 13 {
            self.month = 1;
            self.year = (self.year + 1) % 100;
        }
    }

    /// The word that register 30h + `index` reads.
    pub fn word(&self, index: usize) -> u16 {
        match index {
            0 => bcd(self.ticks * 100 / TICKS_PER_SECOND) << 8 | bcd(self.second),
            1 => self.time.to_word(self.form),
            2 => (self.weekday as u16) << 8 | bcd(self.date),
            _ => bcd(self.month) << 8 | bcd(self.year),
        }
    }

    /// The clock after `words` are written from register 30h + `first` on, `None` where it would
    /// be invalid. The date is judged against the month and year that stand after the whole write.
    pub fn written(mut self, first: usize, words: &[u16]) -> Option<Clock> {
        for (index, &word) in (first..4).zip(words) {
            match index {
                0 => self.set_seconds(word)?,
                1 => self.set_time(word)?,
                2 => self.set_day(word)?,
                _ => self.set_month(word)?,
            }
        }
        (1..=days_in_month(self.year, self.month))
            .contains(&self.date)
            .then_some(self)
    }

    /// Bit 7 of the word is ignored.
    fn set_seconds(&mut self, word: u16) -> Option<()> {
        let hundredths = two_digits(word >> 12, word >> 8 & 15)?;
        self.second = two_digits(word >> 4 & 7, word & 15).filter(|&second| second <= 59)?;
        self.ticks = first_tick(hundredths);
        Some(())
    }

    fn set_time(&mut self, word: u16) -> Option<()> {
        self.time = TimeOfDay::from_word(word)?;
        self.form = HourForm::of_word(word);
        Some(())
    }

    fn set_day(&mut self, word: u16) -> Option<()> {
        self.weekday = i32::from(word >> 8 & 7);
        self.date = two_digits(word >> 4 & 3, word & 15)?;
        (self.weekday != 0).then_some(())
    }

    fn set_month(&mut self, word: u16) -> Option<()> {
        self.month = two_digits(word >> 12 & 1, word >> 8 & 15)?;
        self.year = two_digits(word >> 4 & 15, word & 15)?;
        (1..=12).contains(&self.month).then_some(())
    }
}

/// The first tick of a second that reads as so many hundredths.
pub fn first_tick(hundredths: i32) -> i32 {
    (hundredths * TICKS_PER_SECOND + 99) / 100
}

fn days_in_month(year: i32, month: i32) -> i32 {
    match month {
        2 if year % 4 == 0 => 29,
        2 => 28,
        4 | 6 | 9 | 11 => 30,
        _ => 31,
    }
}

pub fn bcd(value: i32) -> u16 {
    (value / 10 * 16 + value % 10) as u16
}

fn two_digits(tens: u16, ones: u16) -> Option<i32> {
    (tens <= 9 && ones <= 9).then_some(i32::from(tens * 10 + ones))
}

#[cfg(test)]
mod tests {
    use super::*;

    fn clock(words: [u16; 4]) -> Option<Clock> {
        Clock::fresh().written(0, &words)
    }

    fn words(clock: &Clock) -> [u16; 4] {
        [0, 1, 2, 3].map(|index| clock.word(index))
    }

    #[test]
    fn hundredths_change_between_their_ticks() {
        let mut clock = clock([0x9800, 0, 0x0101, 0x0100]).unwrap();
        assert_eq!(clock.ticks, 32_113);
        clock.ticks = 32_440;
        assert_eq!(clock.word(0), 0x9800);
        clock.ticks = 32_441;
        assert_eq!(clock.word(0), 0x9900);
    }

    #[test]
    fn every_written_hundredth_reads_back() {
        for hundredth in 0..100 {
            let word = bcd(hundredth) << 8;
            let clock = clock([word, 0, 0x0101, 0x0100]).unwrap();
            assert_eq!(clock.word(0), word);
        }
    }

    #[test]
    fn the_century_wraps() {
        let mut clock = clock([0x9959, 0x5923, 0x0531, 0x1299]).unwrap();
        clock.ticks = TICKS_PER_SECOND - 1;
        assert!(clock.tick());
        assert_eq!(words(&clock), [0, 0, 0x0601, 0x0100]);
        assert_eq!(clock.ticks, 0);
    }

    /// 12:30 at night to 11:30 at night, as a person names the hours.
    #[test]
    fn twelve_hours_twice() {
        let digits = [
            0x12, 0x01, 0x02, 0x03, 0x04, 0x05, 0x06, 0x07, 0x08, 0x09, 0x10, 0x11,
        ];
        let words = [0x3040, 0x3060].map(|half| digits.map(|digit| half | digit));
        for (hour, word) in (0..).zip(words.concat()) {
            let time = TimeOfDay { hour, minute: 30 };
            assert_eq!(TimeOfDay::from_word(word), Some(time));
            assert_eq!(time.to_word(HourForm::Twelve), word);
        }
    }

    #[test]
    fn hours_that_a_form_has_not() {
        let valid = |byte: &u16| TimeOfDay::from_word(*byte).is_some();
        assert_eq!((0x00..0x40).filter(valid).count(), 24);
        assert_eq!((0x40..0x80).filter(valid).count(), 24);
        for byte in [0x24, 0x0A, 0x40, 0x53, 0x60, 0x73, 0x4A] {
            assert!(!valid(&byte));
        }
    }

    #[test]
    fn the_form_stays_until_31h_is_written() {
        let mut clock = clock([0x9959, 0x5971, 0x0715, 0x1126]).unwrap();
        clock.ticks = TICKS_PER_SECOND - 1;
        assert!(clock.tick());
        assert_eq!(words(&clock), [0, 0x0052, 0x0116, 0x1126]);
        let clock = clock.written(2, &[0x0228]).unwrap();
        assert_eq!(clock.word(1), 0x0052);
        assert_eq!(clock.written(1, &[0x0053]), None);
        assert_eq!(clock.written(1, &[0x0012]).unwrap().word(1), 0x0012);
    }

    #[test]
    fn leap_days() {
        assert!(clock([0, 0, 0x0129, 0x0200]).is_some());
        assert!(clock([0, 0, 0x0129, 0x0296]).is_some());
        assert!(clock([0, 0, 0x0129, 0x0299]).is_none());
    }

    #[test]
    fn the_century_has_36525_days() {
        let mut clock = Clock::fresh();
        for _ in 0..36_525 {
            clock.next_day();
        }
        assert_eq!(words(&clock)[3], 0x0100);
        assert_eq!(clock.date, 1);
        assert_eq!(clock.weekday, 36_525 % 7 + 1);
    }
}
