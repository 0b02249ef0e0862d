//! Set-up words.

use peer::registers::{control, ALL_PORTS, EOSC, TOF1};

use crate::maker::Maker;

impl Maker {
    fn tof1(&mut self) -> u16 {
        match self.random.below(20) {
            0 => self.random.word() & 0x00FF,
            1 => self.random.word() & 0xFF0F,
            2 => self.random.word(),
            _ => self.random.word() | 0x0110,
        }
    }

    pub fn event_timing(&mut self) -> [u16; 2] {
        let mut fields = [0; 4];
        for (field, largest) in fields.iter_mut().zip([15, 31, 63, 31]) {
            *field = match self.random.below(10) {
                0..=6 => self.random.below(2),
                _ => self.random.below(4),
            };
            if self.random.percent(1) {
                *field = self.random.between(0, largest);
            }
        }
        let [tdf, tdm, tmf, tmm] = fields.map(|field| field as u16);
        let ports = if self.random.percent(90) {
            ALL_PORTS
        } else {
            0
        };
        let other = self.random.word() & 0x07FF;
        let [timing1, timing2] = timing_words(tdf, tdm, tmf, tmm);
        [timing1 | self.random.word() & 1, timing2 | ports | other]
    }

    /// A random word, in nine of ten cases without these bits.
    fn mostly_without(&mut self, bits: u16) -> u16 {
        let word = self.random.word();
        if self.random.percent(90) {
            word & !bits
        } else {
            word
        }
    }

    pub fn configure(&mut self) {
        let [timing1, timing2] = self.event_timing();
        let mut words = [0; 12].map(|_: u16| self.random.word());
        words[0] = self.tof1();
        words[7] = timing1;
        words[8] = timing2;
        words[10] = self.mostly_without(control::ET_CONT);
        words[11] = self.mostly_without(EOSC);
        if self.random.percent(60) {
            self.write(TOF1, &words);
            return;
        }
        for (register, word) in (TOF1..).zip(words) {
            if self.random.percent(50) {
                self.write(register, &[word]);
            }
        }
    }
}

/// 3Fh and 40h with these fields alone.
pub fn timing_words(tdf: u16, tdm: u16, tmf: u16, tmm: u16) -> [u16; 2] {
    [tdf << 12 | tdm << 7 | tmf << 1, tmm << 11]
}
