//! Lines of text: one call each, and looks at the state.

use peer::item::{DECIMAL_DIGITS, LONGEST_FRAME};
use peer::opcode::{INITIALIZE, READ_ABOVE_WRITE, RESET};
use peer::{registers, LONGEST_STRETCH};

use crate::maker::Maker;

impl Maker {
    pub fn line(&mut self, words: &[u8]) {
        let mut line = words.to_vec();
        let ending: &[u8] = match self.random.below(500) {
            0..=4 => b"\r\n",
            5..=9 => b" \t\n",
            10 => {
                line.push(b'\r');
                b"\r\n"
            }
            11 => b"\n\n# a comment\n \t\n",
            _ => b"\n",
        };
        self.add_to(&mut line);
        self.text.extend(line);
        self.text.extend_from_slice(ending);
    }

    /// A line that counts as a call.
    pub fn call(&mut self, words: &str) {
        self.calls += 1;
        self.question(words);
    }

    /// A line that may end with an expected answer.
    pub fn question(&mut self, words: &str) {
        let mut line = String::from(words);
        if self.random.percent(4) {
            line += self.guess();
        }
        if self.random.percent(1) {
            line = format!(" {}", line.replace(' ', "\t  "));
        }
        self.line(line.as_bytes());
    }

    /// An expected answer, which may be the right one.
    fn guess(&mut self) -> &'static str {
        self.random.one_of(&[
            " =>",
            " => ok",
            " => ok -",
            " => ok flight",
            " => no",
            " => no 6",
            " => no 10 not awaited",
            " => no 9 set",
            " => good",
            " => failed",
            " => yes",
            " => 0",
            " => 1 0",
            " => =>",
        ])
    }

    pub fn hexadecimal(&mut self, value: i64, digits: usize) -> String {
        match self.random.below(10) {
            0 => format!("{value:0digits$x}"),
            _ => format!("{value:0digits$X}"),
        }
    }

    pub fn bus(&mut self, frame: &[u8]) {
        match frame {
            [RESET] => self.forget_set_up(),
            [INITIALIZE] => self.initialised = true,
            _ => {}
        }
        let mut output_size = None;
        if self.random.percent(3) {
            let longest = LONGEST_FRAME as i64;
            let exact = frame.len() as i64;
            let size = match self.random.below(3) {
                0 => self.random.between((exact - 2).max(0), exact + 2),
                1 => self.random.below(8),
                _ => self.random.between(0, longest),
            };
            output_size = Some(size.min(longest));
        }
        self.bus_with(output_size, frame);
    }

    pub fn bus_with(&mut self, output_size: Option<i64>, frame: &[u8]) {
        let mut words = String::from("bus");
        if let Some(size) = output_size {
            let digits = self.random.between(1, DECIMAL_DIGITS as i64) as usize;
            words += &format!(" out={size:0digits$}");
        }
        for &byte in frame {
            words.push(' ');
            words += &self.hexadecimal(byte.into(), 2);
        }
        self.call(&words);
    }

    /// A command that is meant to start a measurement.
    pub fn start(&mut self, opcode: u8) {
        self.bus(&[opcode]);
        self.moment = 0;
    }

    /// Writes from the register of this address on.
    pub fn write(&mut self, first: u8, words: &[u16]) {
        let opcode = first - READ_ABOVE_WRITE;
        let mut frame = vec![opcode];
        for (address, &word) in (first..).zip(words) {
            frame.extend(word.to_be_bytes());
            self.set_up.set(address, word);
        }
        if self.random.percent(25) {
            self.set(opcode, words);
        } else {
            self.bus(&frame);
        }
    }

    pub fn set(&mut self, opcode: u8, words: &[u16]) {
        let mut line = format!("set {}", self.hexadecimal(opcode.into(), 2));
        for &word in words {
            let digits = self.random.one_of(&[4, 4, 4, 1]);
            line.push(' ');
            line += &self.hexadecimal(word.into(), digits);
        }
        self.call(&line);
    }

    pub fn read(&mut self, first: u8, count: usize) {
        if self.replay.is_some() && self.random.percent(60) {
            self.calls += 1;
            return self.patterns("read", first, count);
        }
        let mut frame = vec![first];
        for _ in 0..2 * count {
            frame.push(self.random.byte());
        }
        self.bus(&frame);
    }

    pub fn tick(&mut self, count: i64) {
        self.pass("tick", count, count);
    }

    /// A line of this name and number, after which so many ticks have passed.
    fn pass(&mut self, name: &str, number: i64, ticks: i64) {
        self.ticks += ticks;
        self.moment += ticks;
        let digits = if self.random.percent(2) {
            DECIMAL_DIGITS
        } else {
            1
        };
        self.call(&format!("{name} {number:0digits$}"));
    }

    /// Ticks in one line or more.
    pub fn wait(&mut self, count: i64) {
        let mut left = count;
        while left > 1 && self.random.percent(25) {
            let part = match self.random.below(3) {
                0 => left - 1,
                1 => 1,
                _ => self.random.below(left),
            };
            self.wait_once(part);
            left -= part;
        }
        if left > 0 || self.random.percent(2) {
            self.wait_once(left);
        }
    }

    fn wait_once(&mut self, count: i64) {
        let longest = i64::from(LONGEST_STRETCH);
        match self.random.below(8) {
            0 => self.pass("at", self.moment + count, count),
            1 if self.random.percent(2) => self.pass("at", (self.moment - 1).max(0), 0),
            1 if self.random.percent(3) => self.pass("stretch", longest + 1 + count, 0),
            1 if count <= longest => self.pass("stretch", count, count),
            1 => {
                self.pass("stretch", longest, longest);
                self.wait_once(count - longest);
            }
            _ => self.tick(count),
        }
    }

    fn word_list(&mut self, list: &[i64]) -> String {
        let mut words = String::new();
        for &word in list {
            let digits = if self.random.percent(20) { 1 } else { 8 };
            words.push(' ');
            words += &self.hexadecimal(word, digits);
        }
        words
    }

    pub fn flight(&mut self, up: &[i64], down: &[i64]) {
        let up = self.word_list(up);
        let down = self.word_list(down);
        self.call(&format!("flight{up} /{down}"));
    }

    pub fn temperature(&mut self, words: &[i64]) {
        let words = self.word_list(words);
        self.call(&format!("temperature{words}"));
    }

    /// Often looks at the state.
    pub fn look(&mut self) {
        match self.random.below(12) {
            0 => self.question("regs"),
            1 => self.question("awaited"),
            2 => self.question("int"),
            3 => self.read(registers::STATUS, 1),
            4 => self.expect(),
            5 if self.random.percent(30) => self.call("frames"),
            5 => {
                let (first, count) = self.some_registers();
                self.read(first, count as usize);
            }
            _ => {}
        }
    }

    /// A first register and a number of registers from it on.
    fn some_registers(&mut self) -> (u8, i64) {
        let [first, last] = [registers::FIRST, registers::LAST].map(i64::from);
        let first = self.random.between(first, last) as u8;
        let most = registers::words_from(first) as i64;
        (first, self.random.between(1, most))
    }

    fn expect(&mut self) {
        let (first, count) = self.some_registers();
        if self.replay.is_some() {
            return self.patterns("expect", first, count as usize);
        }
        let mut words = format!("expect {}", self.hexadecimal(first.into(), 2));
        for _ in 0..count.min(12) {
            let random = self.random.word();
            let wanted = self.random.one_of(&[0, 0, 0, 0xFFFF, 0x0C, random]);
            let digits = self.random.between(1, 4) as usize;
            words.push(' ');
            words += &self.hexadecimal(wanted.into(), digits);
        }
        self.line(words.as_bytes());
    }
}
