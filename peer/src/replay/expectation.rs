//! What an item expects, of registers and of answers.

use super::Replay;

use crate::item::{Format, Wanted, Words};
use crate::registers;

impl Replay {
    /// Looks at the registers and clears nothing.
    pub(super) fn expect(&mut self, wanted: &Wanted) {
        let addresses = wanted.first..=registers::LAST;
        let has: Vec<u16> = addresses
            .take(wanted.words.len())
            .map(|address| self.item.model.register(address))
            .collect();
        self.compare("expect", wanted, &has);
    }

    /// A read transaction, which clears what such a read clears.
    pub(super) fn read(&mut self, wanted: &Wanted) {
        self.counts.calls += 1;
        let size = 2 * wanted.words.len();
        let mut frame = vec![0; 1 + size];
        frame[0] = wanted.first;
        let mut output = vec![0; size];
        let memory = &mut self.item.memory;
        let answer = self.item.model.transaction(&frame, &mut output, memory);
        assert!(answer.is_ok(), "no such read is refused");
        let word = |bytes: &[u8]| u16::from_be_bytes([bytes[0], bytes[1]]);
        let has: Vec<u16> = output.chunks(2).map(word).collect();
        self.compare("read", wanted, &has);
    }

    fn compare(&mut self, name: &str, wanted: &Wanted, has: &[u16]) {
        self.answers.print(format_args!("{name} "));
        self.answers.byte(wanted.first);
        let mut differing = 0;
        for ((address, pattern), &has) in
            (wanted.first..=registers::LAST).zip(&wanted.words).zip(has)
        {
            self.counts.expectations += u64::from(!pattern.takes_any());
            if pattern.agrees(has) {
                continue;
            }
            if differing == 0 {
                self.answers.put(b" differs");
            }
            differing += 1;
            self.answers.put(b" ");
            self.answers.byte(address);
            self.answers.put(b":");
            self.answers.word(has);
            self.answers.put(b"/");
            self.answers.put(&pattern.text());
        }
        if differing == 0 {
            self.answers.put(b" ok");
        }
        self.answers.put(b"\n");
        self.counts.differing += differing;
    }

    /// Whether the answer that begins at `start` has the expected words after its first; where it
    /// has not, its first line says so.
    pub(super) fn judge(&mut self, start: usize, expected: Words) -> bool {
        let format = self.format;
        if format == Format::Old || expected.clone().next().is_some() {
            self.counts.expectations += 1;
        }
        let mut has = Words::of(self.answers.line_from(start)).skip(1);
        if expected
            .clone()
            .all(|word| has.next().is_some_and(|has| agrees(has, word, format)))
        {
            return true;
        }
        self.counts.differing += 1;
        let rest = self
            .answers
            .take_from(start + self.answers.line_from(start).len());
        self.answers.put(b" expected");
        self.answers.words(expected);
        self.answers.put(&rest);
        false
    }
}

/// Whether an answer's word is the expected one, in which an `x` may stand for any byte.
fn agrees(has: &[u8], expected: &[u8], format: Format) -> bool {
    let any = format == Format::New;
    let mut pairs = has.iter().zip(expected);
    has.len() == expected.len()
        && pairs.all(|(has, expected)| has == expected || any && *expected == b'x')
}

#[cfg(test)]
mod tests {
    use super::*;
    use crate::replay;

    fn answers(text: &str) -> (String, String) {
        answers_in(text, Format::Old)
    }

    /// The answers and, without its `end`, the last line.
    fn answers_in(text: &str, format: Format) -> (String, String) {
        let mut answers = Vec::new();
        replay(text.as_bytes(), format, &mut answers).unwrap();
        let answers = String::from_utf8(answers).unwrap();
        let (answers, last) = answers.split_once("end ").unwrap();
        (answers.to_string(), last.trim_end().to_string())
    }

    #[test]
    fn the_first_words_are_enough() {
        let (given, last) = answers("bus FE 00 00 => ok\nint => no\nbus =>\nbus => no 1\n");
        assert_eq!(
            given,
            "bus ok - out 0004\nint no\nbus no 1 no frame\nbus no 1 no frame\n"
        );
        assert_eq!(
            last,
            "3 calls, 2 refused, 0 unannounced, 0 bad lines, 4 expectations, 0 differ"
        );
    }

    #[test]
    fn a_refusal_is_announced_by_words_that_agree() {
        let (given, last) = answers("bus => ok\nbus => no 2\nbus\nbus => no 1 no frame at all\n");
        let refused = "bus no 1 no frame";
        let wanted = format!(
            "{refused} expected ok\n{refused} expected no 2\n{refused}\n\
             {refused} expected no 1 no frame at all\n"
        );
        assert_eq!(given, wanted);
        assert_eq!(
            last,
            "4 calls, 4 refused, 4 unannounced, 0 bad lines, 3 expectations, 3 differ"
        );
    }

    #[test]
    fn a_difference_stands_in_the_first_line() {
        let (given, _) = answers("record 0 1\nlisting 0 =>  3\tlines\n");
        let wanted = "record 0 1\nlisting 2 expected 3 lines\n\
            00000000        0.0000\n00000001        0.0038\n";
        assert_eq!(given, wanted);
    }

    #[test]
    fn a_bad_line_has_no_expectation() {
        let (_, last) = answers("tick x => x\ntick 5\nat 4 => 4\nexpect B0 1 x\n");
        assert_eq!(
            last,
            "1 calls, 0 refused, 0 unannounced, 3 bad lines, 0 expectations, 0 differ"
        );
    }

    #[test]
    fn words_of_registers_are_counted_each() {
        let (given, last) = answers("expect B2 0101 100 1\n");
        assert_eq!(given, "expect B2 differs B4:0000/0001\n");
        assert_eq!(
            last,
            "0 calls, 0 refused, 0 unannounced, 0 bad lines, 3 expectations, 1 differ"
        );
    }

    #[test]
    fn a_read_clears_the_status_and_is_no_start() {
        let text = "tick 5\nread fe x # 0004\nread FD 0 00x4\nat 5 => x\nread FE xxxx\n";
        let (given, last) = answers_in(text, Format::New);
        assert_eq!(
            given,
            "tick 5\nread FE ok\nread FD differs FE:0000/00x4\nat 5\nread FE ok\n"
        );
        assert_eq!(
            last,
            "5 calls, 0 refused, 0 unannounced, 0 bad lines, 4 expectations, 1 differ"
        );
    }

    #[test]
    fn an_expected_word_has_as_many_bytes() {
        let text = "bus => xx x xx fxxxx\nbus => no xx\nbus => # no 2\nbus => #\tx\nbus # => no\n";
        let (given, last) = answers_in(text, Format::New);
        let refused = "bus no 1 no frame";
        let wanted =
            format!("{refused}\n{refused} expected no xx\n{refused}\n{refused}\n{refused}\n");
        assert_eq!(given, wanted);
        assert_eq!(
            last,
            "5 calls, 5 refused, 2 unannounced, 0 bad lines, 2 expectations, 1 differ"
        );
    }
}
