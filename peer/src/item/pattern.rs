//! A register's word with digits that may be any.

use super::Fault;

/// Digits of a word.
const DIGITS: usize = 4;

#[derive(Clone, Copy, Debug, PartialEq, Eq)]
pub struct Pattern {
    /// What is wanted of the digits that are given; 0 in the others.
    value: u16,
    /// Ones in each digit that is given.
    given: u16,
}

impl Pattern {
    pub fn exact(value: u16) -> Pattern {
        Pattern {
            value,
            given: u16::MAX,
        }
    }

    /// Of digits that are hexadecimal or `x`; `0x` at their start would be taken for a prefix.
    pub fn of(word: &[u8]) -> Result<Pattern, Fault<'_>> {
        let bad = Fault::BadNumber(word);
        if !(1..=DIGITS).contains(&word.len()) || word.starts_with(b"0x") {
            return Err(bad);
        }
        let mut pattern = Pattern::exact(0);
        for &byte in word {
            let (digit, given) = match byte {
                b'x' => (0, 0),
                _ => (char::from(byte).to_digit(16).ok_or(bad)?, 0xF),
            };
            pattern.value = pattern.value << 4 | digit as u16;
            pattern.given = pattern.given << 4 | given;
        }
        Ok(pattern)
    }

    pub fn agrees(self, word: u16) -> bool {
        word & self.given == self.value
    }

    pub fn takes_any(self) -> bool {
        self.given == 0
    }

    pub fn text(self) -> [u8; DIGITS] {
        let mut text = [b'x'; DIGITS];
        let digits = format!("{:04X}", self.value);
        for (place, digit) in digits.bytes().enumerate() {
            if self.given << (4 * place) & 0xF000 != 0 {
                text[place] = digit;
            }
        }
        text
    }
}

#[cfg(test)]
mod tests {
    use super::*;

    #[test]
    fn digits_that_may_be_any() {
        let pattern = Pattern::of(b"bx0").unwrap();
        assert_eq!(&pattern.text(), b"0Bx0");
        assert!(pattern.agrees(0x0B70) && !pattern.takes_any());
        assert!(!pattern.agrees(0x0B71) && !pattern.agrees(0x1B70));
        assert!(Pattern::of(b"xxxx").unwrap().takes_any());
        assert!(!Pattern::of(b"xxx").unwrap().takes_any());
        assert_eq!(Pattern::of(b"00x"), Pattern::of(b"x"));
    }

    #[test]
    fn no_patterns() {
        for word in [&b""[..], b"0x", b"0x12", b"X", b"xxxxx", b"-x", b"00000"] {
            assert_eq!(Pattern::of(word), Err(Fault::BadNumber(word)));
        }
    }
}
