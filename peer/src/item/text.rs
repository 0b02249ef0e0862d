//! Lines, words and numbers.

use super::Fault;

/// Digits of a decimal, leading zeros included.
pub const DECIMAL_DIGITS: usize = 10;
/// The word before an expected answer.
const ARROW: &[u8] = b"=>";
/// The word before a comment.
const COMMENT: &[u8] = b"#";

/// The words of a line, parted by blanks and tabs.
#[derive(Clone)]
pub struct Words<'a> {
    rest: &'a [u8],
}

impl<'a> Words<'a> {
    pub fn of(line: &'a [u8]) -> Words<'a> {
        Words { rest: line }
    }

    /// The words before the first arrow, and those after it where there is one.
    pub fn split_at_arrow(self) -> (Words<'a>, Option<Words<'a>>) {
        self.split_at(ARROW)
    }

    /// The words before a comment.
    pub fn without_comment(self) -> Words<'a> {
        self.split_at(COMMENT).0
    }

    /// The words before the first that is `parting`, and those after it where there is one.
    fn split_at(self, parting: &[u8]) -> (Words<'a>, Option<Words<'a>>) {
        if !self.rest.contains(&parting[0]) {
            return (self, None);
        }
        let mut words = self.clone();
        while let Some(word) = words.next() {
            if word == parting {
                let before = self.rest.len() - words.rest.len() - parting.len();
                return (Words::of(&self.rest[..before]), Some(words));
            }
        }
        (self, None)
    }
}

impl<'a> Iterator for Words<'a> {
    type Item = &'a [u8];

    fn next(&mut self) -> Option<&'a [u8]> {
        let is_blank = |byte: &u8| matches!(byte, b' ' | b'\t');
        let start = self.rest.iter().position(|byte| !is_blank(byte))?;
        let rest = &self.rest[start..];
        let end = rest.iter().position(is_blank).unwrap_or(rest.len());
        let (word, rest) = rest.split_at(end);
        self.rest = rest;
        Some(word)
    }
}

/// The lines of a text without their line feeds and one carriage return before each.
pub fn lines(text: &[u8]) -> impl Iterator<Item = &[u8]> {
    text.split_inclusive(|&byte| byte == b'\n').map(|line| {
        let line = line.strip_suffix(b"\n").unwrap_or(line);
        line.strip_suffix(b"\r").unwrap_or(line)
    })
}

pub fn decimal(word: &[u8], largest: u32) -> Result<u32, Fault<'_>> {
    let value = digits(word).and_then(|value| u32::try_from(value).ok());
    match value {
        Some(value) if value <= largest => Ok(value),
        _ => Err(Fault::BadNumber(word)),
    }
}

/// A decimal with or without a `-` before it.
pub fn signed_decimal(word: &[u8]) -> Result<i32, Fault<'_>> {
    let value = match word.strip_prefix(b"-") {
        Some(word) => digits(word).map(|value| -value),
        None => digits(word),
    };
    let value = value.and_then(|value| i32::try_from(value).ok());
    value.ok_or(Fault::BadNumber(word))
}

fn digits(word: &[u8]) -> Option<i64> {
    if !(1..=DECIMAL_DIGITS).contains(&word.len()) || !word.iter().all(u8::is_ascii_digit) {
        return None;
    }
    let add = |value, digit: &u8| value * 10 + i64::from(digit - b'0');
    Some(word.iter().fold(0, add))
}

pub fn hexadecimal(
    word: &[u8],
    fewest_digits: usize,
    most_digits: usize,
) -> Result<u32, Fault<'_>> {
    let bad = Fault::BadNumber(word);
    if !(fewest_digits..=most_digits).contains(&word.len()) {
        return Err(bad);
    }
    let mut value = 0;
    for &digit in word {
        value = value << 4 | char::from(digit).to_digit(16).ok_or(bad)?;
    }
    Ok(value)
}

#[cfg(test)]
mod tests {
    use super::*;

    #[test]
    fn line_ends() {
        let found: Vec<&[u8]> = lines(b"a\r\nb\n\r\r\nc\r").collect();
        assert_eq!(found, [&b"a"[..], b"b", b"\r", b"c"]);
    }

    /// The words before the arrow and after it, as texts parted by one blank.
    fn split(line: &str) -> (String, Option<String>) {
        let join = |words: Words| {
            let words: Vec<&[u8]> = words.collect();
            String::from_utf8(words.join(&b" "[..])).unwrap()
        };
        let (before, after) = Words::of(line.as_bytes()).split_at_arrow();
        (join(before), after.map(join))
    }

    #[test]
    fn the_first_arrow_parts_a_line() {
        let parted = |before: &str, after: &str| (before.to_string(), Some(after.to_string()));
        assert_eq!(split("\ta  b \t=>  c\td "), parted("a b", "c d"));
        assert_eq!(split("a=> b =>"), parted("a=> b", ""));
        assert_eq!(split("=> => a"), parted("", "=> a"));
        assert_eq!(split("a =>b out=>"), ("a =>b out=>".to_string(), None));
    }

    #[test]
    fn the_first_word_of_a_comment_parts_it() {
        let left = |line: &'static str| Words::of(line.as_bytes()).without_comment().count();
        assert_eq!(left("a b # c"), 2);
        assert_eq!(left("a\t#\t# c"), 1);
        assert_eq!(left("a #b ## c#"), 4);
        assert_eq!(left("# a"), 0);
    }

    #[test]
    fn decimals() {
        assert_eq!(decimal(b"0000000200", 200), Ok(200));
        assert_eq!(decimal(b"4294967295", u32::MAX), Ok(u32::MAX));
        for word in [&b""[..], b"201", b"00000000001", b"-1", b"+1", b"1 ", b"x"] {
            assert_eq!(decimal(word, 200), Err(Fault::BadNumber(word)));
        }
        assert!(decimal(b"4294967296", u32::MAX).is_err());
    }

    #[test]
    fn signed_decimals() {
        assert_eq!(signed_decimal(b"-2147483648"), Ok(i32::MIN));
        assert_eq!(signed_decimal(b"2147483647"), Ok(i32::MAX));
        assert_eq!(signed_decimal(b"-0000000007"), Ok(-7));
        assert_eq!(signed_decimal(b"-0"), Ok(0));
        let bad = [
            "-2147483649",
            "2147483648",
            "-",
            "",
            "--1",
            "+1",
            "-00000000007",
        ];
        for word in bad {
            let word = word.as_bytes();
            assert_eq!(signed_decimal(word), Err(Fault::BadNumber(word)));
        }
    }
}
