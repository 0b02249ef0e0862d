//! Why a line is no call.

/// Bytes of a word that a bad line's answer names.
const LONGEST_NAMED: usize = 32;

#[derive(Clone, Copy, Debug, PartialEq, Eq)]
pub enum Fault<'a> {
    TooLong,
    UnknownWord(&'a [u8]),
    BadNumber(&'a [u8]),
    WrongCount,
    Past,
    NoRoom,
}

impl<'a> Fault<'a> {
    pub fn text(self) -> &'static str {
        match self {
            Fault::TooLong => "too long",
            Fault::UnknownWord(_) => "unknown word",
            Fault::BadNumber(_) => "bad number",
            Fault::WrongCount => "wrong count",
            Fault::Past => "past",
            Fault::NoRoom => "no room",
        }
    }

    /// The word at fault, as it is printed, with a blank before it; empty where there is none.
    pub fn named(self) -> String {
        let (Fault::UnknownWord(word) | Fault::BadNumber(word)) = self else {
            return String::new();
        };
        let printed = |&byte: &u8| match byte {
            0x21..=0x7E => char::from(byte),
            _ => '?',
        };
        let mut named = String::from(" ");
        named.extend(word.iter().take(LONGEST_NAMED).map(printed));
        if word.len() > LONGEST_NAMED {
            named += "..";
        }
        named
    }
}

#[cfg(test)]
mod tests {
    use super::*;

    #[test]
    fn a_word_is_named_by_its_first_bytes() {
        let most = "7".repeat(LONGEST_NAMED);
        assert_eq!(
            Fault::BadNumber(most.as_bytes()).named(),
            format!(" {most}")
        );
        let more = format!("{most}7");
        assert_eq!(
            Fault::UnknownWord(more.as_bytes()).named(),
            format!(" {most}..")
        );
        assert_eq!(Fault::BadNumber(b"!~\x7F\x00\xFFx").named(), " !~???x");
        assert_eq!(Fault::Past.named(), "");
    }
}
