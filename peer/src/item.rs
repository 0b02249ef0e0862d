//! Items as text: one call a line.

mod fault;
mod pattern;
mod text;

use crate::{opcode, registers};

use text::{decimal, hexadecimal, signed_decimal};

pub use fault::Fault;
pub use pattern::Pattern;
pub use text::{lines, Words, DECIMAL_DIGITS};

/// Bytes of a line, its line feed and carriage return not counted.
pub const LONGEST_LINE: usize = 1_000;
/// Bytes of a frame or of an output buffer.
pub const LONGEST_FRAME: usize = 200;
/// Words that one `set` line can have.
pub const LONGEST_SET: usize = 99;
/// Words of one delivered list.
pub const LONGEST_LIST: usize = 16;

/// The form of items and of their answers.
#[derive(Clone, Copy, PartialEq, Eq)]
pub enum Format {
    Old,
    /// With `read`, digits `x`, comments behind a line and the words that bad lines name.
    New,
}

pub enum Line<'a> {
    /// No word, or a comment.
    Nothing,
    Item(Words<'a>),
    /// Its answer is laid out by each program's makers; this one gives none.
    Show,
    Expect(Wanted),
    Read(Wanted),
    Call {
        call: Call,
        /// The words after `=>`.
        expected: Option<Words<'a>>,
    },
}

/// A line that may end with an expected answer.
pub enum Call {
    Bus {
        output_size: Option<usize>,
        frame: Vec<u8>,
    },
    Set {
        opcode: u8,
        words: Vec<u16>,
    },
    Tick(u32),
    At(u32),
    Stretch(u32),
    Flight {
        up: Vec<i64>,
        down: Vec<i64>,
    },
    Temperature(Vec<i64>),
    Interrupt,
    Awaited,
    Registers,
    Frames,
    Probe(Vec<u32>),
    Degrees {
        probe: u32,
        reference: u32,
    },
    Record(Vec<i32>),
    Listing {
        old: bool,
        first: u32,
    },
    Quietest(u32),
}

/// What is expected of the registers from `first` on.
pub struct Wanted {
    pub first: u8,
    pub words: Vec<Pattern>,
}

pub fn parse(line: &[u8], format: Format) -> Result<Line<'_>, Fault<'_>> {
    if line.len() > LONGEST_LINE {
        return Err(Fault::TooLong);
    }
    let mut words = Words::of(line);
    let Some(first) = words.next() else {
        return Ok(Line::Nothing);
    };
    match first {
        [b'#', ..] => return Ok(Line::Nothing),
        b"item" => return named(words),
        _ => {}
    }
    if format == Format::New {
        words = words.without_comment();
    }
    match first {
        b"show" => end(words).map(|()| Line::Show),
        b"expect" => wanted(words, format).map(Line::Expect),
        b"read" if format == Format::New => wanted(words, format).map(Line::Read),
        name => {
            let (words, expected) = words.split_at_arrow();
            let call = call(name, words)?;
            Ok(Line::Call { call, expected })
        }
    }
}

fn call<'a>(name: &'a [u8], words: Words<'a>) -> Result<Call, Fault<'a>> {
    match name {
        b"bus" => bus(words),
        b"set" => set(words),
        b"tick" => Ok(Call::Tick(number(words)?)),
        b"at" => Ok(Call::At(number(words)?)),
        b"stretch" => Ok(Call::Stretch(number(words)?)),
        b"flight" => flight(words),
        b"temperature" => temperature(words),
        b"int" => end(words).map(|()| Call::Interrupt),
        b"awaited" => end(words).map(|()| Call::Awaited),
        b"regs" => end(words).map(|()| Call::Registers),
        b"frames" => end(words).map(|()| Call::Frames),
        b"probe" => probe(words),
        b"degrees" => degrees(words),
        b"record" => record(words),
        b"listing" => listing(words),
        b"quietest" => Ok(Call::Quietest(number(words)?)),
        _ => Err(Fault::UnknownWord(name)),
    }
}

fn named(words: Words<'_>) -> Result<Line<'_>, Fault<'_>> {
    if words.clone().next().is_none() {
        return Err(Fault::WrongCount);
    }
    Ok(Line::Item(words))
}

/// No further word may follow.
fn end(mut words: Words<'_>) -> Result<(), Fault<'_>> {
    match words.next() {
        None => Ok(()),
        Some(_) => Err(Fault::WrongCount),
    }
}

/// The decimal that a line has alone.
fn number(mut words: Words<'_>) -> Result<u32, Fault<'_>> {
    let value = words.next().ok_or(Fault::WrongCount)?;
    let value = decimal(value, u32::MAX)?;
    end(words)?;
    Ok(value)
}

fn bus(words: Words<'_>) -> Result<Call, Fault<'_>> {
    let mut words = words.peekable();
    let mut output_size = None;
    if let Some(word) = words.next_if(|word| word.starts_with(b"out=")) {
        let size = decimal(&word[b"out=".len()..], LONGEST_FRAME as u32);
        output_size = Some(size.map_err(|_| Fault::BadNumber(word))? as usize);
    }
    let mut frame = Vec::with_capacity(LONGEST_FRAME);
    for word in words {
        frame.push(hexadecimal(word, 2, 2)? as u8);
    }
    if frame.len() > LONGEST_FRAME {
        return Err(Fault::WrongCount);
    }
    Ok(Call::Bus { output_size, frame })
}

fn set(mut words: Words<'_>) -> Result<Call, Fault<'_>> {
    let first = words.next().ok_or(Fault::WrongCount)?;
    let opcode = hexadecimal(first, 2, 2)? as u8;
    if !(opcode::FIRST_WRITE..=opcode::LAST_WRITE).contains(&opcode) {
        return Err(Fault::BadNumber(first));
    }
    let mut list = Vec::with_capacity(LONGEST_SET);
    for word in words {
        list.push(hexadecimal(word, 1, 4)? as u16);
    }
    if !(1..=LONGEST_SET).contains(&list.len()) {
        return Err(Fault::WrongCount);
    }
    Ok(Call::Set {
        opcode,
        words: list,
    })
}

fn flight(words: Words<'_>) -> Result<Call, Fault<'_>> {
    let mut up = Vec::with_capacity(LONGEST_LIST);
    let mut down = Vec::with_capacity(LONGEST_LIST);
    let mut separators = 0;
    for word in words {
        if word == b"/" {
            separators += 1;
            continue;
        }
        let list = if separators == 0 { &mut up } else { &mut down };
        list.push(i64::from(hexadecimal(word, 1, 8)?));
    }
    if separators != 1 || up.len() > LONGEST_LIST || down.len() > LONGEST_LIST {
        return Err(Fault::WrongCount);
    }
    Ok(Call::Flight { up, down })
}

fn temperature(words: Words<'_>) -> Result<Call, Fault<'_>> {
    let mut list = Vec::with_capacity(LONGEST_LIST);
    for word in words {
        list.push(i64::from(hexadecimal(word, 1, 8)?));
    }
    if list.len() > LONGEST_LIST {
        return Err(Fault::WrongCount);
    }
    Ok(Call::Temperature(list))
}

fn probe(words: Words<'_>) -> Result<Call, Fault<'_>> {
    let entries: Vec<u32> = words
        .map(|word| decimal(word, u32::MAX))
        .collect::<Result<_, _>>()?;
    if entries.is_empty() {
        return Err(Fault::WrongCount);
    }
    Ok(Call::Probe(entries))
}

fn degrees(mut words: Words<'_>) -> Result<Call, Fault<'_>> {
    let mut word = || {
        let word = words.next().ok_or(Fault::WrongCount)?;
        hexadecimal(word, 1, 8)
    };
    let [probe, reference] = [word()?, word()?];
    end(words)?;
    Ok(Call::Degrees { probe, reference })
}

fn record(words: Words<'_>) -> Result<Call, Fault<'_>> {
    let differences = words.map(signed_decimal).collect::<Result<_, _>>()?;
    Ok(Call::Record(differences))
}

fn listing(mut words: Words<'_>) -> Result<Call, Fault<'_>> {
    let mut first = words.next();
    let old = first == Some(b"old");
    if old {
        first = words.next();
    }
    let first = hexadecimal(first.ok_or(Fault::WrongCount)?, 1, 8)?;
    end(words)?;
    Ok(Call::Listing { old, first })
}

/// An address and words; those past the last register are not looked into.
fn wanted(mut words: Words<'_>, format: Format) -> Result<Wanted, Fault<'_>> {
    let address = words.next().ok_or(Fault::WrongCount)?;
    let first = hexadecimal(address, 2, 2)? as u8;
    if first < registers::FIRST {
        return Err(Fault::BadNumber(address));
    }
    let mut wanted = Vec::new();
    for word in words.by_ref().take(registers::words_from(first)) {
        wanted.push(match format {
            Format::Old => Pattern::exact(hexadecimal(word, 1, 4)? as u16),
            Format::New => Pattern::of(word)?,
        });
    }
    if wanted.is_empty() {
        return Err(Fault::WrongCount);
    }
    end(words)?;
    Ok(Wanted {
        first,
        words: wanted,
    })
}

#[cfg(test)]
mod tests {
    use super::*;

    fn fault_in(line: &str, format: Format) -> Option<&'static str> {
        parse(line.as_bytes(), format).err().map(Fault::text)
    }

    fn fault(line: &str) -> Option<&'static str> {
        let old = fault_in(line, Format::Old);
        assert_eq!(fault_in(line, Format::New), old, "{line}");
        old
    }

    #[test]
    fn the_longest_line() {
        let comment = format!("#{}", "x".repeat(LONGEST_LINE - 1));
        assert_eq!(fault(&comment), None);
        assert_eq!(fault(&format!("{comment}x")), Some("too long"));
        let most = format!("record{}", " 1".repeat((LONGEST_LINE - 6) / 2));
        assert_eq!((fault(&most), most.len()), (None, LONGEST_LINE));
    }

    #[test]
    fn lines_that_are_calls() {
        let lines = [
            "tick 4294967295",
            "tick 0000000003",
            "bus out=200 ff",
            "bus",
            "flight /",
            "set 43 0",
            "record",
            "listing old FFFFFFFF",
            "int => x",
            "bus 05 =>",
            "temperature => =>",
            "item =>",
            "# => x",
        ];
        for line in lines {
            assert_eq!(fault(line), None, "{line}");
        }
    }

    #[test]
    fn bad_numbers() {
        let lines = [
            "tick 4294967296",
            "tick 00000000003",
            "tick +3",
            "bus out=201 FF",
            "bus 5",
            "bus FF out=2",
            "flight 1 / 2 / x",
            "temperature 000000001",
            "expect AF 0",
            "expect FF g 0",
            "expect E0 0 => ok",
            "set 2F 0",
            "set 44 0",
            "set 30 x => ok",
            "at -1",
            "stretch x",
            "degrees x",
            "degrees 1 123456789",
            "probe 1 -1",
            "record 2147483648",
            "listing old old",
            "quietest 1.0",
        ];
        for line in lines {
            assert_eq!(fault(line), Some("bad number"), "{line}");
        }
    }

    #[test]
    fn wrong_counts() {
        let crowded = format!("bus{}", " 00".repeat(LONGEST_FRAME + 1));
        let crowded_set = format!("set 30{}", " 0".repeat(LONGEST_SET + 1));
        let lines = [
            "tick",
            "tick 5 x",
            "tick => 5",
            "flight 1",
            "flight / /",
            "expect FF 0 x",
            "expect FF 0 => ok",
            "item",
            "show => x",
            "set",
            "set 30",
            "int x => x",
            "degrees 1",
            "degrees 1 2 x",
            "probe",
            "listing",
            "listing old",
            "listing 1 x",
            "quietest 1 x",
            "frames x",
            &crowded,
            &crowded_set,
        ];
        for line in lines {
            assert_eq!(fault(line), Some("wrong count"), "{line}");
        }
    }

    #[test]
    fn unknown_words() {
        for line in ["ticks 5", "=> 5", "frame", "Tick 5", "expected"] {
            assert_eq!(fault(line), Some("unknown word"), "{line}");
        }
    }
}
