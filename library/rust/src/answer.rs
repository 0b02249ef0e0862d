//! Answers and refusals.

use std::fmt;

/// Why a call was refused, by its number.
#[derive(Clone, Copy, Debug, PartialEq, Eq, Hash)]
#[repr(u8)]
pub enum Refusal {
    /// The bytes are no model.
    Unsound = 0,
    /// A transaction of no bytes.
    NoFrame = 1,
    /// A first byte that the model does not carry.
    Opcode = 2,
    /// A frame that is too short or too long for its first byte.
    FrameLength = 3,
    /// A read or write past the last register, or a peek where no register is.
    Address = 4,
    /// A read that the output has no room for.
    ShortOutput = 5,
    /// A measurement is awaited or an event runs.
    Busy = 6,
    /// The clock or the alarm would be invalid.
    Calendar = 7,
    /// A measurement or an event before Initialize.
    NotInitialised = 8,
    /// The set-up does not allow the measurement.
    SetUp = 9,
    /// A delivery that nothing waits for.
    NotAwaited = 10,
    /// A delivery of another number of words.
    WordCount = 11,
    /// A stretch of more than [`LONGEST_STRETCH`](crate::LONGEST_STRETCH) ticks.
    Span = 12,
    /// No resistance, or none on the probe's table.
    OffTheTable = 13,
    /// A probe's table that does not rise, or has too few, too many or too large entries.
    BadTable = 14,
    /// The regulator of the user flash is off.
    SupplyOff = 15,
    /// An address past the user flash, an odd one, or a user flash of another size.
    FlashAddress = 16,
    /// A flash write on a word other than FFFFh.
    NotErased = 17,
    /// No run of that width.
    Width = 18,
    /// Too little room for the frames of a set-up; this crate lends enough.
    ShortFrames = 19,
    /// A listing whose last capture has too many digits.
    CaptureNumber = 20,
    /// A listing that the output has no room for.
    ShortListing = 21,
    /// A listing of neither 2 nor 8 digits; [`Digits`](crate::Digits) has no other.
    Digits = 22,
}

const REFUSALS: [(Refusal, &str); 23] = [
    (Refusal::Unsound, "unsound"),
    (Refusal::NoFrame, "no frame"),
    (Refusal::Opcode, "opcode"),
    (Refusal::FrameLength, "frame length"),
    (Refusal::Address, "address"),
    (Refusal::ShortOutput, "short output"),
    (Refusal::Busy, "busy"),
    (Refusal::Calendar, "calendar"),
    (Refusal::NotInitialised, "not initialised"),
    (Refusal::SetUp, "set-up"),
    (Refusal::NotAwaited, "not awaited"),
    (Refusal::WordCount, "word count"),
    (Refusal::Span, "span"),
    (Refusal::OffTheTable, "off the table"),
    (Refusal::BadTable, "bad table"),
    (Refusal::SupplyOff, "supply off"),
    (Refusal::FlashAddress, "flash address"),
    (Refusal::NotErased, "not erased"),
    (Refusal::Width, "width"),
    (Refusal::ShortFrames, "short frames"),
    (Refusal::CaptureNumber, "capture number"),
    (Refusal::ShortListing, "short listing"),
    (Refusal::Digits, "digits"),
];

impl Refusal {
    /// The number that the library returned.
    #[must_use]
    pub fn number(self) -> u32 {
        u32::from(self as u8)
    }

    /// Its name in words; for 1 to 18 and 20 the word of `docs/ITEMS.md`.
    #[must_use]
    pub fn word(self) -> &'static str {
        REFUSALS[self as usize].1
    }

    fn from_number(number: u32) -> Refusal {
        REFUSALS[number as usize].0
    }
}

impl fmt::Display for Refusal {
    fn fmt(&self, f: &mut fmt::Formatter<'_>) -> fmt::Result {
        write!(f, "refused, {}: {}", self.number(), self.word())
    }
}

impl std::error::Error for Refusal {}

pub(crate) const ACCEPTED: u32 = u32::MAX;
const FAILED: u32 = u32::MAX - 1;

/// What a call returned, where nothing but acceptance and refusals can be.
pub(crate) fn accepted(code: u32) -> Result<(), Refusal> {
    match code {
        ACCEPTED => Ok(()),
        number => Err(Refusal::from_number(number)),
    }
}

/// The kinds of measurement that a transaction started.
#[derive(Clone, Copy, Debug, Default, PartialEq, Eq)]
pub struct Started {
    /// A flight measurement, or an event of differences.
    pub flight: bool,
    /// A temperature measurement, or an event of temperatures.
    pub temperature: bool,
}

impl Started {
    pub(crate) fn of([flight, temperature]: [u32; 2]) -> Started {
        Started {
            flight: flight == 1,
            temperature: temperature == 1,
        }
    }
}

/// What one tick did with the measurements of each kind.
#[derive(Clone, Copy, Debug, Default, PartialEq, Eq)]
pub struct Ticked {
    /// A flight measurement of an event started.
    pub flight_started: bool,
    /// The awaited flight measurement failed, since no words came.
    pub flight_failed: bool,
    /// A temperature measurement of an event started.
    pub temperature_started: bool,
    /// The awaited temperature measurement failed.
    pub temperature_failed: bool,
}

impl Ticked {
    pub(crate) fn of(answer: [u32; 4]) -> Ticked {
        let [flight_started, flight_failed, temperature_started, temperature_failed] =
            answer.map(|word| word == 1);
        Ticked {
            flight_started,
            flight_failed,
            temperature_started,
            temperature_failed,
        }
    }
}

/// The ticks of a stretch, from 1 on, in which each of these happened.
#[derive(Clone, Copy, Debug, Default, PartialEq, Eq)]
pub struct Stretched {
    /// A flight measurement of an event started.
    pub flight_started: Option<u32>,
    /// The awaited flight measurement failed, since no words came.
    pub flight_failed: Option<u32>,
    /// A temperature measurement of an event started.
    pub temperature_started: Option<u32>,
    /// The awaited temperature measurement failed.
    pub temperature_failed: Option<u32>,
}

/// A count of ticks; the library's 0 is none.
pub(crate) fn ticks(count: u32) -> Option<u32> {
    (count != 0).then_some(count)
}

impl Stretched {
    pub(crate) fn of(answer: [u32; 4]) -> Stretched {
        let [flight_started, flight_failed, temperature_started, temperature_failed] =
            answer.map(ticks);
        Stretched {
            flight_started,
            flight_failed,
            temperature_started,
            temperature_failed,
        }
    }
}

/// How an accepted delivery ended.
#[derive(Clone, Copy, Debug, PartialEq, Eq)]
pub enum Delivered {
    /// The results are those of the words.
    Good,
    /// A word was late, open or short.
    Failed,
}

pub(crate) fn delivered(code: u32) -> Result<Delivered, Refusal> {
    match code {
        FAILED => Ok(Delivered::Failed),
        code => accepted(code).map(|()| Delivered::Good),
    }
}

/// The place of an event that runs; of a continuous one, that of its current group.
#[derive(Clone, Copy, Debug, PartialEq, Eq)]
pub struct EventPlace {
    /// How many measurements it makes.
    pub planned: u32,
    /// How many of them are started.
    pub started: u32,
    /// How many of these are good or failed.
    pub settled: u32,
    /// How many of these are good.
    pub good: u32,
    /// Ticks until the next start; none where all are started.
    pub next_start: Option<u32>,
    /// Whether the event goes on, group by group.
    pub continuous: bool,
}

impl EventPlace {
    pub(crate) fn of(words: [u32; 7]) -> Option<EventPlace> {
        let [runs, planned, started, settled, good, next_start, continuous] = words;
        (runs == 1).then_some(EventPlace {
            planned,
            started,
            settled,
            good,
            next_start: ticks(next_start),
            continuous: continuous == 1,
        })
    }
}
