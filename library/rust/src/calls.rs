//! Lists of calls, which a model does one after the other.

use std::slice::ChunksExact;

use crate::answer::{accepted, delivered, Delivered, Refusal, Started, Stretched, Ticked};

const TRANSACTION: u32 = 0;
const TICK: u32 = 1;
const STRETCH: u32 = 2;
const FLIGHT: u32 = 3;
const TEMPERATURE: u32 = 4;

/// Words of the list for each call: its kind, and two sizes.
const CALL: usize = 3;
/// Words of the answers for each call: its code, and four more.
const ANSWER: usize = 5;

/// Calls in the order in which [`Model::run`](crate::Model::run) does them.
#[derive(Clone, Debug, Default)]
pub struct Calls {
    pub(crate) calls: Vec<u32>,
    pub(crate) frames: Vec<u8>,
    pub(crate) hits: Vec<u32>,
    room: usize,
}

fn size(count: usize) -> u32 {
    u32::try_from(count).expect("a size of 32 bits")
}

impl Calls {
    /// An empty list.
    #[must_use]
    pub fn new() -> Calls {
        Calls::default()
    }

    fn add(&mut self, kind: u32, first: u32, second: u32) -> &mut Calls {
        self.calls.extend([kind, first, second]);
        self
    }

    /// One bus transaction with an output of `room` bytes.
    ///
    /// # Panics
    /// Where the frame or `room` has 2^32 bytes or more, or all outputs together more than memory
    /// can have; the list is as it was then.
    pub fn transaction(&mut self, frame: &[u8], room: usize) -> &mut Calls {
        let (first, second) = (size(frame.len()), size(room));
        self.room = self.room.checked_add(room).expect("outputs of a size");
        self.frames.extend(frame);
        self.add(TRANSACTION, first, second)
    }

    /// One period of the 32,768 Hz clock.
    pub fn tick(&mut self) -> &mut Calls {
        self.add(TICK, 0, 0)
    }

    /// So many periods at once.
    pub fn stretch(&mut self, ticks: u32) -> &mut Calls {
        self.add(STRETCH, ticks, 0)
    }

    /// The hit words of a flight measurement, up and down.
    ///
    /// # Panics
    /// Where either has 2^32 words or more; the list is as it was then.
    pub fn deliver_flight(&mut self, up: &[u32], down: &[u32]) -> &mut Calls {
        let (first, second) = (size(up.len()), size(down.len()));
        self.hits.extend(up);
        self.hits.extend(down);
        self.add(FLIGHT, first, second)
    }

    /// The words of a temperature measurement, T1 to T4.
    ///
    /// # Panics
    /// Where they are 2^32 or more; the list is as it was then.
    pub fn deliver_temperature(&mut self, words: &[u32]) -> &mut Calls {
        let first = size(words.len());
        self.hits.extend(words);
        self.add(TEMPERATURE, first, 0)
    }

    /// How many calls.
    #[must_use]
    pub fn len(&self) -> usize {
        self.calls.len() / CALL
    }

    /// Whether there is none.
    #[must_use]
    pub fn is_empty(&self) -> bool {
        self.calls.is_empty()
    }

    /// Empties the list and keeps its memory.
    pub fn clear(&mut self) {
        self.calls.clear();
        self.frames.clear();
        self.hits.clear();
        self.room = 0;
    }
}

/// The answer of an accepted call.
#[derive(Clone, Copy, Debug, PartialEq, Eq)]
pub enum Answer {
    /// Of a transaction; its output stands beside the answer.
    Transaction(Started),
    /// Of a tick.
    Tick(Ticked),
    /// Of a stretch.
    Stretch(Stretched),
    /// Of a delivery of either kind.
    Delivery(Delivered),
}

/// What the calls of a list answered; its memory serves one run after the other.
#[derive(Clone, Debug, Default)]
pub struct Answers {
    calls: Vec<u32>,
    pub(crate) words: Vec<u32>,
    pub(crate) output: Vec<u8>,
}

impl Answers {
    /// No answers yet.
    #[must_use]
    pub fn new() -> Answers {
        Answers::default()
    }

    /// Room for the answers to a list.
    pub(crate) fn make_room(&mut self, calls: &Calls) {
        self.calls.clear();
        self.calls.extend_from_slice(&calls.calls);
        self.words.resize(calls.len() * ANSWER, 0);
        self.output.clear();
        self.output.resize(calls.room, 0);
    }

    /// Each call's answer or refusal, and its output, in the order of the calls.
    #[must_use]
    pub fn iter(&self) -> AnswerIter<'_> {
        AnswerIter {
            calls: self.calls.chunks_exact(CALL),
            words: self.words.chunks_exact(ANSWER),
            output: &self.output,
        }
    }
}

impl<'a> IntoIterator for &'a Answers {
    type Item = (Result<Answer, Refusal>, &'a [u8]);
    type IntoIter = AnswerIter<'a>;

    fn into_iter(self) -> AnswerIter<'a> {
        self.iter()
    }
}

/// What [`Answers::iter`] goes through.
#[derive(Clone, Debug)]
pub struct AnswerIter<'a> {
    calls: ChunksExact<'a, u32>,
    words: ChunksExact<'a, u32>,
    output: &'a [u8],
}

impl<'a> Iterator for AnswerIter<'a> {
    type Item = (Result<Answer, Refusal>, &'a [u8]);

    fn next(&mut self) -> Option<Self::Item> {
        let (call, words) = (self.calls.next()?, self.words.next()?);
        let room = if call[0] == TRANSACTION { call[2] } else { 0 };
        let (output, after) = self.output.split_at(room as usize);
        self.output = after;
        let words = words.try_into().expect("five words");
        Some((answer(call[0], words), output))
    }

    fn size_hint(&self) -> (usize, Option<usize>) {
        self.calls.size_hint()
    }
}

impl ExactSizeIterator for AnswerIter<'_> {}

fn answer(kind: u32, words: [u32; ANSWER]) -> Result<Answer, Refusal> {
    let [code, a, b, c, d] = words;
    if kind == FLIGHT || kind == TEMPERATURE {
        return delivered(code).map(Answer::Delivery);
    }
    accepted(code)?;
    Ok(match kind {
        TRANSACTION => Answer::Transaction(Started::of([a, b])),
        TICK => Answer::Tick(Ticked::of([a, b, c, d])),
        _ => Answer::Stretch(Stretched::of([a, b, c, d])),
    })
}
