//! A model, and the calls on it.

use crate::answer::{
    accepted, delivered, ticks, Delivered, EventPlace, Refusal, Started, Stretched, Ticked,
};
use crate::calls::{Answers, Calls};
use crate::ffi;

/// Bytes of a stored model.
pub const MODEL_SIZE: usize = 233;
/// Bytes of the user flash.
pub const FLASH_SIZE: usize = 8192;
/// Ticks of the longest stretch.
pub const LONGEST_STRETCH: u32 = 16_384;

/// A sound model of the chip. It is a value: a clone goes its own way.
#[derive(Clone, PartialEq, Eq, Hash)]
#[repr(align(64))]
pub struct Model {
    bytes: [u8; MODEL_SIZE],
}

impl std::fmt::Debug for Model {
    fn fmt(&self, f: &mut std::fmt::Formatter<'_>) -> std::fmt::Result {
        f.debug_struct("Model").finish_non_exhaustive()
    }
}

impl Default for Model {
    fn default() -> Model {
        Model::fresh()
    }
}

impl TryFrom<&[u8]> for Model {
    type Error = Refusal;

    /// As [`Model::from_bytes`].
    fn try_from(bytes: &[u8]) -> Result<Model, Refusal> {
        Model::from_bytes(bytes)
    }
}

impl AsRef<[u8]> for Model {
    /// As [`Model::as_bytes`].
    fn as_ref(&self) -> &[u8] {
        &self.bytes
    }
}

type Question = unsafe extern "C" fn(*const u8, usize, *mut u32, usize) -> u32;

impl Model {
    /// The chip after power-on.
    #[must_use]
    pub fn fresh() -> Model {
        let mut bytes = [0; MODEL_SIZE];
        // SAFETY: the buffer is exclusively ours and as long as is said.
        let code = unsafe { ffi::max35101_fresh(bytes.as_mut_ptr(), bytes.len()) };
        accepted(code).expect("a buffer of a model's size");
        Model { bytes }
    }

    /// The model that was stored in these bytes.
    ///
    /// # Errors
    /// `Refusal::Unsound` where they are not what [`Model::as_bytes`] gives of a model.
    pub fn from_bytes(bytes: &[u8]) -> Result<Model, Refusal> {
        let bytes = bytes.try_into().map_err(|_| Refusal::Unsound)?;
        let model = Model { bytes };
        model.ask::<0>(ffi::max35101_interrupt_pending)?;
        Ok(model)
    }

    /// The model's bytes, to keep it in a file.
    #[must_use]
    pub fn as_bytes(&self) -> &[u8; MODEL_SIZE] {
        &self.bytes
    }

    /// One bus transaction: the bytes of a chip-enable window, the output of a read, and the user
    /// flash of [`FLASH_SIZE`] bytes (an empty one where no flash frame is sent; to one that is, a
    /// user flash of another size is `Refusal::FlashAddress`).
    ///
    /// # Errors
    /// The refusal; nothing is changed then.
    pub fn transaction(
        &mut self,
        frame: &[u8],
        output: &mut [u8],
        flash: &mut [u8],
    ) -> Result<Started, Refusal> {
        let mut answer = [0; 2];
        // SAFETY: five buffers, each as long as is said; those that are written are exclusive.
        let code = unsafe {
            ffi::max35101_transaction(
                self.bytes.as_mut_ptr(),
                MODEL_SIZE,
                frame.as_ptr(),
                frame.len(),
                output.as_mut_ptr(),
                output.len(),
                flash.as_mut_ptr(),
                flash.len(),
                answer.as_mut_ptr(),
                answer.len(),
            )
        };
        accepted(code)?;
        Ok(Started::of(answer))
    }

    /// One period of the 32,768 Hz clock.
    pub fn tick(&mut self) -> Ticked {
        let mut answer = [0; 4];
        // SAFETY: two exclusive buffers, each as long as is said.
        let code = unsafe {
            ffi::max35101_tick(
                self.bytes.as_mut_ptr(),
                MODEL_SIZE,
                answer.as_mut_ptr(),
                answer.len(),
            )
        };
        accepted(code).expect("a sound model");
        Ticked::of(answer)
    }

    /// So many periods at once, at most [`LONGEST_STRETCH`].
    ///
    /// # Errors
    /// `Refusal::Span` for more.
    pub fn stretch(&mut self, ticks: u32) -> Result<Stretched, Refusal> {
        let mut answer = [0; 4];
        // SAFETY: two exclusive buffers, each as long as is said.
        let code = unsafe {
            ffi::max35101_stretch(
                self.bytes.as_mut_ptr(),
                MODEL_SIZE,
                ticks,
                answer.as_mut_ptr(),
                answer.len(),
            )
        };
        accepted(code)?;
        Ok(Stretched::of(answer))
    }

    /// The hit words of the awaited flight measurement, up and down.
    ///
    /// # Errors
    /// `Refusal::NotAwaited` or `Refusal::WordCount`.
    pub fn deliver_flight(&mut self, up: &[u32], down: &[u32]) -> Result<Delivered, Refusal> {
        // SAFETY: the model is exclusive, each buffer is as long as is said, no answer is lent.
        delivered(unsafe {
            ffi::max35101_flight_delivery(
                self.bytes.as_mut_ptr(),
                MODEL_SIZE,
                up.as_ptr(),
                up.len(),
                down.as_ptr(),
                down.len(),
                std::ptr::null_mut(),
                0,
            )
        })
    }

    /// The words of the awaited temperature measurement, T1 to T4.
    ///
    /// # Errors
    /// `Refusal::NotAwaited` or `Refusal::WordCount`.
    pub fn deliver_temperature(&mut self, words: &[u32]) -> Result<Delivered, Refusal> {
        // SAFETY: the model is exclusive, each buffer is as long as is said, no answer is lent.
        delivered(unsafe {
            ffi::max35101_temperature_delivery(
                self.bytes.as_mut_ptr(),
                MODEL_SIZE,
                words.as_ptr(),
                words.len(),
                std::ptr::null_mut(),
                0,
            )
        })
    }

    /// The calls of a list, one after the other, each accepted or refused as by itself; the model is
    /// loaded and stored once. `flash` is the user flash, as for a transaction.
    pub fn run(&mut self, calls: &Calls, flash: &mut [u8], answers: &mut Answers) {
        answers.make_room(calls);
        // SAFETY: seven buffers, each as long as is said; those that are written are exclusive.
        let done = unsafe {
            ffi::max35101_run(
                self.bytes.as_mut_ptr(),
                MODEL_SIZE,
                calls.calls.as_ptr(),
                calls.calls.len(),
                calls.frames.as_ptr(),
                calls.frames.len(),
                calls.hits.as_ptr(),
                calls.hits.len(),
                answers.output.as_mut_ptr(),
                answers.output.len(),
                flash.as_mut_ptr(),
                flash.len(),
                answers.words.as_mut_ptr(),
                answers.words.len(),
            )
        };
        assert_eq!(done, calls.len(), "a list with room for each call");
    }

    fn ask<const N: usize>(&self, question: Question) -> Result<[u32; N], Refusal> {
        let mut answer = [0; N];
        // SAFETY: the answer is exclusive, both buffers are as long as is said.
        let code = unsafe {
            question(
                self.bytes.as_ptr(),
                MODEL_SIZE,
                answer.as_mut_ptr(),
                answer.len(),
            )
        };
        accepted(code).map(|()| answer)
    }

    fn told<const N: usize>(&self, question: Question) -> [u32; N] {
        self.ask(question).expect("a sound model")
    }

    fn tells(&self, question: Question) -> bool {
        self.told(question) == [1]
    }

    /// Whether the INT pin is driven.
    #[must_use]
    pub fn interrupt_pending(&self) -> bool {
        self.tells(ffi::max35101_interrupt_pending)
    }

    /// Whether a flight measurement is awaited.
    #[must_use]
    pub fn flight_awaited(&self) -> bool {
        self.tells(ffi::max35101_flight_awaited)
    }

    /// Whether a temperature measurement is awaited.
    #[must_use]
    pub fn temperature_awaited(&self) -> bool {
        self.tells(ffi::max35101_temperature_awaited)
    }

    /// Whether the regulator that supplies the user flash is on.
    #[must_use]
    pub fn regulator_on(&self) -> bool {
        self.tells(ffi::max35101_regulator_on)
    }

    /// Whether the model is initialised.
    #[must_use]
    pub fn initialised(&self) -> bool {
        self.tells(ffi::max35101_initialised)
    }

    /// In how many ticks the awaited flight measurement fails; none where none is awaited.
    #[must_use]
    pub fn flight_left(&self) -> Option<u32> {
        let [left] = self.told(ffi::max35101_flight_left);
        ticks(left)
    }

    /// In how many ticks the awaited temperature measurement fails; none where none is awaited.
    #[must_use]
    pub fn temperature_left(&self) -> Option<u32> {
        let [left] = self.told(ffi::max35101_temperature_left);
        ticks(left)
    }

    /// The place of the event of differences that runs.
    #[must_use]
    pub fn flight_place(&self) -> Option<EventPlace> {
        EventPlace::of(self.told(ffi::max35101_flight_place))
    }

    /// The place of the event of temperatures that runs.
    #[must_use]
    pub fn temperature_place(&self) -> Option<EventPlace> {
        EventPlace::of(self.told(ffi::max35101_temperature_place))
    }

    /// A register's word, at its read address B0h to FFh, with nothing cleared.
    ///
    /// # Errors
    /// `Refusal::Address` below B0h.
    pub fn peek(&self, address: u8) -> Result<u16, Refusal> {
        let mut answer = [0];
        // SAFETY: the answer is exclusive, both buffers are as long as is said.
        let code = unsafe {
            ffi::max35101_peek(
                self.bytes.as_ptr(),
                MODEL_SIZE,
                address.into(),
                answer.as_mut_ptr(),
                answer.len(),
            )
        };
        accepted(code)?;
        Ok(u16::try_from(answer[0]).expect("a register has 16 bits"))
    }

    /// The bus frames that bring a fresh model to this one's set-up.
    #[must_use]
    pub fn setup_frames(&self) -> Vec<Vec<u8>> {
        let mut bytes = [0; 33];
        let mut lengths = [0; 8];
        let mut counts = [0; 2];
        // SAFETY: three exclusive buffers, all as long as is said.
        let code = unsafe {
            ffi::max35101_setup_frames(
                self.bytes.as_ptr(),
                MODEL_SIZE,
                bytes.as_mut_ptr(),
                bytes.len(),
                lengths.as_mut_ptr(),
                lengths.len(),
                counts.as_mut_ptr(),
                counts.len(),
            )
        };
        accepted(code).expect("a sound model, and room for any frames");
        let mut rest = &bytes[..counts[0]];
        let frame = |&length: &u32| {
            let (frame, after) = rest.split_at(length as usize);
            rest = after;
            frame.to_vec()
        };
        lengths[..counts[1]].iter().map(frame).collect()
    }
}
