//! Degrees, quiet runs, nanoseconds and listings.

use crate::answer::{accepted, Refusal};
use crate::ffi;

/// Thousandths of a degree of a PT1000 probe, from its word and the word of its reference resistor
/// of 1,000 ohms.
///
/// # Errors
/// `Refusal::OffTheTable`.
pub fn degrees(probe: u32, reference: u32) -> Result<u32, Refusal> {
    let mut answer = [0];
    // SAFETY: the answer is exclusive and as long as is said.
    let code = unsafe { ffi::max35101_degrees(probe, reference, answer.as_mut_ptr(), 1) };
    accepted(code).map(|()| answer[0])
}

/// The same with a table of milliohms at each whole degree from 0.
///
/// # Errors
/// `Refusal::BadTable` or `Refusal::OffTheTable`.
pub fn degrees_by(table: &[u32], probe: u32, reference: u32) -> Result<u32, Refusal> {
    let mut answer = [0];
    // SAFETY: the answer is exclusive, both buffers are as long as is said.
    let code = unsafe {
        ffi::max35101_degrees_by(
            table.as_ptr(),
            table.len(),
            probe,
            reference,
            answer.as_mut_ptr(),
            1,
        )
    };
    accepted(code).map(|()| answer[0])
}

/// Where the quietest run of `width` neighbours starts, the earliest among equals.
///
/// # Errors
/// `Refusal::Width` for 0 and for more than there are values.
pub fn quietest_place(values: &[i32], width: usize) -> Result<usize, Refusal> {
    let mut answer = [0];
    // SAFETY: the answer is exclusive, both buffers are as long as is said.
    let code = unsafe {
        ffi::max35101_quietest_place(values.as_ptr(), values.len(), width, answer.as_mut_ptr(), 1)
    };
    accepted(code).map(|()| answer[0])
}

/// That run itself, a part of the caller's values.
///
/// # Errors
/// As [`quietest_place`].
pub fn quietest(values: &[i32], width: usize) -> Result<&[i32], Refusal> {
    quietest_place(values, width).map(|start| &values[start..start + width])
}

/// A difference of quanta, 250/65,536 ns each, in nanoseconds; exact.
#[must_use]
pub fn nanoseconds(quanta: i32) -> f64 {
    // SAFETY: a number in, a number out.
    unsafe { ffi::max35101_nanoseconds(quanta) }
}

/// How many hexadecimal digits a listing's capture numbers have.
#[derive(Clone, Copy, Debug, Default, PartialEq, Eq)]
pub enum Digits {
    /// Two, the old form.
    Two = 2,
    /// Eight.
    #[default]
    Eight = 8,
}

impl Digits {
    /// Bytes of a line.
    #[must_use]
    pub fn line(self) -> usize {
        self as usize + 15
    }
}

/// Writes the differences as printed lines, capture numbers from `first` on, and returns how many
/// bytes.
///
/// # Errors
/// `Refusal::CaptureNumber` or `Refusal::ShortListing`; the output is as it was then.
pub fn write_listing(
    digits: Digits,
    differences: &[i32],
    first: u32,
    output: &mut [u8],
) -> Result<usize, Refusal> {
    let mut answer = [0];
    // SAFETY: output and answer are exclusive, each buffer is as long as is said.
    let code = unsafe {
        ffi::max35101_write_listing_as(
            digits as u32,
            differences.as_ptr(),
            differences.len(),
            first,
            output.as_mut_ptr(),
            output.len(),
            answer.as_mut_ptr(),
            1,
        )
    };
    accepted(code).map(|()| answer[0])
}

/// The same as a text.
///
/// # Errors
/// `Refusal::CaptureNumber`.
pub fn listing(digits: Digits, differences: &[i32], first: u32) -> Result<String, Refusal> {
    let mut output = vec![0; differences.len() * digits.line()];
    let written = write_listing(digits, differences, first, &mut output)?;
    output.truncate(written);
    Ok(String::from_utf8(output).expect("a listing is ASCII"))
}
