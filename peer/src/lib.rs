//! A second model of the MAX35101, read from the documents, with the limits and opcodes that its
//! programs share: `peer` replays items on it, `make_items` makes random ones.

pub mod calendar;
pub mod event;
pub mod flash;
mod flight;
pub mod item;
mod model;
pub mod opcode;
pub mod record;
mod refusal;
pub mod registers;
mod replay;
mod set_up_frames;
mod temperature;
pub mod thermometer;
mod transaction;

#[cfg(test)]
mod chip;

pub use item::Format;
pub use replay::{replay, Replay, LARGEST_PROBE_TABLE, LONGEST_RECORD, LONGEST_STRETCH};
