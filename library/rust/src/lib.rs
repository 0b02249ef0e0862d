//! The proved model of the MAX35101 time-to-digital converter, for Rust.
//!
//! Every call goes to the archive that `library/build` makes, whose functions are proved
//! against the definitions of the model. `docs/LIBRARY.md` tells more.
//!
//! ```
//! use max35101::{Delivered, Model, Refusal};
//!
//! let mut model = Model::fresh();
//! assert_eq!(model.transaction(&[0x02], &mut [], &mut []), Err(Refusal::NotInitialised));
//! model.transaction(&[0x38, 0x10, 0x10], &mut [], &mut [])?;
//! model.transaction(&[0x05], &mut [], &mut [])?;
//! assert!(model.transaction(&[0x02], &mut [], &mut [])?.flight);
//! assert_eq!(model.deliver_flight(&[0x64], &[0x01])?, Delivered::Good);
//! assert_eq!(model.peek(0xE3)?, 0x63);
//! let again = Model::from_bytes(model.as_bytes())?;
//! assert_eq!(again, model);
//! # Ok::<(), Refusal>(())
//! ```
#![warn(missing_docs)]

mod analysis;
mod answer;
mod calls;
mod ffi;
mod model;

pub use analysis::{
    degrees, degrees_by, listing, nanoseconds, quietest, quietest_place, write_listing, Digits,
};
pub use answer::{Delivered, EventPlace, Refusal, Started, Stretched, Ticked};
pub use calls::{Answer, AnswerIter, Answers, Calls};
pub use model::{Model, FLASH_SIZE, LONGEST_STRETCH, MODEL_SIZE};
