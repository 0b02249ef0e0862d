//! The second model's own functions, from `peer/`, whose library keeps them to itself: the tests
//! and the measurements of the library call them in one process with the proved ones.
#![allow(dead_code)]

#[path = "../../../peer/src/calendar.rs"]
pub mod calendar;
#[path = "../../../peer/src/event.rs"]
pub mod event;
#[path = "../../../peer/src/flash.rs"]
pub mod flash;
#[path = "../../../peer/src/flight.rs"]
pub mod flight;
#[path = "../../../peer/src/model.rs"]
pub mod model;
#[path = "../../../peer/src/opcode.rs"]
pub mod opcode;
#[path = "../../../peer/src/record.rs"]
pub mod record;
#[path = "../../../peer/src/refusal.rs"]
pub mod refusal;
#[path = "../../../peer/src/registers.rs"]
pub mod registers;
#[path = "../../../peer/src/set_up_frames.rs"]
pub mod set_up_frames;
#[path = "../../../peer/src/temperature.rs"]
pub mod temperature;
#[path = "../../../peer/src/thermometer.rs"]
pub mod thermometer;
#[path = "../../../peer/src/transaction.rs"]
pub mod transaction;

pub use model::Model;
