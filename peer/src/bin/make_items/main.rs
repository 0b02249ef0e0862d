//! Makes random items for the comparison. `make_items SEED SIZE` writes items with at least SIZE
//! calls to standard output and one line of totals to standard error; after `--new` they have the
//! lines of the new format too.

mod additions;
mod calendar;
mod continuous;
mod deliveries;
mod events;
mod faults;
mod flash;
mod frames;
mod maker;
mod random;
mod record;
mod set_up;
mod strange;
mod text;
mod thermometer;

use std::io::{self, Write};
use std::process::ExitCode;

use maker::Maker;
use peer::Format;

fn main() -> ExitCode {
    let mut arguments = std::env::args().skip(1).peekable();
    let format = match arguments.next_if(|argument| argument == "--new") {
        Some(_) => Format::New,
        None => Format::Old,
    };
    let numbers: Option<Vec<i64>> = arguments.map(|argument| argument.parse().ok()).collect();
    let Some([seed, size]) = numbers.as_deref() else {
        eprintln!("usage: make_items [--new] SEED SIZE");
        return ExitCode::FAILURE;
    };
    let mut maker = Maker::new(*seed, format);
    maker.make(*size);
    eprintln!("{} {} {}", maker.items, maker.calls, maker.ticks);
    match io::stdout().lock().write_all(&maker.text) {
        Ok(()) => ExitCode::SUCCESS,
        Err(_) => ExitCode::FAILURE,
    }
}
