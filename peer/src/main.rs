//! Reads an item from standard input, or from the file named as its argument, replays it on the
//! model and writes one answer for each call; after `--new` in the new format.

use std::io::{self, Read};
use std::process::ExitCode;
use std::{env, fs};

use peer::Format;

fn main() -> ExitCode {
    match run() {
        Ok(()) => ExitCode::SUCCESS,
        Err(error) => {
            eprintln!("peer: {error}");
            ExitCode::FAILURE
        }
    }
}

fn run() -> io::Result<()> {
    let mut arguments = env::args_os().skip(1).peekable();
    let format = match arguments.next_if(|argument| argument == "--new") {
        Some(_) => Format::New,
        None => Format::Old,
    };
    let text = match arguments.next() {
        Some(path) => fs::read(path)?,
        None => {
            let mut text = Vec::new();
            io::stdin().lock().read_to_end(&mut text)?;
            text
        }
    };
    peer::replay(&text, format, io::stdout().lock())
}
