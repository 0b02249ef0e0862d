//! Calls in, answers out, a line each: what `library/items.py` drives. Numbers are decimal, bytes
//! hexadecimal; "-" is an empty list. The answer is the code, and then what was lent. Between any two
//! calls the model is stored and loaded again.

use std::io::{self, BufRead, Write};

use max35101::{
    degrees, degrees_by, listing, quietest_place, Delivered, Digits, Model, Refusal, FLASH_SIZE,
};

const ACCEPTED: u32 = u32::MAX;
const FAILED: u32 = u32::MAX - 1;

fn bytes_of(text: &str) -> Vec<u8> {
    let digits = if text == "-" { "" } else { text };
    (0..digits.len())
        .step_by(2)
        .map(|i| u8::from_str_radix(&digits[i..i + 2], 16).expect("two digits"))
        .collect()
}

fn words_of(text: &str) -> Vec<u32> {
    if text == "-" {
        return Vec::new();
    }
    text.split(',')
        .map(|word| word.parse().expect("a decimal"))
        .collect()
}

fn delivery(answer: Result<Delivered, Refusal>) -> String {
    match answer {
        Ok(Delivered::Good) => ACCEPTED.to_string(),
        Ok(Delivered::Failed) => FAILED.to_string(),
        Err(refusal) => refusal.number().to_string(),
    }
}

fn bus(model: &mut Model, flash: &mut [u8], room: usize, frame: &[u8]) -> String {
    let mut output = vec![0xEE; room];
    let (code, started) = match model.transaction(frame, &mut output, flash) {
        Ok(started) => (ACCEPTED, started),
        Err(refusal) => (refusal.number(), Default::default()),
    };
    let (flight, temperature) = (u8::from(started.flight), u8::from(started.temperature));
    let mut text: String = output.iter().map(|byte| format!("{byte:02X}")).collect();
    if text.is_empty() {
        text.push('-');
    }
    format!("{code} {flight} {temperature} {text}")
}

fn stretch(model: &mut Model, ticks: u32) -> String {
    match model.stretch(ticks) {
        Ok(said) => {
            let [a, b, c, d] = [
                said.flight_started,
                said.flight_failed,
                said.temperature_started,
                said.temperature_failed,
            ]
            .map(Option::unwrap_or_default);
            format!("{ACCEPTED} {a} {b} {c} {d}")
        }
        Err(refusal) => format!("{} 0 0 0 0", refusal.number()),
    }
}

fn differences_of(text: &str) -> Vec<i32> {
    if text == "-" {
        return Vec::new();
    }
    text.split(',')
        .map(|word| word.parse().expect("a decimal"))
        .collect()
}

/// The code, and the value where there is one.
fn told<T: std::fmt::Display>(answer: Result<T, Refusal>) -> String {
    match answer {
        Ok(value) => format!("{ACCEPTED} {value}"),
        Err(refusal) => format!("{} 0", refusal.number()),
    }
}

fn in_degrees(probe: &str, reference: &str, table: &str) -> String {
    let (probe, reference) = (
        probe.parse().expect("a word"),
        reference.parse().expect("a word"),
    );
    told(match words_of(table) {
        table if table.is_empty() => degrees(probe, reference),
        table => degrees_by(&table, probe, reference),
    })
}

fn frames(model: &Model) -> String {
    let hex = |frame: &Vec<u8>| frame.iter().map(|byte| format!("{byte:02X}")).collect();
    let frames: Vec<String> = model.setup_frames().iter().map(hex).collect();
    format!("{ACCEPTED} {}", frames.join(" "))
}

/// A line's blanks are printed as `_`.
fn lines(digits: &str, first: &str, differences: &str) -> String {
    let digits = if digits == "2" {
        Digits::Two
    } else {
        Digits::Eight
    };
    told(
        listing(
            digits,
            &differences_of(differences),
            first.parse().expect("a number"),
        )
        .map(|text| text.replace(' ', "_").replace('\n', " ")),
    )
}

fn answer(model: &mut Model, flash: &mut Vec<u8>, line: &str) -> String {
    let words: Vec<&str> = line.split_whitespace().collect();
    match words[..] {
        ["fresh"] => {
            *model = Model::fresh();
            *flash = vec![0xFF; FLASH_SIZE];
            ACCEPTED.to_string()
        }
        ["bus", room, frame] => bus(
            model,
            flash,
            room.parse().expect("a size"),
            &bytes_of(frame),
        ),
        ["tick"] => {
            let said = model.tick();
            let [a, b, c, d] = [
                said.flight_started,
                said.flight_failed,
                said.temperature_started,
                said.temperature_failed,
            ]
            .map(u8::from);
            format!("{ACCEPTED} {a} {b} {c} {d}")
        }
        ["stretch", ticks] => stretch(model, ticks.parse().expect("a number")),
        ["flight", up, down] => delivery(model.deliver_flight(&words_of(up), &words_of(down))),
        ["temperature", words] => delivery(model.deliver_temperature(&words_of(words))),
        ["peek", address] => told(model.peek(address.parse().expect("an address"))),
        ["asks"] => {
            let [a, b, c, d] = [
                model.interrupt_pending(),
                model.flight_awaited(),
                model.temperature_awaited(),
                model.regulator_on(),
            ]
            .map(u8::from);
            format!("{ACCEPTED} {a} {b} {c} {d}")
        }
        ["frames"] => frames(model),
        ["degrees", probe, reference, table] => in_degrees(probe, reference, table),
        ["quietest", width, values] => told(quietest_place(
            &differences_of(values),
            width.parse().expect("a width"),
        )),
        ["listing", digits, first, values] => lines(digits, first, values),
        _ => panic!("no call: {line}"),
    }
}

fn main() -> io::Result<()> {
    let mut model = Model::fresh();
    let mut flash = vec![0xFF; FLASH_SIZE];
    for line in io::stdin().lock().lines() {
        let said = answer(&mut model, &mut flash, &line?);
        model = Model::from_bytes(model.as_bytes()).expect("what was stored");
        let mut output = io::stdout().lock();
        writeln!(output, "{said}")?;
        output.flush()?;
    }
    Ok(())
}
