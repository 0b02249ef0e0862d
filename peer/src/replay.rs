//! Replays an item's lines on the model and writes their answers.

mod answers;
mod beside;
mod expectation;

use std::io::{self, Write};

use answers::Answers;

pub use beside::{LARGEST_PROBE_TABLE, LONGEST_RECORD};

use crate::flash;
use crate::item::{self, Call, Fault, Format, Line, Words, LONGEST_FRAME, LONGEST_SET};
use crate::model::{Model, Outcome, TickReport};
use crate::opcode;
use crate::refusal::Refusal;
use crate::registers;
use crate::thermometer;
use crate::transaction::Started;

/// What an output buffer holds before a call.
const UNTOUCHED: u8 = 0xEE;
/// Answers are handed on when this many bytes have gathered.
const BLOCK: usize = 1 << 16;
/// Ticks of one stretch.
pub const LONGEST_STRETCH: u32 = 16_384;

/// What the lines of one item share.
struct Item {
    model: Model,
    /// The user flash.
    memory: Vec<u8>,
    record: Vec<i32>,
    probe_table: Vec<u32>,
    /// Ticks since the last transaction that started a measurement, or since the item's start.
    moment: u64,
}

impl Item {
    fn fresh() -> Item {
        Item {
            model: Model::fresh(),
            memory: vec![flash::ERASED; flash::MEMORY],
            record: Vec::new(),
            probe_table: Vec::new(),
            moment: 0,
        }
    }
}

#[derive(Default)]
struct Counts {
    calls: u64,
    refused: u64,
    unannounced: u64,
    bad_lines: u64,
    expectations: u64,
    differing: u64,
}

/// A replay of a text, line by line.
pub struct Replay {
    format: Format,
    item: Item,
    pt1000: Vec<u32>,
    counts: Counts,
    answers: Answers,
}

/// Replays the whole text.
pub fn replay<W: Write>(text: &[u8], format: Format, mut sink: W) -> io::Result<()> {
    let mut replay = Replay::new(format);
    for (index, line) in item::lines(text).enumerate() {
        replay.numbered_line(index + 1, line);
        if replay.answers.len() >= BLOCK {
            replay.answers.hand_on(&mut sink)?;
        }
    }
    replay.end();
    replay.answers.hand_on(&mut sink)?;
    sink.flush()
}

impl Replay {
    pub fn new(format: Format) -> Replay {
        Replay {
            format,
            item: Item::fresh(),
            pt1000: thermometer::pt1000(),
            counts: Counts::default(),
            answers: Answers::with_capacity(2 * BLOCK),
        }
    }

    /// The answer to a line of this number, with its line feeds.
    pub fn answer(&mut self, number: usize, line: &[u8]) -> Vec<u8> {
        self.numbered_line(number, line);
        self.answers.take_from(0)
    }

    /// What a read of this address would return.
    pub fn register(&self, address: u8) -> u16 {
        self.item.model.register(address)
    }

    fn numbered_line(&mut self, number: usize, line: &[u8]) {
        if let Err(fault) = self.line(line) {
            self.bad_line(number, fault);
        }
    }

    fn line<'a>(&mut self, line: &'a [u8]) -> Result<(), Fault<'a>> {
        match item::parse(line, self.format)? {
            Line::Nothing | Line::Show => {}
            Line::Item(words) => self.begin_item(words),
            Line::Expect(wanted) => self.expect(&wanted),
            Line::Read(wanted) => self.read(&wanted),
            Line::Call { call, expected } => {
                let start = self.answers.len();
                let refused = self.counts.refused;
                self.call(&call)?;
                let agrees = match expected {
                    Some(expected) => self.judge(start, expected),
                    None => false,
                };
                if !agrees {
                    self.counts.unannounced += self.counts.refused - refused;
                }
            }
        }
        Ok(())
    }

    fn begin_item(&mut self, words: Words) {
        self.item = Item::fresh();
        self.answers.put(b"item");
        self.answers.words(words);
        self.answers.put(b"\n");
    }

    /// Answers a call, in one line or more; a fault leaves everything as it was.
    fn call(&mut self, call: &Call) -> Result<(), Fault<'static>> {
        match call {
            Call::Bus { output_size, frame } => self.bus(*output_size, frame),
            Call::Set { opcode, words } => self.set(*opcode, words),
            Call::Tick(count) => self.tick(*count),
            Call::At(moment) => self.at(*moment)?,
            Call::Stretch(count) => self.stretch(*count),
            Call::Flight { up, down } => {
                let answer = self.item.model.deliver_flight(up, down);
                self.delivery("flight", answer);
            }
            Call::Temperature(words) => {
                let answer = self.item.model.deliver_temperature(words);
                self.delivery("temperature", answer);
            }
            Call::Interrupt => self.interrupt(),
            Call::Awaited => self.awaited(),
            Call::Registers => self.registers(),
            Call::Frames => self.frames(),
            Call::Probe(entries) => self.probe(entries)?,
            Call::Degrees { probe, reference } => self.degrees(*probe, *reference),
            Call::Record(differences) => self.record(differences)?,
            Call::Listing { old, first } => self.listing(*old, *first),
            Call::Quietest(width) => self.quietest(*width),
        }
        Ok(())
    }

    fn bad_line(&mut self, number: usize, fault: Fault) {
        self.counts.bad_lines += 1;
        let text = fault.text();
        let named = match self.format {
            Format::Old => String::new(),
            Format::New => fault.named(),
        };
        self.answers
            .print(format_args!("line {number}: {text}{named}\n"));
    }

    fn bus(&mut self, output_size: Option<usize>, frame: &[u8]) {
        let size = output_size.unwrap_or(match frame {
            [opcode::FIRST_READ..=opcode::LAST_READ, further @ ..] => further.len() & !1,
            [opcode::READ_FLASH, ..] => 2,
            _ => 0,
        });
        let mut output = [UNTOUCHED; LONGEST_FRAME];
        let output = &mut output[..size];
        self.transaction("bus", frame, output);
        if !output.is_empty() {
            self.answers.put(b" out ");
            for &byte in output.iter() {
                self.answers.byte(byte);
            }
        }
        self.answers.put(b"\n");
    }

    fn set(&mut self, opcode: u8, words: &[u16]) {
        let mut frame = Vec::with_capacity(1 + 2 * LONGEST_SET);
        frame.push(opcode);
        for word in words {
            frame.extend(word.to_be_bytes());
        }
        self.transaction("set", &frame, &mut []);
        self.answers.put(b"\n");
    }

    fn transaction(&mut self, name: &str, frame: &[u8], output: &mut [u8]) {
        self.counts.calls += 1;
        let Item { model, memory, .. } = &mut self.item;
        match model.transaction(frame, output, memory) {
            Ok(started) => {
                if started != Started::default() {
                    self.item.moment = 0;
                }
                self.answers.put(name.as_bytes());
                self.answers.put(b" ok ");
                self.answers.put(started_text(started));
            }
            Err(refusal) => self.refused(name, refusal),
        }
    }

    fn tick(&mut self, count: u32) {
        self.counts.calls += 1;
        self.answers.print(format_args!("tick {count}"));
        self.ticks(u64::from(count), 0);
    }

    fn at(&mut self, moment: u32) -> Result<(), Fault<'static>> {
        let now = self.item.moment;
        let count = u64::from(moment).checked_sub(now).ok_or(Fault::Past)?;
        self.counts.calls += 1;
        self.answers.print(format_args!("at {moment}"));
        self.ticks(count, now);
        Ok(())
    }

    fn stretch(&mut self, count: u32) {
        self.counts.calls += 1;
        if count > LONGEST_STRETCH {
            self.refused("stretch", Refusal::Span);
            self.answers.put(b"\n");
        } else {
            self.answers.print(format_args!("stretch {count}"));
            self.ticks(u64::from(count), 0);
        }
    }

    /// Single ticks and the rest of their line; the reports count on from `before`.
    fn ticks(&mut self, count: u64, before: u64) {
        for number in before + 1..=before + count {
            let report = self.item.model.tick();
            if !report.is_empty() {
                self.tick_report(report, number);
            }
        }
        self.item.moment += count;
        self.answers.put(b"\n");
    }

    fn tick_report(&mut self, report: TickReport, number: u64) {
        let what = [
            (report.flight_failed, "failed-flight"),
            (report.flight_started, "started-flight"),
            (report.temperature_failed, "failed-temperature"),
            (report.temperature_started, "started-temperature"),
        ];
        for (happened, what) in what {
            if happened {
                self.answers.print(format_args!(" {what}@{number}"));
            }
        }
    }

    fn delivery(&mut self, name: &str, answer: Result<Outcome, Refusal>) {
        self.counts.calls += 1;
        match answer {
            Ok(Outcome::Good) => self.answers.print(format_args!("{name} good")),
            Ok(Outcome::Failed) => self.answers.print(format_args!("{name} failed")),
            Err(refusal) => self.refused(name, refusal),
        }
        self.answers.put(b"\n");
    }

    /// A refusal, without its line feed.
    fn refused(&mut self, name: &str, refusal: Refusal) {
        self.counts.refused += 1;
        let (number, word) = (refusal as u8, refusal.word());
        self.answers
            .print(format_args!("{name} no {number} {word}"));
    }

    fn interrupt(&mut self) {
        let answer = if self.item.model.interrupt() {
            "yes"
        } else {
            "no"
        };
        self.answers.print(format_args!("int {answer}\n"));
    }

    fn awaited(&mut self) {
        let flight = u8::from(self.item.model.flight.is_awaited());
        let temperature = u8::from(self.item.model.temperature.is_awaited());
        self.answers
            .print(format_args!("awaited {flight} {temperature}\n"));
    }

    fn registers(&mut self) {
        for first in (registers::FIRST..=registers::LAST).step_by(8) {
            self.answers.byte(first);
            for address in first..=first + 7 {
                self.answers.put(b" ");
                self.answers.word(self.item.model.register(address));
            }
            self.answers.put(b"\n");
        }
    }

    fn end(&mut self) {
        let Counts {
            calls,
            refused,
            unannounced,
            bad_lines,
            expectations,
            differing,
        } = self.counts;
        self.answers.print(format_args!(
            "end {calls} calls, {refused} refused, {unannounced} unannounced, \
             {bad_lines} bad lines, {expectations} expectations, {differing} differ\n"
        ));
    }
}

fn started_text(started: Started) -> &'static [u8] {
    match (started.flight, started.temperature) {
        (false, false) => b"-",
        (true, false) => b"flight",
        (false, true) => b"temperature",
        (true, true) => b"flight+temperature",
    }
}

#[cfg(test)]
mod tests {
    use super::*;

    fn answers(text: &str) -> String {
        let mut answers = Vec::new();
        replay(text.as_bytes(), Format::Old, &mut answers).unwrap();
        String::from_utf8(answers).unwrap()
    }

    #[test]
    fn an_item() {
        let text = "item one\nbus 38 10 10\nbus 05\nbus 02\nawaited\n\
            tick 3\nflight 64 / 1\nexpect E2 0 63\nbus FE 00 00\nint\nbus 06";
        let wanted = "item one\nbus ok -\nbus ok -\nbus ok flight\nawaited 1 0\n\
            tick 3\nflight good\nexpect E2 ok\nbus ok - out 100C\nint no\nbus no 2 opcode\n\
            end 7 calls, 1 refused, 1 unannounced, 0 bad lines, 2 expectations, 0 differ\n";
        assert_eq!(answers(text), wanted);
    }

    #[test]
    fn an_item_has_its_own_flash() {
        let text = "bus 0C\nbus 10 00 00 12 34\nbus 90 00 00 00 00\nitem\titem  2 \r\n\
            bus 90 00 00 00 00\nbus 0C\nbus out=3 90 00 00 00 00\n";
        let wanted = "bus ok -\nbus ok -\nbus ok - out 1234\nitem item 2\n\
            bus no 15 supply off out EEEE\nbus ok -\nbus ok - out FFFFEE\n\
            end 6 calls, 1 refused, 1 unannounced, 0 bad lines, 0 expectations, 0 differ\n";
        assert_eq!(answers(text), wanted);
    }

    #[test]
    fn an_item_has_its_own_record_and_probe() {
        let text = "record 1\nprobe 0 1\ndegrees 0 1\nitem x\nlisting 0\ndegrees 0 1\n";
        let wanted = "record 1\nprobe 2\ndegrees 0.000\nitem x\nlisting 0\n\
            degrees no 13 off the table\n\
            end 3 calls, 1 refused, 1 unannounced, 0 bad lines, 0 expectations, 0 differ\n";
        assert_eq!(answers(text), wanted);
    }

    #[test]
    fn lines_that_are_no_calls() {
        let text = "# no call\n\ntick x\nbus 5\nflight 1\nexpect E2 1\n";
        let wanted = "line 3: bad number\nline 4: bad number\nline 5: wrong count\n\
            expect E2 differs E2:0000/0001\n\
            end 0 calls, 0 refused, 0 unannounced, 3 bad lines, 1 expectations, 1 differ\n";
        assert_eq!(answers(text), wanted);
    }

    #[test]
    fn moments_count_from_the_last_start() {
        let text = "tick 5\nat 7\nset 38 0110\nbus 05\nat 6\nstretch 3\nat 10\nbus 02\nat 8192\n\
            bus 02\nbus 02\nat 0\nat 8200\nitem x\nat 0\n";
        let wanted = "tick 5\nat 7\nset ok -\nbus ok -\nline 5: past\nstretch 3\nat 10\n\
            bus ok flight\nat 8192 failed-flight@8192\nbus ok flight\nbus no 6 busy\nat 0\n\
            at 8200 failed-flight@8192\nitem x\nat 0\n\
            end 13 calls, 1 refused, 1 unannounced, 1 bad lines, 0 expectations, 0 differ\n";
        assert_eq!(answers(text), wanted);
    }
}
