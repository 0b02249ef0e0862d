//! Answers of what stands beside the chip: frames of a set-up, degrees, the record.

use super::Replay;

use crate::item::Fault;
use crate::record;
use crate::set_up_frames;
use crate::thermometer;

/// Differences that an item's record holds.
pub const LONGEST_RECORD: usize = 4_096;
/// Entries that an item's own probe table holds, those of a table that `degrees` refuses too.
pub const LARGEST_PROBE_TABLE: usize = 1_024;

impl Replay {
    pub(super) fn frames(&mut self) {
        self.counts.calls += 1;
        let frames = set_up_frames::frames(&self.item.model.registers);
        self.answers
            .print(format_args!("frames {}\n", frames.len()));
        for frame in frames {
            self.answers.put(b"frame");
            for byte in frame {
                self.answers.put(b" ");
                self.answers.byte(byte);
            }
            self.answers.put(b"\n");
        }
    }

    pub(super) fn probe(&mut self, entries: &[u32]) -> Result<(), Fault<'static>> {
        let table = &mut self.item.probe_table;
        add_within(table, entries, LARGEST_PROBE_TABLE)?;
        self.answers.print(format_args!("probe {}\n", table.len()));
        Ok(())
    }

    pub(super) fn degrees(&mut self, probe: u32, reference: u32) {
        self.counts.calls += 1;
        let table = match self.item.probe_table.as_slice() {
            [] => &self.pt1000,
            own => own,
        };
        match thermometer::degrees(table, probe, reference) {
            Ok(thousandths) => {
                let (whole, part) = (thousandths / 1_000, thousandths % 1_000);
                self.answers
                    .print(format_args!("degrees {whole}.{part:03}"));
            }
            Err(refusal) => self.refused("degrees", refusal),
        }
        self.answers.put(b"\n");
    }

    pub(super) fn record(&mut self, differences: &[i32]) -> Result<(), Fault<'static>> {
        let measured = [self.item.model.registers.difference()];
        let added = if differences.is_empty() {
            &measured
        } else {
            differences
        };
        add_within(&mut self.item.record, added, LONGEST_RECORD)?;
        self.answers.put(b"record");
        for difference in added {
            self.answers.print(format_args!(" {difference}"));
        }
        self.answers.put(b"\n");
        Ok(())
    }

    pub(super) fn listing(&mut self, old: bool, first: u32) {
        self.counts.calls += 1;
        let digits = if old {
            record::OLD_DIGITS
        } else {
            record::DIGITS
        };
        match record::listing(&self.item.record, first, digits) {
            Ok(lines) => {
                let count = self.item.record.len();
                self.answers.print(format_args!("listing {count}\n{lines}"));
            }
            Err(refusal) => {
                self.refused("listing", refusal);
                self.answers.put(b"\n");
            }
        }
    }

    pub(super) fn quietest(&mut self, width: u32) {
        self.counts.calls += 1;
        match record::quietest(&self.item.record, width as usize) {
            Ok((start, spread)) => {
                self.answers
                    .print(format_args!("quietest {start} {spread}"));
            }
            Err(refusal) => self.refused("quietest", refusal),
        }
        self.answers.put(b"\n");
    }
}

/// Adds all of them, or none where they would be more than `most`.
fn add_within<T: Copy>(list: &mut Vec<T>, added: &[T], most: usize) -> Result<(), Fault<'static>> {
    if list.len() + added.len() > most {
        return Err(Fault::NoRoom);
    }
    list.extend_from_slice(added);
    Ok(())
}

#[cfg(test)]
mod tests {
    use super::*;
    use crate::item::Format;
    use crate::replay;

    /// The answers to the last lines, without the line that ends all.
    fn last_answers(text: &str, count: usize) -> Vec<String> {
        let mut answers = Vec::new();
        replay(text.as_bytes(), Format::Old, &mut answers).unwrap();
        let answers = String::from_utf8(answers).unwrap();
        let mut lines: Vec<String> = answers.lines().map(String::from).collect();
        lines.pop();
        lines.split_off(lines.len() - count)
    }

    #[test]
    fn a_full_record_takes_no_more() {
        let mut text = "record 7 7 7 7 7 7 7 7\n".repeat(LONGEST_RECORD / 8);
        text += "record\nquietest 4096\nquietest 4097\n";
        let wanted = ["line 513: no room", "quietest 0 0", "quietest no 18 width"];
        assert_eq!(last_answers(&text, 3), wanted);
    }

    #[test]
    fn a_full_probe_table_takes_no_more() {
        let mut text = "probe 1 2 3 4 5 6 7 8\n".repeat(LARGEST_PROBE_TABLE / 8 - 1);
        text += "probe 1 2 3 4 5 6 7 8 9\nprobe 1 2 3 4 5 6 7 8\ndegrees 1 1\n";
        let wanted = ["line 128: no room", "probe 1024", "degrees no 14 bad table"];
        assert_eq!(last_answers(&text, 3), wanted);
    }

    #[test]
    fn a_difference_that_was_measured() {
        let text = "set 38 0110\nbus 05\nbus 02\nflight 0 / 1EBCE\nrecord\nlisting old 3\n";
        let wanted = ["record -125902", "listing 1", "03 -    480.2780"];
        assert_eq!(last_answers(text, 3), wanted);
    }

    #[test]
    fn a_set_up_as_frames() {
        let wanted = ["frames 2", "frame 38 01 10", "frame 43 00 0C"];
        assert_eq!(last_answers("set 38 0110\nset 43 C\nframes\n", 3), wanted);
    }
}
