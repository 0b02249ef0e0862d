//! Bus transactions: reads, writes and commands.

use crate::calendar::TimeOfDay;
use crate::event::{Kind, Series};
use crate::flight::Directions;
use crate::model::Model;
use crate::opcode;
use crate::refusal::Refusal;
use crate::registers::{self, status};

/// The kinds that a transaction started.
#[derive(Clone, Copy, Debug, Default, PartialEq, Eq)]
pub struct Started {
    pub flight: bool,
    pub temperature: bool,
}

impl Model {
    /// One chip-enable window; `memory` is the user flash. A refusal leaves all of them as they
    /// were.
    pub fn transaction(
        &mut self,
        frame: &[u8],
        output: &mut [u8],
        memory: &mut [u8],
    ) -> Result<Started, Refusal> {
        let (&opcode, further) = frame.split_first().ok_or(Refusal::NoFrame)?;
        match opcode {
            opcode::TOF_UP..=opcode::INITIALIZE
            | opcode::EVTMG1..=opcode::HALT
            | opcode::LDO_ON
            | opcode::LDO_OFF => return self.command(opcode, further),
            opcode::WRITE_FLASH => self.write_flash(further, memory)?,
            opcode::ERASE_FLASH => self.erase_flash(further, memory)?,
            opcode::FIRST_WRITE..=opcode::LAST_WRITE => self.write(opcode, further)?,
            opcode::READ_FLASH => self.read_flash(further, output, memory)?,
            opcode::FIRST_READ..=opcode::LAST_READ => self.read(opcode, further.len(), output)?,
            _ => return Err(Refusal::Opcode),
        }
        Ok(Started::default())
    }

    fn read(&mut self, first: u8, fillers: usize, output: &mut [u8]) -> Result<(), Refusal> {
        let count = whole_words(fillers)?;
        if count > registers::words_from(first) {
            return Err(Refusal::Address);
        }
        if output.len() < 2 * count {
            return Err(Refusal::ShortOutput);
        }
        let addresses = first..=registers::LAST;
        for (address, bytes) in addresses.zip(output.chunks_exact_mut(2)).take(count) {
            bytes.copy_from_slice(&self.register(address).to_be_bytes());
            if address == registers::STATUS {
                self.registers.set(address, 0);
            }
        }
        Ok(())
    }

    fn write(&mut self, opcode: u8, bytes: &[u8]) -> Result<(), Refusal> {
        let count = whole_words(bytes.len())?;
        let first = opcode + opcode::READ_ABOVE_WRITE;
        let index = usize::from(first - registers::FIRST);
        if index + count > registers::WRITABLE {
            return Err(Refusal::Address);
        }
        if self.is_busy() {
            return Err(Refusal::Busy);
        }
        let mut words = [0; registers::WRITABLE];
        for (word, pair) in words.iter_mut().zip(bytes.chunks_exact(2)) {
            *word = u16::from_be_bytes([pair[0], pair[1]]);
        }
        let words = &words[..count];
        let clock = self.clock.written(index, words).ok_or(Refusal::Calendar)?;
        let addresses = first..=registers::LAST_WRITABLE;
        let alarm_is_valid = addresses.clone().zip(words).all(|(address, &word)| {
            address != registers::ALARM || TimeOfDay::from_word(word).is_some()
        });
        if !alarm_is_valid {
            return Err(Refusal::Calendar);
        }
        self.clock = clock;
        for (address, &word) in addresses.zip(words) {
            self.registers.set(address, word);
        }
        Ok(())
    }

    fn command(&mut self, opcode: u8, further: &[u8]) -> Result<Started, Refusal> {
        match opcode {
            _ if !further.is_empty() => return Err(Refusal::FrameLength),
            opcode::RESET => *self = Model::after_reset(),
            opcode::HALT => self.halt(),
            _ if self.is_busy() => return Err(Refusal::Busy),
            opcode::INITIALIZE => self.initialise(),
            opcode::LDO_ON => self.switch_regulator(true),
            opcode::LDO_OFF => self.switch_regulator(false),
            _ if !self.initialised => return Err(Refusal::NotInitialised),
            _ => return self.measure(opcode),
        }
        Ok(Started::default())
    }

    fn halt(&mut self) {
        self.flight = Kind::idle();
        self.temperature = Kind::idle();
        self.registers.raise(status::HALT);
        self.schedule();
    }

    fn initialise(&mut self) {
        self.initialised = true;
        self.registers.raise(status::INIT);
    }

    /// Starts a single measurement or an event.
    fn measure(&mut self, opcode: u8) -> Result<Started, Refusal> {
        let event = matches!(opcode, opcode::EVTMG1..=opcode::EVTMG3);
        let started = Started {
            flight: !matches!(opcode, opcode::TEMPERATURE | opcode::EVTMG3),
            temperature: matches!(
                opcode,
                opcode::TEMPERATURE | opcode::EVTMG1 | opcode::EVTMG3
            ),
        };
        let set_up = &self.registers;
        if started.flight && !set_up.flight_ready()
            || started.temperature && !set_up.temperature_ready()
            || event && set_up.clock_stands()
        {
            return Err(Refusal::SetUp);
        }
        if event {
            self.begin_event(started);
        }
        self.directions = match opcode {
            opcode::TOF_UP => Directions::UP,
            opcode::TOF_DOWN => Directions::DOWN,
            _ => Directions::BOTH,
        };
        if started.flight {
            self.start_flight();
        }
        if started.temperature {
            self.start_temperature();
        }
        self.schedule();
        Ok(started)
    }

    /// Whether the event is continuous is decided here, for as long as it runs.
    fn begin_event(&mut self, kinds: Started) {
        if kinds.flight {
            let timing = self.registers.difference_timing();
            self.flight.series = Some(Series::new(self.now, timing));
        }
        if kinds.temperature {
            let timing = self.registers.temperature_timing();
            self.temperature.series = Some(Series::new(self.now, timing));
        }
    }
}

/// The number of words in `bytes` further bytes of a frame.
fn whole_words(bytes: usize) -> Result<usize, Refusal> {
    if bytes == 0 || bytes % 2 == 1 {
        return Err(Refusal::FrameLength);
    }
    Ok(bytes / 2)
}

#[cfg(test)]
mod tests {
    use super::*;
    use crate::chip::Chip;

    const BOTH: Started = Started {
        flight: true,
        temperature: true,
    };

    #[test]
    fn opcodes_that_are_carried() {
        let carried = |opcode: &u8| Chip::fresh().send(&[*opcode]) != Err(Refusal::Opcode);
        let carried: Vec<u8> = (0..=0xFF).filter(carried).collect();
        let mut wanted = vec![0, 1, 2, 3, 4, 5, 7, 8, 9, 0x0A, 0x0C, 0x0D, 0x10, 0x13];
        wanted.extend(0x30..=0x43);
        wanted.push(0x90);
        wanted.extend(0xB0..=0xFF);
        assert_eq!(carried, wanted);
    }

    #[test]
    fn malformed_frames() {
        let mut chip = Chip::fresh();
        assert_eq!(chip.send(&[]), Err(Refusal::NoFrame));
        for frame in [
            &[0x05, 0][..],
            &[0x38],
            &[0x38, 0],
            &[0xFE],
            &[0xFE, 0, 0, 0],
        ] {
            assert_eq!(chip.send(frame), Err(Refusal::FrameLength));
        }
        for frame in [[0x43, 0, 0, 0, 0], [0xFF, 0, 0, 0, 0]] {
            assert_eq!(chip.send(&frame), Err(Refusal::Address));
        }
    }

    #[test]
    fn a_short_output_keeps_the_status() {
        let mut chip = Chip::fresh();
        let (answer, output) = chip.send_with(3, &[0xFE, 0, 0, 0, 0]);
        assert_eq!((answer, output), (Err(Refusal::ShortOutput), vec![0xEE; 3]));
        let (answer, output) = chip.send_with(3, &[0xFE, 0, 0]);
        assert_eq!(
            (answer, output),
            (Ok(Started::default()), vec![0x00, 0x04, 0xEE])
        );
        assert_eq!(chip.status(), 0);
    }

    #[test]
    fn refusals_of_a_measurement_in_order() {
        let mut chip = Chip::fresh();
        assert_eq!(chip.send(&[0x02]), Err(Refusal::NotInitialised));
        chip.accept(&[0x05]);
        assert_eq!(chip.send(&[0x02]), Err(Refusal::SetUp));
        chip.accept(&[0x38, 0x01, 0x10]);
        assert_eq!(chip.send(&[0x07]), Err(Refusal::SetUp));
        chip.accept(&[0x40, 0x00, 0x60]);
        assert_eq!(chip.accept(&[0x07]), BOTH);
        for frame in [&[0x07][..], &[0x05], &[0x38, 0x01, 0x10]] {
            assert_eq!(chip.send(frame), Err(Refusal::Busy));
        }
        chip.accept(&[0xB0, 0, 0]);
        chip.accept(&[0x0A]);
        assert_eq!(chip.accept(&[0x07]), BOTH);
        chip.accept(&[0x04]);
        assert_eq!(chip.send(&[0x07]), Err(Refusal::NotInitialised));
    }

    #[test]
    fn a_write_is_judged_as_a_whole() {
        let mut chip = Chip::fresh();
        chip.accept(&[0x33, 0x02, 0x01]);
        // The 30th is no date of February, but the month is written too.
        chip.accept(&[0x32, 0x02, 0x30, 0x11, 0x01]);
        let answer = chip.send(&[0x33, 0x02, 0x01]);
        assert_eq!(answer, Err(Refusal::Calendar));
        // A fault in the alarm refuses the words before it too.
        let answer = chip.send(&[0x33, 0x12, 0x01, 0x12, 0x34, 0x00, 0x24]);
        assert_eq!(answer, Err(Refusal::Calendar));
        assert_eq!(chip.registers(0xB2), [0x0230, 0x1101, 0x0000, 0x0000]);
    }

    #[test]
    fn reset_gives_the_fresh_model_without_por() {
        let mut chip = Chip::ready();
        chip.accept(&[0x33, 0x12, 0x99, 0x12, 0x34, 0x59, 0x23]);
        chip.accept(&[0x08]);
        chip.accept(&[0x04]);
        let fresh = Chip::fresh().registers::<{ registers::COUNT }>(registers::FIRST);
        let mut wanted = fresh;
        wanted[usize::from(registers::STATUS - registers::FIRST)] = 0;
        assert_eq!(chip.registers(registers::FIRST), wanted);
        assert!(!chip.model.is_busy());
    }
}
