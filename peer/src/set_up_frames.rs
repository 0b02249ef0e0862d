//! A set-up as the bus frames that bring a fresh model to it.

use crate::opcode::READ_ABOVE_WRITE;
use crate::registers::{Registers, FIRST_SET_UP, LAST_WRITABLE};

/// One write for each run of neighbours that differ from their factory words.
pub fn frames(registers: &Registers) -> Vec<Vec<u8>> {
    let factory = Registers::factory();
    let mut frames: Vec<Vec<u8>> = Vec::new();
    let mut in_run = false;
    for address in FIRST_SET_UP..=LAST_WRITABLE {
        let word = registers.get(address);
        let differs = word != factory.get(address);
        if differs && !in_run {
            frames.push(vec![address - READ_ABOVE_WRITE]);
        }
        if let Some(frame) = frames.last_mut().filter(|_| differs) {
            frame.extend(word.to_be_bytes());
        }
        in_run = differs;
    }
    frames
}

#[cfg(test)]
mod tests {
    use super::*;
    use crate::chip::Chip;

    #[test]
    fn a_fresh_set_up_needs_none() {
        assert!(frames(&Registers::factory()).is_empty());
    }

    #[test]
    fn runs_of_differing_words() {
        let mut chip = Chip::fresh();
        // 38h has its factory word, and parts two runs.
        chip.accept(&[0x36, 0x12, 0x34, 0x00, 0x01, 0x00, 0x10, 0x20, 0x00]);
        chip.accept(&[0x43, 0x00, 0x04]);
        let wanted: [&[u8]; 3] = [
            &[0x36, 0x12, 0x34, 0x00, 0x01],
            &[0x39, 0x20, 0x00],
            &[0x43, 0x00, 0x04],
        ];
        assert_eq!(frames(&chip.model.registers), wanted);
    }

    #[test]
    fn every_other_word_makes_eight_frames() {
        let mut chip = Chip::fresh();
        for register in (0x34..=0x42).step_by(2) {
            chip.accept(&[register, 0x00, 0x11]);
        }
        assert_eq!(frames(&chip.model.registers).len(), 8);
    }

    #[test]
    fn sent_to_a_fresh_model_they_give_the_set_up() {
        let mut chip = Chip::ready();
        chip.accept(&[0x35, 0x30, 0x12]);
        let mut other = Chip::fresh();
        for frame in frames(&chip.model.registers) {
            other.accept(&frame);
        }
        assert_eq!(
            other.registers::<16>(FIRST_SET_UP),
            chip.registers(FIRST_SET_UP)
        );
    }
}
