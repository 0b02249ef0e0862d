//! The user flash: its regulator, and the words of a memory that each transaction is lent.

use crate::model::Model;
use crate::refusal::Refusal;
use crate::registers::status;

/// Bytes of the memory.
pub const MEMORY: usize = 8_192;
/// Bytes that one command erases.
const BLOCK: usize = 256;
/// What each byte holds after an erasure.
pub const ERASED: u8 = 0xFF;

impl Model {
    pub fn switch_regulator(&mut self, on: bool) {
        self.regulator_on = on;
        if on {
            self.registers.raise(status::LDO);
        } else {
            self.registers.lower(status::LDO);
        }
    }

    /// Fills the first two bytes of `output`.
    pub fn read_flash(
        &self,
        further: &[u8],
        output: &mut [u8],
        memory: &[u8],
    ) -> Result<(), Refusal> {
        let &[high, low, _, _] = further else {
            return Err(Refusal::FrameLength);
        };
        let output = output.get_mut(..2).ok_or(Refusal::ShortOutput)?;
        let place = self.flash_word([high, low], memory.len())?;
        output.copy_from_slice(&memory[place..place + 2]);
        Ok(())
    }

    pub fn write_flash(&mut self, further: &[u8], memory: &mut [u8]) -> Result<(), Refusal> {
        let &[high, low, first, second] = further else {
            return Err(Refusal::FrameLength);
        };
        let place = self.flash_word([high, low], memory.len())?;
        let cell = &mut memory[place..place + 2];
        if *cell != [ERASED; 2] {
            return Err(Refusal::NotErased);
        }
        cell.copy_from_slice(&[first, second]);
        self.registers.raise(status::FLASH);
        Ok(())
    }

    /// Erases the block that holds the address, which may be odd.
    pub fn erase_flash(&mut self, further: &[u8], memory: &mut [u8]) -> Result<(), Refusal> {
        let &[high, low] = further else {
            return Err(Refusal::FrameLength);
        };
        let place = self.flash_address([high, low], memory.len())?;
        let first = place - place % BLOCK;
        memory[first..first + BLOCK].fill(ERASED);
        self.registers.raise(status::FLASH);
        Ok(())
    }

    /// The place of a word, at an even address.
    fn flash_word(&self, address: [u8; 2], size: usize) -> Result<usize, Refusal> {
        let place = self.flash_address(address, size)?;
        if place % 2 == 1 {
            return Err(Refusal::FlashAddress);
        }
        Ok(place)
    }

    fn flash_address(&self, address: [u8; 2], size: usize) -> Result<usize, Refusal> {
        if self.is_busy() {
            return Err(Refusal::Busy);
        }
        if !self.regulator_on {
            return Err(Refusal::SupplyOff);
        }
        let place = usize::from(u16::from_be_bytes(address));
        if size != MEMORY || place >= MEMORY {
            return Err(Refusal::FlashAddress);
        }
        Ok(place)
    }
}

#[cfg(test)]
mod tests {
    use super::*;
    use crate::chip::Chip;

    /// With the regulator on and status 0.
    fn supplied() -> Chip {
        let mut chip = Chip::ready();
        chip.accept(&[0x0C]);
        chip.status();
        chip
    }

    #[test]
    fn a_word_is_written_once() {
        let mut chip = supplied();
        chip.accept(&[0x10, 0x1F, 0xFE, 0x12, 0x34]);
        assert_eq!(chip.status(), status::FLASH);
        assert_eq!(chip.word(&[0x90, 0x1F, 0xFE, 0, 0]), 0x1234);
        let again = chip.send(&[0x10, 0x1F, 0xFE, 0xFF, 0xFF]);
        assert_eq!(again, Err(Refusal::NotErased));
        assert_eq!(chip.status(), 0);
        assert_eq!(chip.memory[MEMORY - 2..], [0x12, 0x34]);
        assert!(chip.memory[..MEMORY - 2].iter().all(|&byte| byte == ERASED));
    }

    #[test]
    fn an_erased_word_takes_ffff() {
        let mut chip = supplied();
        chip.accept(&[0x10, 0, 0, 0xFF, 0xFF]);
        chip.accept(&[0x10, 0, 0, 0xFF, 0x00]);
        let half_written = chip.send(&[0x10, 0, 0, 0x00, 0xFF]);
        assert_eq!(half_written, Err(Refusal::NotErased));
    }

    #[test]
    fn an_erasure_takes_its_block_alone() {
        let mut chip = supplied();
        chip.memory.fill(0);
        chip.accept(&[0x13, 0x02, 0xFF]);
        assert_eq!(chip.status(), status::FLASH);
        for (place, &byte) in chip.memory.iter().enumerate() {
            assert_eq!(byte == ERASED, (0x200..0x300).contains(&place));
        }
    }

    #[test]
    fn refusals_in_their_order() {
        let mut chip = supplied();
        chip.accept(&[0x02]);
        let odd_and_past = [0x90, 0x20, 0x01, 0, 0];
        let (answer, output) = chip.send_with(1, &odd_and_past[..4]);
        assert_eq!((answer, output), (Err(Refusal::FrameLength), vec![0xEE]));
        let (answer, output) = chip.send_with(1, &odd_and_past);
        assert_eq!((answer, output), (Err(Refusal::ShortOutput), vec![0xEE]));
        assert_eq!(chip.send(&odd_and_past), Err(Refusal::Busy));
        chip.accept(&[0x0A]);
        chip.accept(&[0x0D]);
        assert_eq!(chip.send(&odd_and_past), Err(Refusal::SupplyOff));
        chip.accept(&[0x0C]);
        assert_eq!(chip.send(&odd_and_past), Err(Refusal::FlashAddress));
        chip.memory[0] = 0;
        let odd = chip.send(&[0x10, 0, 1, 0, 0]);
        assert_eq!(odd, Err(Refusal::FlashAddress));
        let written = chip.send(&[0x10, 0, 0, 0, 0]);
        assert_eq!(written, Err(Refusal::NotErased));
    }

    #[test]
    fn lengths_and_busy_of_the_others() {
        let mut chip = supplied();
        chip.accept(&[0x08]);
        for frame in [
            &[0x0C, 0][..],
            &[0x0D, 0],
            &[0x10, 0, 0, 0],
            &[0x13, 0, 0, 0, 0],
        ] {
            assert_eq!(chip.send(frame), Err(Refusal::FrameLength));
        }
        for frame in [&[0x0C][..], &[0x0D], &[0x10, 0, 0, 0, 0], &[0x13, 0, 0]] {
            assert_eq!(chip.send(frame), Err(Refusal::Busy));
        }
    }

    #[test]
    fn an_erasure_may_have_an_odd_address() {
        let mut chip = supplied();
        chip.accept(&[0x13, 0x1F, 0xFF]);
        let past = chip.send(&[0x13, 0x20, 0x00]);
        assert_eq!(past, Err(Refusal::FlashAddress));
    }

    #[test]
    fn a_memory_of_another_size() {
        let mut chip = supplied();
        for size in [0, MEMORY - 1, MEMORY + 1] {
            chip.memory.resize(size, ERASED);
            for frame in [&[0x90, 0, 0, 0, 0][..], &[0x10, 0, 0, 0, 0], &[0x13, 0, 0]] {
                assert_eq!(chip.send(frame), Err(Refusal::FlashAddress));
            }
        }
    }

    #[test]
    fn the_regulator_and_its_bit() {
        let mut chip = Chip::ready();
        for _ in 0..2 {
            chip.accept(&[0x0C]);
            assert_eq!(chip.status(), status::LDO);
            assert!(chip.model.regulator_on);
        }
        chip.accept(&[0x0C]);
        chip.accept(&[0x0D]);
        assert_eq!(chip.status(), 0);
        assert!(!chip.model.regulator_on);
    }

    #[test]
    fn other_commands_and_the_flash() {
        let mut chip = supplied();
        chip.memory[5] = 0;
        chip.accept(&[0x0A]);
        chip.accept(&[0x05]);
        assert!(chip.model.regulator_on);
        chip.accept(&[0x04]);
        assert!(!chip.model.regulator_on);
        assert_eq!(chip.memory[5], 0);
    }
}
