//! The user flash.

use peer::event::DELIVERY_LIMIT;
use peer::flash::MEMORY;
use peer::opcode::{
    ERASE_FLASH, HALT, INITIALIZE, LDO_OFF, LDO_ON, READ_FLASH, RESET, WRITE_FLASH,
};
use peer::registers::STATUS;

use crate::deliveries::STARTS;
use crate::maker::Maker;

/// The first address past the memory.
const PAST: u16 = MEMORY as u16;

impl Maker {
    /// Frames on a few words and blocks, so that many meet what earlier ones left.
    pub fn flash(&mut self) {
        if self.random.percent(85) {
            self.bus(&[LDO_ON]);
        }
        for _ in 0..self.random.between(3, 40) {
            match self.random.below(30) {
                0 | 1 => self.switch_regulator(),
                2 => self.read(STATUS, 1),
                3 => self.while_busy(),
                4 => {
                    let opcode = self.random.one_of(&[HALT, INITIALIZE, RESET]);
                    self.bus(&[opcode]);
                }
                5 => self.look(),
                _ => self.flash_frame(),
            }
        }
    }

    pub fn switch_regulator(&mut self) {
        let opcode = self.random.one_of(&[LDO_ON, LDO_ON, LDO_OFF]);
        let frame = [opcode, 0, 0, 0, 0];
        let length = self.random.one_of(&[1, 1, 1, 1, 1, 1, 1, 2, 3, 5]);
        self.bus(&frame[..length]);
    }

    /// Flash frames while a measurement is awaited or an event runs.
    fn while_busy(&mut self) {
        let opcode = self.random.one_of(&STARTS);
        self.bus(&[opcode]);
        for _ in 0..self.random.between(1, 4) {
            match self.random.below(4) {
                0 => self.switch_regulator(),
                _ => self.flash_frame(),
            }
        }
        match self.random.below(4) {
            0 => self.wait(DELIVERY_LIMIT),
            _ => self.bus(&[HALT]),
        }
    }

    /// A read, a write or an erasure; one in twelve has another length, mostly a wrong one.
    pub fn flash_frame(&mut self) {
        let opcode = match self.random.below(12) {
            0..=5 => READ_FLASH,
            6..=10 => WRITE_FLASH,
            _ => ERASE_FLASH,
        };
        let mut frame = vec![opcode];
        frame.extend(self.flash_address().to_be_bytes());
        if opcode != ERASE_FLASH {
            let random = self.random.word();
            let words = [random, random, 0, 0xFFFF, 0xFF00, 0x00FF];
            frame.extend(self.random.one_of(&words).to_be_bytes());
        }
        if self.random.below(12) == 0 {
            let length = self.random.between(1, 8) as usize;
            frame.resize(length, 0xFF);
        }
        if opcode == READ_FLASH && self.random.percent(15) {
            let size = self.random.one_of(&[0, 1, 1, 2, 3, 7]);
            self.bus_with(Some(size), &frame);
        } else {
            self.bus(&frame);
        }
    }

    /// Mostly a word at an edge of a block, sometimes odd or past the memory.
    fn flash_address(&mut self) -> u16 {
        const EDGES: [u16; 7] = [
            0x0000,
            0x0002,
            0x00FE,
            0x0100,
            0x01FE,
            PAST - 0x100,
            PAST - 2,
        ];
        const ODD: [u16; 4] = [0x0001, 0x00FF, 0x0101, PAST - 3];
        const OFF: [u16; 6] = [PAST, PAST + 2, PAST - 1, 0x8000, 0xFFFE, 0xFFFF];
        let even = self.random.word() & (PAST - 2);
        match self.random.below(20) {
            0 => even + 1,
            1 => self.random.one_of(&OFF),
            2 => self.random.word(),
            3 | 4 => even,
            5 => self.random.one_of(&ODD),
            _ => self.random.one_of(&EDGES),
        }
    }
}
