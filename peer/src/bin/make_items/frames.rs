//! Frames and calls without a plan.

use peer::item::LONGEST_FRAME;
use peer::opcode::{
    ERASE_FLASH, FIRST_READ, FIRST_WRITE, LAST_READ, LAST_WRITE, LDO_OFF, LDO_ON, READ_FLASH,
    WRITE_FLASH,
};

use crate::deliveries::Quality;
use crate::maker::Maker;

/// Opcodes that are carried and such that are not, where one sort ends.
const OPCODES_AT_EDGES: [u8; 20] = [
    0x06,
    LDO_ON - 1,
    LDO_ON,
    LDO_OFF,
    LDO_OFF + 1,
    WRITE_FLASH - 1,
    WRITE_FLASH,
    WRITE_FLASH + 1,
    ERASE_FLASH - 1,
    ERASE_FLASH,
    ERASE_FLASH + 1,
    FIRST_WRITE - 1,
    FIRST_WRITE,
    LAST_WRITE,
    LAST_WRITE + 1,
    READ_FLASH,
    READ_FLASH + 1,
    FIRST_READ - 1,
    FIRST_READ,
    LAST_READ,
];

impl Maker {
    /// Frames of every sort, many of them malformed.
    pub fn frames(&mut self) {
        for _ in 0..self.random.between(1, 10) {
            let random = self.random.byte();
            let write = self.random_opcode(FIRST_WRITE, LAST_WRITE);
            let read = self.random_opcode(FIRST_READ, LAST_READ);
            let edge = self.random.one_of(&OPCODES_AT_EDGES);
            let opcode = self.random.one_of(&[random, write, read, read, edge]);
            let longest = LONGEST_FRAME as i64;
            let further = match self.random.below(10) {
                0 => 0,
                1..=5 => 2 * self.random.between(1, 4),
                6 | 7 => self.random.below(12),
                // As many words as there are registers from here on, where a frame holds them.
                8 => 2 * (0x100 - i64::from(opcode)).min(longest / 2 - 1),
                _ => self.random.below(longest),
            };
            let mut frame = vec![opcode];
            frame.extend((0..further).map(|_| self.random.byte()));
            if self.random.percent(2) {
                frame.clear();
            }
            self.bus(&frame);
        }
    }

    fn random_opcode(&mut self, first: u8, last: u8) -> u8 {
        self.random.between(first.into(), last.into()) as u8
    }

    pub fn mixture(&mut self) {
        for _ in 0..self.random.between(3, 25) {
            match self.random.below(13) {
                0 | 1 => {
                    let opcode = self.random_opcode(0, ERASE_FLASH + 1);
                    self.bus(&[opcode]);
                }
                2 | 3 => {
                    let count = self.random.below(30);
                    self.tick(count);
                }
                4 | 5 => {
                    let (up, down) = self.random.one_of(&[(true, false), (false, true)]);
                    let quality = self.quality();
                    self.deliver_flight(up, down, quality);
                }
                6 => self.deliver_flight(true, true, Quality::Good),
                7 => {
                    let quality = self.quality();
                    self.deliver_temperature(quality);
                }
                8 => self.disturb(),
                9 => self.frames(),
                10 => self.flash_frame(),
                _ => self.look(),
            }
        }
    }
}
