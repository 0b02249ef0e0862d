//! The first bytes of a frame, by the names of the data sheet.

pub const TOF_UP: u8 = 0x00;
pub const TOF_DOWN: u8 = 0x01;
pub const TOF_DIFF: u8 = 0x02;
pub const TEMPERATURE: u8 = 0x03;
pub const RESET: u8 = 0x04;
pub const INITIALIZE: u8 = 0x05;
/// An event of both kinds.
pub const EVTMG1: u8 = 0x07;
/// An event of differences.
pub const EVTMG2: u8 = 0x08;
/// An event of temperatures.
pub const EVTMG3: u8 = 0x09;
pub const HALT: u8 = 0x0A;
pub const LDO_ON: u8 = 0x0C;
pub const LDO_OFF: u8 = 0x0D;
pub const WRITE_FLASH: u8 = 0x10;
pub const ERASE_FLASH: u8 = 0x13;
pub const READ_FLASH: u8 = 0x90;

/// A write has its first register's opcode, a read too.
pub const FIRST_WRITE: u8 = 0x30;
pub const LAST_WRITE: u8 = 0x43;
pub const FIRST_READ: u8 = 0xB0;
pub const LAST_READ: u8 = 0xFF;
/// What the opcode of a read has above that of a write to the same register.
pub const READ_ABOVE_WRITE: u8 = FIRST_READ - FIRST_WRITE;
