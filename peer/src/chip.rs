//! A model and its flash, as the tests handle them.

use crate::flash::{ERASED, MEMORY};
use crate::model::{Model, TickReport};
use crate::refusal::Refusal;
use crate::registers::STATUS;
use crate::transaction::Started;

pub struct Chip {
    pub model: Model,
    pub memory: Vec<u8>,
}

impl Chip {
    pub fn fresh() -> Chip {
        Chip {
            model: Model::fresh(),
            memory: vec![ERASED; MEMORY],
        }
    }

    /// Initialised, with a set-up for both kinds: one hit in each direction, differences each
    /// 16,384 ticks and temperatures each 32,768, groups of one, the shortest limits; status 0.
    pub fn ready() -> Chip {
        let mut chip = Chip::fresh();
        chip.accept(&[0x38, 0x10, 0x10, 0x00, 0x00]);
        chip.accept(&[0x40, 0x00, 0x60]);
        chip.accept(&[0x05]);
        chip.status();
        chip
    }

    /// A frame with an output of `size` bytes, each EEh before the call.
    pub fn send_with(&mut self, size: usize, frame: &[u8]) -> (Result<Started, Refusal>, Vec<u8>) {
        let mut output = vec![0xEE; size];
        let answer = self.model.transaction(frame, &mut output, &mut self.memory);
        (answer, output)
    }

    /// A frame with an output that is long enough.
    pub fn send(&mut self, frame: &[u8]) -> Result<Started, Refusal> {
        self.send_with(200, frame).0
    }

    /// A frame that must not be refused.
    pub fn accept(&mut self, frame: &[u8]) -> Started {
        self.send(frame).unwrap()
    }

    /// What a frame that must be accepted writes to the first word of its output.
    pub fn word(&mut self, frame: &[u8]) -> u16 {
        let (answer, output) = self.send_with(2, frame);
        assert!(answer.is_ok());
        u16::from_be_bytes([output[0], output[1]])
    }

    /// Reads the status and clears it.
    pub fn status(&mut self) -> u16 {
        self.word(&[STATUS, 0, 0])
    }

    /// The registers' words from `first` on, with nothing cleared.
    pub fn registers<const N: usize>(&self, first: u8) -> [u16; N] {
        std::array::from_fn(|place| self.model.register(first + place as u8))
    }

    /// The ticks, from 1, that report something, and their reports.
    pub fn ticks(&mut self, count: u32) -> Vec<(u32, TickReport)> {
        let reports = (1..=count).map(|number| (number, self.model.tick()));
        reports.filter(|(_, report)| !report.is_empty()).collect()
    }
}
