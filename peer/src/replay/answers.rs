//! Answers that gather in memory until they are handed on.

use std::fmt;
use std::io::{self, Write};

use crate::item::Words;

pub struct Answers {
    text: Vec<u8>,
}

impl Answers {
    pub fn with_capacity(bytes: usize) -> Answers {
        Answers {
            text: Vec::with_capacity(bytes),
        }
    }

    pub fn len(&self) -> usize {
        self.text.len()
    }

    pub fn put(&mut self, bytes: &[u8]) {
        self.text.extend_from_slice(bytes);
    }

    pub fn print(&mut self, arguments: fmt::Arguments) {
        let printed = self.text.write_fmt(arguments);
        printed.expect("a Vec takes every byte");
    }

    /// Two hexadecimal digits.
    pub fn byte(&mut self, byte: u8) {
        const DIGITS: &[u8; 16] = b"0123456789ABCDEF";
        let digit = |value: u8| DIGITS[usize::from(value)];
        self.put(&[digit(byte >> 4), digit(byte & 15)]);
    }

    /// Four hexadecimal digits.
    pub fn word(&mut self, word: u16) {
        for byte in word.to_be_bytes() {
            self.byte(byte);
        }
    }

    /// Each word with a blank before it.
    pub fn words(&mut self, words: Words) {
        for word in words {
            self.put(b" ");
            self.put(word);
        }
    }

    /// The line that begins at `start`, without its line feed.
    pub fn line_from(&self, start: usize) -> &[u8] {
        let rest = &self.text[start..];
        let end = rest.iter().position(|&byte| byte == b'\n');
        &rest[..end.unwrap_or(rest.len())]
    }

    /// Takes back what stands from `place` on.
    pub fn take_from(&mut self, place: usize) -> Vec<u8> {
        self.text.split_off(place)
    }

    pub fn hand_on<W: Write>(&mut self, sink: &mut W) -> io::Result<()> {
        sink.write_all(&self.text)?;
        self.text.clear();
        Ok(())
    }
}
