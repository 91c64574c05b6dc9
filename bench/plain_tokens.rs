//! The tokens of JSON text in plain Rust, for the plain reader.

use std::ops::RangeInclusive;

const TAIL: RangeInclusive<u8> = 0x80..=0xbf;

/// A number and a place.
pub type Refusal = (u64, usize);

/// A text and the place of its next byte.
pub struct Tokens<'a> {
    pub text: &'a [u8],
    pub at: usize,
}

impl<'a> Tokens<'a> {
    pub fn new(text: &'a [u8]) -> Self {
        Tokens { text, at: 0 }
    }

    /// The next byte. A zero, which no token has, stands for the end of the text.
    pub fn peek(&self) -> u8 {
        self.text.get(self.at).copied().unwrap_or(0)
    }

    pub fn refuse<T>(&self, number: u64) -> Result<T, Refusal> {
        Err((number, self.at))
    }

    pub fn expect(&mut self, byte: u8) -> Result<(), Refusal> {
        self.expect_in(byte..=byte)
    }

    fn expect_in(&mut self, range: RangeInclusive<u8>) -> Result<(), Refusal> {
        if !range.contains(&self.peek()) {
            return self.refuse(12);
        }
        self.at += 1;
        Ok(())
    }

    pub fn skip_space(&mut self) {
        while let b' ' | b'\t' | b'\n' | b'\r' = self.peek() {
            self.at += 1;
        }
    }

    /// Passes a string from its opening quote on; says whether it has an escape.
    pub fn string(&mut self) -> Result<bool, Refusal> {
        self.at += 1;
        let mut escaped = false;
        loop {
            match self.peek() {
                b'"' => {
                    self.at += 1;
                    return Ok(escaped);
                }
                b'\\' => {
                    self.escape()?;
                    escaped = true;
                }
                0x20..=0x7f => self.at += 1,
                _ => self.sequence()?,
            }
        }
    }

    fn escape(&mut self) -> Result<(), Refusal> {
        self.at += 1;
        match self.peek() {
            b'"' | b'\\' | b'/' | b'b' | b'f' | b'n' | b'r' | b't' => self.at += 1,
            b'u' => {
                self.at += 1;
                for _ in 0..4 {
                    if !self.peek().is_ascii_hexdigit() {
                        return self.refuse(12);
                    }
                    self.at += 1;
                }
            }
            _ => return self.refuse(12),
        }
        Ok(())
    }

    /// A character of two to four bytes.
    fn sequence(&mut self) -> Result<(), Refusal> {
        let (second, more) = match self.peek() {
            0xc2..=0xdf => (TAIL, 0),
            0xe0 => (0xa0..=0xbf, 1),
            0xed => (0x80..=0x9f, 1),
            0xe1..=0xef => (TAIL, 1),
            0xf0 => (0x90..=0xbf, 2),
            0xf1..=0xf3 => (TAIL, 2),
            0xf4 => (0x80..=0x8f, 2),
            _ => return self.refuse(12),
        };
        self.at += 1;
        self.expect_in(second)?;
        for _ in 0..more {
            self.expect_in(TAIL)?;
        }
        Ok(())
    }

    pub fn literal(&mut self, word: &[u8]) -> Result<(), Refusal> {
        for letter in word {
            self.expect(*letter)?;
        }
        Ok(())
    }

    pub fn number(&mut self) -> Result<(), Refusal> {
        if self.peek() == b'-' {
            self.at += 1;
        }
        if self.peek() == b'0' {
            self.at += 1;
        } else {
            self.digits()?;
        }
        if self.peek() == b'.' {
            self.at += 1;
            self.digits()?;
        }
        if let b'e' | b'E' = self.peek() {
            self.at += 1;
            if let b'+' | b'-' = self.peek() {
                self.at += 1;
            }
            self.digits()?;
        }
        Ok(())
    }

    fn digits(&mut self) -> Result<(), Refusal> {
        self.expect_in(b'0'..=b'9')?;
        while self.peek().is_ascii_digit() {
            self.at += 1;
        }
        Ok(())
    }
}
