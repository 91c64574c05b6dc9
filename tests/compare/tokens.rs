//! The tokens of JSON text: white space, strings, numbers and literals, as RFC 8259 has them, with the UTF-8 of RFC 3629.

use crate::value::Fault;
use std::ops::RangeInclusive;

const GRAMMAR: u64 = 12;

/// A text and the place of its next byte.
pub struct Tokens<'a> {
    text: &'a [u8],
    place: usize,
}

/// A string's bytes between the quotes, the place of the closing one, and whether any of its characters is spelled by an escape.
pub struct Quoted<'a> {
    pub bytes: &'a [u8],
    pub end: u64,
    pub escaped: bool,
}

impl<'a> Tokens<'a> {
    pub fn new(text: &'a [u8]) -> Tokens<'a> {
        Tokens { text, place: 0 }
    }

    pub fn peek(&self) -> Option<u8> {
        self.text.get(self.place).copied()
    }

    /// A refusal at the next byte, or at the end of the text.
    pub fn refuse(&self, number: u64) -> Fault {
        (number, self.place as u64)
    }

    /// A refusal of the next byte, or of the end of the text, as what can't continue the grammar.
    pub fn unexpected(&self) -> Fault {
        self.refuse(GRAMMAR)
    }

    /// Passes the next byte if it is one of those.
    pub fn accept(&mut self, allowed: impl Fn(u8) -> bool) -> bool {
        let accepted = self.peek().is_some_and(allowed);
        self.place += usize::from(accepted);
        accepted
    }

    fn expect(&mut self, allowed: impl Fn(u8) -> bool) -> Result<(), Fault> {
        if self.accept(allowed) {
            return Ok(());
        }
        Err(self.unexpected())
    }

    pub fn byte(&mut self, byte: u8) -> Result<(), Fault> {
        self.expect(|next| next == byte)
    }

    pub fn spaces(&mut self) {
        while self.accept(is_space) {}
    }

    /// The white space behind a message.
    pub fn some_space(&mut self) -> Result<(), Fault> {
        self.expect(is_space)?;
        self.spaces();
        Ok(())
    }

    pub fn literal(&mut self, word: &str) -> Result<(), Fault> {
        word.bytes().try_for_each(|letter| self.byte(letter))
    }

    pub fn number(&mut self) -> Result<(), Fault> {
        self.accept(|byte| byte == b'-');
        if !self.accept(|byte| byte == b'0') {
            self.digits()?;
        }
        if self.accept(|byte| byte == b'.') {
            self.digits()?;
        }
        if self.accept(|byte| matches!(byte, b'e' | b'E')) {
            self.accept(|byte| matches!(byte, b'+' | b'-'));
            self.digits()?;
        }
        Ok(())
    }

    fn digits(&mut self) -> Result<(), Fault> {
        self.expect(|byte| byte.is_ascii_digit())?;
        while self.accept(|byte| byte.is_ascii_digit()) {}
        Ok(())
    }

    pub fn string(&mut self) -> Result<Quoted<'a>, Fault> {
        self.byte(b'"')?;
        let start = self.place;
        let mut escaped = false;
        while self.peek() != Some(b'"') {
            if self.accept(|byte| byte == b'\\') {
                escaped = true;
                self.escape()?;
            } else {
                self.character()?;
            }
        }
        let end = self.place;
        self.byte(b'"')?;
        Ok(Quoted {
            bytes: &self.text[start..end],
            end: end as u64,
            escaped,
        })
    }

    /// What follows a backslash. Surrogates need no partner.
    fn escape(&mut self) -> Result<(), Fault> {
        if self.accept(|byte| byte == b'u') {
            return (0..4).try_for_each(|_| self.expect(|byte| byte.is_ascii_hexdigit()));
        }
        self.expect(|byte| b"\"\\/bfnrt".contains(&byte))
    }

    /// A character that is spelled by itself: a row of the table in section 4 of RFC 3629, without the control characters.
    fn character(&mut self) -> Result<(), Fault> {
        const TAIL: RangeInclusive<u8> = 0x80..=0xbf;
        let tails: &[RangeInclusive<u8>] = match self.peek() {
            Some(0x20..=0x7f) => &[],
            Some(0xc2..=0xdf) => &[TAIL],
            Some(0xe0) => &[0xa0..=0xbf, TAIL],
            Some(0xe1..=0xec | 0xee..=0xef) => &[TAIL, TAIL],
            Some(0xed) => &[0x80..=0x9f, TAIL],
            Some(0xf0) => &[0x90..=0xbf, TAIL, TAIL],
            Some(0xf1..=0xf3) => &[TAIL, TAIL, TAIL],
            Some(0xf4) => &[0x80..=0x8f, TAIL, TAIL],
            _ => return Err(self.unexpected()),
        };
        self.place += 1;
        tails
            .iter()
            .try_for_each(|tail| self.expect(|byte| tail.contains(&byte)))
    }
}

fn is_space(byte: u8) -> bool {
    matches!(byte, b' ' | b'\t' | b'\n' | b'\r')
}
