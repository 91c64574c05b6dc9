//! The reader of JSON text of change 1 in plain Rust: what the proved one is measured against.

use crate::plain_tokens::{Refusal, Tokens};
use std::collections::HashMap;

const NULL: u8 = 1;
const BOOLEAN: u8 = 2;
const NUMBER: u8 = 3;
const STRING: u8 = 4;
const RECORD: u8 = 5;
const ARRAY: u8 = 6;
const SIZE: usize = 8;
const LONGEST: usize = 65_536;
const MAX_DEPTH: usize = 32;
const MAX_KEY: usize = 32;
const MAX_FIELDS: usize = 256;

/// The keys of a book with their numbers, if it is a good one.
fn numbers(book: &[u8]) -> Option<HashMap<&[u8], u16>> {
    let mut numbers = HashMap::with_capacity(book.len() / MAX_KEY);
    let mut last: &[u8] = b"";
    for (record, number) in book.chunks_exact(MAX_KEY).zip(1..) {
        let end = record.iter().position(|byte| *byte == 0);
        let (key, zeros) = record.split_at(end.unwrap_or(MAX_KEY));
        if key <= last || zeros.iter().any(|byte| *byte != 0) {
            return None;
        }
        numbers.insert(key, number);
        last = key;
    }
    Some(numbers)
}

struct Reader<'a> {
    tokens: Tokens<'a>,
    book: HashMap<&'a [u8], u16>,
    table: &'a mut [u8],
    used: usize,
    /// The keys so far of the open record with fields at each depth, a bit for each key's number in so many words.
    seen: Vec<u64>,
    words: usize,
}

impl Reader<'_> {
    fn messages(&mut self) -> Result<usize, Refusal> {
        self.tokens.skip_space();
        while self.tokens.at < self.tokens.text.len() {
            self.value(0, 1)?;
            let end = self.tokens.at;
            self.tokens.skip_space();
            if self.tokens.at == end {
                return self.tokens.refuse(12);
            }
        }
        Ok(self.used)
    }

    fn value(&mut self, key: u16, depth: usize) -> Result<(), Refusal> {
        match self.tokens.peek() {
            b'"' => self.scalar(STRING, key, depth, |tokens| tokens.string().map(|_| ())),
            b'-' | b'0'..=b'9' => self.scalar(NUMBER, key, depth, |tokens| tokens.number()),
            b'{' => self.container(RECORD, key, depth),
            b'[' => self.container(ARRAY, key, depth),
            b'n' => self.scalar(NULL, key, depth, |tokens| tokens.literal(b"null")),
            b't' => self.scalar(BOOLEAN, key, depth, |tokens| tokens.literal(b"true")),
            b'f' => self.scalar(BOOLEAN, key, depth, |tokens| tokens.literal(b"false")),
            _ => self.tokens.refuse(12),
        }
    }

    /// Takes a record of the table for a value that starts here.
    fn start(&mut self, depth: usize) -> Result<usize, Refusal> {
        if depth > MAX_DEPTH {
            return self.tokens.refuse(7);
        }
        if SIZE * self.used == self.table.len() {
            return self.tokens.refuse(11);
        }
        self.used += 1;
        Ok(self.used - 1)
    }

    /// Writes the record of a value that ends with the last one taken.
    fn finish(&mut self, start: usize, kind: u8, key: u16) {
        let span = (self.used - start) as u32;
        let record = &mut self.table[SIZE * start..SIZE * (start + 1)];
        record[..2].copy_from_slice(&[kind, 0]);
        record[2..4].copy_from_slice(&key.to_le_bytes());
        record[4..].copy_from_slice(&span.to_le_bytes());
    }

    fn scalar(
        &mut self,
        kind: u8,
        key: u16,
        depth: usize,
        pass: impl Fn(&mut Tokens) -> Result<(), Refusal>,
    ) -> Result<(), Refusal> {
        let start = self.start(depth)?;
        self.finish(start, kind, key);
        pass(&mut self.tokens)
    }

    fn container(&mut self, kind: u8, key: u16, depth: usize) -> Result<(), Refusal> {
        let start = self.start(depth)?;
        self.tokens.at += 1;
        self.tokens.skip_space();
        if kind == RECORD {
            self.fields(depth + 1)?;
        } else {
            self.elements(depth + 1)?;
        }
        self.finish(start, kind, key);
        Ok(())
    }

    fn fields(&mut self, depth: usize) -> Result<(), Refusal> {
        if self.tokens.peek() == b'}' {
            self.tokens.at += 1;
            return Ok(());
        }
        let seen = self.words * depth;
        self.seen[seen..seen + self.words].fill(0);
        let mut earlier = 0;
        loop {
            let key = self.key(seen, earlier)?;
            earlier += 1;
            self.tokens.skip_space();
            self.tokens.expect(b':')?;
            self.tokens.skip_space();
            self.value(key, depth)?;
            if self.ends(b'}')? {
                return Ok(());
            }
        }
    }

    fn elements(&mut self, depth: usize) -> Result<(), Refusal> {
        if self.tokens.peek() == b']' {
            self.tokens.at += 1;
            return Ok(());
        }
        loop {
            self.value(0, depth)?;
            if self.ends(b']')? {
                return Ok(());
            }
        }
    }

    /// Passes a comma, or the closing bracket.
    fn ends(&mut self, bracket: u8) -> Result<bool, Refusal> {
        self.tokens.skip_space();
        if self.tokens.peek() == bracket {
            self.tokens.at += 1;
            return Ok(true);
        }
        self.tokens.expect(b',')?;
        self.tokens.skip_space();
        Ok(false)
    }

    /// Passes a key that has so many before it in its record.
    fn key(&mut self, seen: usize, earlier: usize) -> Result<u16, Refusal> {
        let start = self.tokens.at + 1;
        if self.tokens.peek() != b'"' {
            return self.tokens.refuse(12);
        }
        let escaped = self.tokens.string()?;
        let end = self.tokens.at - 1;
        let number = match self.book.get(&self.tokens.text[start..end]) {
            Some(number) if !escaped => *number,
            _ => return Err((13, end)),
        };
        let bit = 1 << (number % 64);
        let word = &mut self.seen[seen + usize::from(number / 64)];
        if *word & bit != 0 {
            return Err((6, end));
        }
        if earlier == MAX_FIELDS {
            return Err((15, end));
        }
        *word |= bit;
        Ok(number)
    }
}

fn read_into(text: &[u8], book: &[u8], table: &mut [u8]) -> Result<usize, Refusal> {
    let bad_length = |length: usize, size: usize| length % size != 0 || length > LONGEST;
    if text.len() > LONGEST || bad_length(book.len(), MAX_KEY) || bad_length(table.len(), SIZE) {
        return Err((1, 0));
    }
    let book = numbers(book).ok_or((14, 0))?;
    let words = book.len() / 64 + 1;
    let mut reader = Reader {
        tokens: Tokens::new(text),
        book,
        table,
        used: 0,
        // A record at the greatest depth has its fields one deeper.
        seen: vec![0; words * (MAX_DEPTH + 2)],
        words,
    };
    reader.messages()
}

/// The number of value records, or a refusal number with its place.
pub fn read(text: &[u8], book: &[u8], table: &mut [u8]) -> Result<usize, (u64, usize)> {
    let answer = read_into(text, book, table);
    let used = answer.map_or(0, |records| SIZE * records);
    table[used..].fill(0);
    answer
}
