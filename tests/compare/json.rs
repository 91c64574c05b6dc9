//! JSON text, read to a value table by recursive descent: what call 6 must answer, by its inputs.

use crate::book::Book;
use crate::tokens::Tokens;
use crate::value::{
    self, is_length, Fault, Value, ARRAY, DEEPEST, LONGEST, MOST_FIELDS, RECORD, STRING,
};

const NULL: u8 = 1;
const BOOLEAN: u8 = 2;
const NUMBER: u8 = 3;

/// The answer, and every byte of the table.
#[derive(PartialEq)]
pub struct Read {
    pub number: u64,
    pub place: u64,
    pub count: u64,
    pub table: Vec<u8>,
}

/// `length` is that of the table.
pub fn read(text: &[u8], book: &[u8], length: usize) -> Read {
    let messages = messages(text, book, length);
    let (number, place) = *messages.as_ref().err().unwrap_or(&(0, 0));
    let mut table = value::write(&messages.unwrap_or_default());
    let count = (table.len() / value::SIZE) as u64;
    table.resize(length, 0);
    Read {
        number,
        place,
        count,
        table,
    }
}

fn messages(text: &[u8], book: &[u8], length: usize) -> Result<Vec<Value>, Fault> {
    let table = is_length(length, value::SIZE);
    if text.len() > LONGEST || !Book::has_length(book) || !table {
        return Err((1, 0));
    }
    let mut reader = Reader {
        book: Book::read(book).ok_or((14, 0))?,
        tokens: Tokens::new(text),
        room: length / value::SIZE,
    };
    reader.messages()
}

/// `room` is how many more values the table holds.
struct Reader<'a> {
    book: Book<'a>,
    tokens: Tokens<'a>,
    room: usize,
}

impl Reader<'_> {
    fn messages(&mut self) -> Result<Vec<Value>, Fault> {
        let mut messages = Vec::new();
        self.tokens.spaces();
        while self.tokens.peek().is_some() {
            messages.push(self.value(0, 1)?);
            self.tokens.some_space()?;
        }
        Ok(messages)
    }

    fn value(&mut self, key: u16, depth: usize) -> Result<Value, Fault> {
        let kind = self.kind().ok_or(self.tokens.unexpected())?;
        if depth > DEEPEST {
            return Err(self.tokens.refuse(7));
        }
        if self.room == 0 {
            return Err(self.tokens.refuse(11));
        }
        self.room -= 1;
        let inner = self.content(kind, depth)?;
        Ok(Value { kind, key, inner })
    }

    /// The kind of a value by its first byte, if one can start so.
    fn kind(&self) -> Option<u8> {
        match self.tokens.peek()? {
            b'n' => Some(NULL),
            b't' | b'f' => Some(BOOLEAN),
            b'-' | b'0'..=b'9' => Some(NUMBER),
            b'"' => Some(STRING),
            b'{' => Some(RECORD),
            b'[' => Some(ARRAY),
            _ => None,
        }
    }

    /// Passes a value of this kind and gives its fields or elements.
    fn content(&mut self, kind: u8, depth: usize) -> Result<Vec<Value>, Fault> {
        match kind {
            RECORD => return self.fields(depth + 1),
            ARRAY => return self.elements(depth + 1),
            STRING => drop(self.tokens.string()?),
            NUMBER => self.tokens.number()?,
            NULL => self.tokens.literal("null")?,
            _ if self.tokens.peek() == Some(b't') => self.tokens.literal("true")?,
            _ => self.tokens.literal("false")?,
        }
        Ok(Vec::new())
    }

    fn fields(&mut self, depth: usize) -> Result<Vec<Value>, Fault> {
        let mut fields = Vec::new();
        if self.opens(b'{', b'}')? {
            return Ok(fields);
        }
        loop {
            let key = self.key(&fields)?;
            self.tokens.spaces();
            self.tokens.byte(b':')?;
            self.tokens.spaces();
            fields.push(self.value(key, depth)?);
            if self.ends(b'}')? {
                return Ok(fields);
            }
        }
    }

    fn elements(&mut self, depth: usize) -> Result<Vec<Value>, Fault> {
        let mut elements = Vec::new();
        if self.opens(b'[', b']')? {
            return Ok(elements);
        }
        loop {
            elements.push(self.value(0, depth)?);
            if self.ends(b']')? {
                return Ok(elements);
            }
        }
    }

    /// Passes an opening bracket; says whether the closing one follows.
    fn opens(&mut self, opening: u8, closing: u8) -> Result<bool, Fault> {
        self.tokens.byte(opening)?;
        self.tokens.spaces();
        Ok(self.tokens.accept(|byte| byte == closing))
    }

    /// Passes what follows a field or an element, a comma or the closing bracket; says whether it was the bracket.
    fn ends(&mut self, closing: u8) -> Result<bool, Fault> {
        self.tokens.spaces();
        if self.tokens.accept(|byte| byte == closing) {
            return Ok(true);
        }
        self.tokens.byte(b',')?;
        self.tokens.spaces();
        Ok(false)
    }

    /// A key of the book that none of the fields before has, of which there may be one more.
    fn key(&mut self, before: &[Value]) -> Result<u16, Fault> {
        let spelled = self.tokens.string()?;
        let number = match self.book.number(spelled.bytes) {
            Some(number) if !spelled.escaped => number,
            _ => return Err((13, spelled.end)),
        };
        if before.iter().any(|field| field.key == number) {
            return Err((6, spelled.end));
        }
        if before.len() == MOST_FIELDS {
            return Err((15, spelled.end));
        }
        Ok(number)
    }
}
