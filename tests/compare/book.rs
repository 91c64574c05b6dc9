//! Key books: 32-byte records of a key and zeros, with the keys in ascending order. A key's number is its place, from 1.

use crate::value::is_length;

pub const SIZE: usize = 32;

pub struct Book<'a>(Vec<&'a [u8]>);

impl<'a> Book<'a> {
    pub fn has_length(bytes: &[u8]) -> bool {
        is_length(bytes.len(), SIZE)
    }

    /// The book of some whole records, if it is a good one.
    pub fn read(bytes: &'a [u8]) -> Option<Book<'a>> {
        let keys: Option<Vec<&[u8]>> = bytes.chunks(SIZE).map(key).collect();
        let keys = keys?;
        // A slice that begins another is the smaller one, as a book asks for.
        let ascend = keys.windows(2).all(|two| two[0] < two[1]);
        ascend.then_some(Book(keys))
    }

    pub fn number(&self, key: &[u8]) -> Option<u16> {
        let place = self.0.iter().position(|other| *other == key);
        place.map(|place| 1 + place as u16)
    }
}

/// What stands before the first zero, if that is something and only zeros follow.
fn key(record: &[u8]) -> Option<&[u8]> {
    let end = record.iter().position(|byte| *byte == 0).unwrap_or(SIZE);
    let (key, rest) = record.split_at(end);
    (end > 0 && rest.iter().all(|byte| *byte == 0)).then_some(key)
}
