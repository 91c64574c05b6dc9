//! Call 1 of document 01 in plain Rust: what the proved judge is measured against.

use crate::pair::LONGEST;

pub const RECORD: u8 = 5;
pub const ARRAY: u8 = 6;
pub const SIZE: usize = 8;
pub const MAX_DEPTH: usize = 32;
pub const MAX_FIELDS: usize = 256;

pub struct Header {
    pub kind: u8,
    pub zero: u8,
    pub key: u16,
    pub span: usize,
}

pub fn header(table: &[u8], i: usize) -> Header {
    let b: &[u8; SIZE] = table[SIZE * i..SIZE * (i + 1)].try_into().unwrap();
    Header {
        kind: b[0],
        zero: b[1],
        key: u16::from_le_bytes([b[2], b[3]]),
        span: u32::from_le_bytes([b[4], b[5], b[6], b[7]]) as usize,
    }
}

/// A value whose content is being passed.
struct Open {
    end: usize,
    first_field: Option<usize>,
}

/// The number of fields before record i, the first of which is `first`, if none of them has this key.
fn fields_before(table: &[u8], key: u16, first: usize, i: usize) -> Option<usize> {
    let mut fields = 0;
    let mut p = first;
    while p < i {
        let earlier = header(table, p);
        if earlier.key == key {
            return None;
        }
        fields += 1;
        p += earlier.span;
    }
    Some(fields)
}

pub fn bad_length(n: usize) -> bool {
    n % SIZE != 0 || n > LONGEST
}

/// The refusal number of record i, whose parent ends at `end` and, if it is a record, has its first field at `first_field`.
fn fault(
    table: &[u8],
    i: usize,
    end: usize,
    first_field: Option<usize>,
    depth: usize,
) -> Option<u64> {
    let Header {
        kind,
        zero,
        key,
        span,
    } = header(table, i);
    if !(1..=ARRAY).contains(&kind) || zero != 0 {
        return Some(3);
    }
    if span == 0 || i + span > end || (kind < RECORD && span > 1) {
        return Some(4);
    }
    if (key != 0) != first_field.is_some() {
        return Some(5);
    }
    if let Some(first) = first_field {
        match fields_before(table, key, first, i) {
            None => return Some(6),
            Some(MAX_FIELDS) => return Some(15),
            Some(_) => {}
        }
    }
    (depth > MAX_DEPTH).then_some(7)
}

/// The number of messages, or a refusal number with its place.
pub fn validate(table: &[u8]) -> Result<usize, (u64, usize)> {
    if bad_length(table.len()) {
        return Err((1, 0));
    }
    let n = table.len() / SIZE;
    let mut open: Vec<Open> = Vec::with_capacity(MAX_DEPTH);
    let mut messages = 0;
    for i in 0..n {
        while open.last().is_some_and(|o| o.end == i) {
            open.pop();
        }
        let (end, first_field) = open.last().map_or((n, None), |o| (o.end, o.first_field));
        if let Some(number) = fault(table, i, end, first_field, open.len() + 1) {
            return Err((number, i));
        }
        if open.is_empty() {
            messages += 1;
        }
        let Header { kind, span, .. } = header(table, i);
        if span > 1 {
            let first_field = (kind == RECORD).then_some(i + 1);
            open.push(Open {
                end: i + span,
                first_field,
            });
        }
    }
    Ok(messages)
}
