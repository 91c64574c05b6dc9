//! The judge of removal's types, whose records have 16 bytes, in plain Rust.

use crate::pair::LONGEST;
use std::cmp::Ordering;

pub const RECORD: u8 = 5;
const ARRAY: u8 = 6;
const FIELD: u8 = 7;
pub const BARE: usize = 16;
const MAX_DEPTH: usize = 32;
const MAX_TOTAL: u64 = 1_000_000_000_000_000;

#[derive(Clone, Copy, PartialEq)]
enum Equivalence {
    Kind,
    Label,
}

pub struct BareHeader {
    pub kind: u8,
    zero: u8,
    pub key: u16,
    pub span: usize,
    pub count: u64,
}

pub fn bare_header(run: &[u8]) -> BareHeader {
    let b: &[u8; BARE] = run[..BARE].try_into().unwrap();
    BareHeader {
        kind: b[0],
        zero: b[1],
        key: u16::from_le_bytes([b[2], b[3]]),
        span: u32::from_le_bytes([b[4], b[5], b[6], b[7]]) as usize,
        count: u64::from_le_bytes([b[8], b[9], b[10], b[11], b[12], b[13], b[14], b[15]]),
    }
}

/// The first record of a run, what stands inside it, and the rest of the run.
fn split(run: &[u8]) -> Option<(BareHeader, &[u8], &[u8])> {
    let first = bare_header(run);
    let end = BARE * first.span;
    if first.zero != 0 || first.span == 0 || end > run.len() || first.count == 0 {
        return None;
    }
    Some((first, &run[BARE..end], &run[end..]))
}

/// The keys of fields that have been checked.
fn keys(mut fields: &[u8]) -> impl Iterator<Item = u16> + '_ {
    std::iter::from_fn(move || {
        if fields.is_empty() {
            return None;
        }
        let BareHeader { key, span, .. } = bare_header(fields);
        fields = &fields[BARE * span..];
        Some(key)
    })
}

/// The order of two records by their key lists: shorter lists first, lists of one length by the first key that differs. One pass of both is
/// faster than counting the keys first.
#[inline]
pub fn order_of_lists(x: &[u8], y: &[u8]) -> Ordering {
    let (mut xs, mut ys) = (keys(x), keys(y));
    let mut first_difference = Ordering::Equal;
    loop {
        match (xs.next(), ys.next()) {
            (Some(x), Some(y)) => first_difference = first_difference.then(x.cmp(&y)),
            (None, None) => return first_difference,
            (None, _) => return Ordering::Less,
            (_, None) => return Ordering::Greater,
        }
    }
}

/// The total of a union, if it is well formed.
fn union_total(mut run: &[u8], depth: usize, equivalence: Equivalence) -> Option<u64> {
    let mut total = 0;
    let mut last: Option<(u8, &[u8])> = None;
    while !run.is_empty() {
        let (addend, inner, rest) = split(run)?;
        if addend.key != 0 || depth > MAX_DEPTH {
            return None;
        }
        match addend.kind {
            1..=4 if inner.is_empty() => {}
            RECORD => fields(inner, addend.count, depth, equivalence)?,
            ARRAY => {
                union_total(inner, depth + 1, equivalence)?;
            }
            _ => return None,
        }
        if let Some((kind, content)) = last {
            let ascends = match kind.cmp(&addend.kind) {
                Ordering::Less => true,
                Ordering::Equal => {
                    kind == RECORD
                        && equivalence == Equivalence::Label
                        && order_of_lists(content, inner).is_lt()
                }
                Ordering::Greater => false,
            };
            if !ascends {
                return None;
            }
        }
        if addend.count > MAX_TOTAL - total {
            return None;
        }
        total += addend.count;
        last = Some((addend.kind, inner));
        run = rest;
    }
    Some(total)
}

/// The fields of a record with this count.
fn fields(mut run: &[u8], of_record: u64, depth: usize, equivalence: Equivalence) -> Option<()> {
    let mut last = 0;
    while !run.is_empty() {
        let (field, inner, rest) = split(run)?;
        if field.kind != FIELD || field.key <= last || inner.is_empty() {
            return None;
        }
        let agrees = match equivalence {
            Equivalence::Kind => field.count <= of_record,
            Equivalence::Label => field.count == of_record,
        };
        if !agrees || union_total(inner, depth + 1, equivalence)? != field.count {
            return None;
        }
        last = field.key;
        run = rest;
    }
    Some(())
}

pub fn bad_bare_length(n: usize) -> bool {
    n % BARE != 0 || n > LONGEST
}

/// The number of type records, or a refusal number.
pub fn validate_bare(bytes: &[u8], equivalence: u64) -> Result<usize, u64> {
    if bad_bare_length(bytes.len()) {
        return Err(1);
    }
    let equivalence = match equivalence {
        0 => Equivalence::Kind,
        1 => Equivalence::Label,
        _ => return Err(2),
    };
    match union_total(bytes, 1, equivalence) {
        Some(_) => Ok(bytes.len() / BARE),
        None => Err(8),
    }
}
