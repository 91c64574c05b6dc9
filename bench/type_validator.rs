//! Call 4 of document 01 in plain Rust: what the proved judge of types is measured against.

use crate::pair::ROOM;
use std::cmp::Ordering;

pub const RECORD: u8 = 5;
pub const ARRAY: u8 = 6;
pub const FIELD: u8 = 7;
pub const SIZE: usize = 24;
const MAX_DEPTH: usize = 32;
pub const MAX_TOTAL: u64 = 1_000_000_000_000_000;
pub const MAX_ELEMENTS: u32 = 8_192;

#[derive(Clone, Copy, PartialEq)]
enum Equivalence {
    Kind,
    Label,
}

/// Of the arrays at a place; zero in records of other kinds.
#[derive(Clone, Copy, Default, PartialEq)]
pub struct Lengths {
    pub shortest: u32,
    pub longest: u32,
}

impl Lengths {
    pub fn of_one(elements: u32) -> Lengths {
        Lengths {
            shortest: elements,
            longest: elements,
        }
    }

    pub fn join(self, other: Lengths) -> Lengths {
        Lengths {
            shortest: self.shortest.min(other.shortest),
            longest: self.longest.max(other.longest),
        }
    }

    /// Whether so many arrays can have these elements in all. The products fit once the lengths are known to be small.
    fn allowed(self, arrays: u64, elements: u64) -> bool {
        if self.shortest > self.longest || self.longest > MAX_ELEMENTS || arrays > MAX_TOTAL {
            return false;
        }
        let (shortest, longest) = (u64::from(self.shortest), u64::from(self.longest));
        let others = arrays - 1;
        longest + others * shortest <= elements && elements <= shortest + others * longest
    }
}

pub struct Header {
    pub kind: u8,
    zero: u8,
    pub key: u16,
    pub span: usize,
    pub count: u64,
    pub lengths: Lengths,
}

pub fn header(run: &[u8]) -> Header {
    let b: &[u8; SIZE] = run[..SIZE].try_into().unwrap();
    Header {
        kind: b[0],
        zero: b[1],
        key: u16::from_le_bytes([b[2], b[3]]),
        span: u32::from_le_bytes([b[4], b[5], b[6], b[7]]) as usize,
        count: u64::from_le_bytes([b[8], b[9], b[10], b[11], b[12], b[13], b[14], b[15]]),
        lengths: Lengths {
            shortest: u32::from_le_bytes([b[16], b[17], b[18], b[19]]),
            longest: u32::from_le_bytes([b[20], b[21], b[22], b[23]]),
        },
    }
}

/// The first record of a run, what stands inside it, and the rest of the run.
fn split(run: &[u8]) -> Option<(Header, &[u8], &[u8])> {
    let first = header(run);
    let end = SIZE * first.span;
    if first.zero != 0 || first.span == 0 || end > run.len() || first.count == 0 {
        return None;
    }
    if first.kind != ARRAY && first.lengths != Lengths::default() {
        return None;
    }
    Some((first, &run[SIZE..end], &run[end..]))
}

/// The keys of fields that have been checked.
fn keys(mut fields: &[u8]) -> impl Iterator<Item = u16> + '_ {
    std::iter::from_fn(move || {
        if fields.is_empty() {
            return None;
        }
        let Header { key, span, .. } = header(fields);
        fields = &fields[SIZE * span..];
        Some(key)
    })
}

/// The order of two records by their key lists: shorter lists first, lists of one length by the first key that differs. One pass of both is
/// faster than counting the keys first.
#[inline]
pub fn order_of_lists(x: &[u8], y: &[u8]) -> Ordering {
    let (mut xs, mut ys) = (keys(x), keys(y));
    let mut first_difference = Ordering::Equal;
    loop {
        match (xs.next(), ys.next()) {
            (Some(x), Some(y)) => first_difference = first_difference.then(x.cmp(&y)),
            (None, None) => return first_difference,
            (None, _) => return Ordering::Less,
            (_, None) => return Ordering::Greater,
        }
    }
}

/// Whether an addend may follow another, each with its kind and what stands inside it.
#[inline]
fn ascend(x: (u8, &[u8]), y: (u8, &[u8]), equivalence: Equivalence) -> bool {
    match x.0.cmp(&y.0) {
        Ordering::Less => true,
        Ordering::Equal => {
            x.0 == RECORD && equivalence == Equivalence::Label && order_of_lists(x.1, y.1).is_lt()
        }
        Ordering::Greater => false,
    }
}

/// The total of a union, if it is well formed.
fn union_total(mut run: &[u8], depth: usize, equivalence: Equivalence) -> Option<u64> {
    let mut total = 0;
    let mut last: Option<(u8, &[u8])> = None;
    while !run.is_empty() {
        let (addend, inner, rest) = split(run)?;
        if addend.key != 0 || depth > MAX_DEPTH {
            return None;
        }
        match addend.kind {
            1..=4 if inner.is_empty() => {}
            RECORD => fields(inner, addend.count, depth, equivalence)?,
            ARRAY => {
                let elements = union_total(inner, depth + 1, equivalence)?;
                if !addend.lengths.allowed(addend.count, elements) {
                    return None;
                }
            }
            _ => return None,
        }
        if last.is_some_and(|last| !ascend(last, (addend.kind, inner), equivalence)) {
            return None;
        }
        if addend.count > MAX_TOTAL - total {
            return None;
        }
        total += addend.count;
        last = Some((addend.kind, inner));
        run = rest;
    }
    Some(total)
}

/// The fields of a record with this count.
fn fields(mut run: &[u8], of_record: u64, depth: usize, equivalence: Equivalence) -> Option<()> {
    let mut last = 0;
    while !run.is_empty() {
        let (field, inner, rest) = split(run)?;
        if field.kind != FIELD || field.key <= last || inner.is_empty() {
            return None;
        }
        let agrees = match equivalence {
            Equivalence::Kind => field.count <= of_record,
            Equivalence::Label => field.count == of_record,
        };
        if !agrees || union_total(inner, depth + 1, equivalence)? != field.count {
            return None;
        }
        last = field.key;
        run = rest;
    }
    Some(())
}

pub fn bad_length(n: usize) -> bool {
    n % SIZE != 0 || n > ROOM
}

/// The number of type records, or a refusal number.
pub fn validate(bytes: &[u8], equivalence: u64) -> Result<usize, u64> {
    if bad_length(bytes.len()) {
        return Err(1);
    }
    let equivalence = match equivalence {
        0 => Equivalence::Kind,
        1 => Equivalence::Label,
        _ => return Err(2),
    };
    match union_total(bytes, 1, equivalence) {
        Some(_) => Ok(bytes.len() / SIZE),
        None => Err(8),
    }
}
