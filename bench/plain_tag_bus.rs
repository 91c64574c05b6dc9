//! Call 8, which change 6 asks for, in plain Rust: the plain inference with a word for the keys of a record, in the judge and in the maps.

use crate::arena::{clear_rest, Arena};
use crate::pair::LONGEST;
use crate::plain_inference::{union_of, write_union, Keys, Union, LENGTH};
use crate::validator::{header, Header, ARRAY, MAX_DEPTH, RECORD, SIZE};
use crate::{type_validator, validator};
use std::cmp::Ordering;

const LARGEST_KEY: u16 = 64;
const ENTRY: usize = 16;
const NO_ROOM: u64 = 11;

/// Key k is bit k - 1. The number of keys is kept: most comparisons look at it.
#[derive(Clone, Copy, Default, PartialEq, Eq)]
struct Word {
    keys: u64,
    fields: u32,
}

fn bit(key: u16) -> u64 {
    1 << (key - 1)
}

impl Keys for Word {
    fn of(keys: impl Iterator<Item = u16>) -> Self {
        let keys = keys.fold(0, |word, key| word | bit(key));
        Word {
            keys,
            fields: keys.count_ones(),
        }
    }
}

impl Ord for Word {
    /// Fewer keys come first. Among as many, the smallest key that one of them lacks decides: the other comes first.
    fn cmp(&self, other: &Word) -> Ordering {
        if self.keys == other.keys {
            return Ordering::Equal;
        }
        let smallest = (self.keys ^ other.keys).trailing_zeros();
        match self.fields.cmp(&other.fields) {
            Ordering::Equal if self.keys >> smallest & 1 == 1 => Ordering::Less,
            Ordering::Equal => Ordering::Greater,
            by_number => by_number,
        }
    }
}

impl PartialOrd for Word {
    fn partial_cmp(&self, other: &Word) -> Option<Ordering> {
        Some(self.cmp(other))
    }
}

/// A value whose content is being passed: where it ends and, if it is a record, the keys seen.
struct Open {
    end: usize,
    seen: Option<u64>,
}

/// The refusal number of record i. More than 64 fields have a larger key or a repeated one, so there is no 257th.
fn fault(record: &Header, i: usize, around: &Open, depth: usize) -> Option<u64> {
    let Header {
        kind,
        zero,
        key,
        span,
    } = *record;
    if !(1..=ARRAY).contains(&kind) || zero != 0 {
        return Some(3);
    }
    if span == 0 || i + span > around.end || (kind < RECORD && span > 1) {
        return Some(4);
    }
    match around.seen {
        Some(_) if key == 0 => Some(5),
        Some(_) if key > LARGEST_KEY => Some(17),
        Some(seen) if seen & bit(key) != 0 => Some(6),
        None if key != 0 => Some(5),
        _ => (depth > MAX_DEPTH).then_some(7),
    }
}

fn judge(table: &[u8]) -> Result<(), (u64, usize)> {
    let mut open = Vec::with_capacity(1 + MAX_DEPTH);
    let mut around = Open {
        end: table.len() / SIZE,
        seen: None,
    };
    for i in 0..around.end {
        while around.end == i {
            around = open.pop().expect("the table ends behind record i");
        }
        let record = header(table, i);
        if let Some(number) = fault(&record, i, &around, open.len() + 1) {
            return Err((number, i));
        }
        around.seen = around.seen.map(|seen| seen | bit(record.key));
        if record.span > 1 {
            let inside = Open {
                end: i + record.span,
                seen: (record.kind == RECORD).then_some(0),
            };
            open.push(std::mem::replace(&mut around, inside));
        }
    }
    Ok(())
}

/// Adds the words of a union's records in the order of the arena.
fn add_words(union: &Union<Word>, words: &mut Vec<Word>) {
    for (class, addend) in union {
        if class.kind == RECORD {
            words.push(class.keys);
        }
        for field in addend.fields.values() {
            add_words(&field.union, words);
        }
        add_words(&addend.elements, words);
    }
}

fn write_entries(words: &[Word], entries: &mut [u8]) {
    for (entry, word) in entries.chunks_exact_mut(ENTRY).zip(words) {
        entry[..8].copy_from_slice(&word.keys.to_le_bytes());
        entry[8..].copy_from_slice(&u64::from(word.fields).to_le_bytes());
    }
}

fn inferred(
    table: &[u8],
    arena: &mut [u8],
    work: usize,
    entries: &mut [u8],
) -> Result<(usize, usize), (u64, usize)> {
    let bad_table = validator::bad_length(table.len());
    let bad_arena = type_validator::bad_length(arena.len());
    let bad_entries = entries.len() % ENTRY != 0 || entries.len() > LONGEST;
    if bad_table || bad_arena || work != arena.len() || bad_entries {
        return Err((LENGTH, 0));
    }
    judge(table)?;
    let union = union_of(table, true);
    let mut words = Vec::new();
    add_words(&union, &mut words);
    if ENTRY * words.len() > entries.len() {
        return Err((NO_ROOM, 0));
    }
    let mut arena = Arena::new(arena);
    write_union(&union, &mut arena);
    let records = arena.records().map_err(|number| (number, 0))?;
    write_entries(&words, entries);
    Ok((records, words.len()))
}

/// The number of type records, or a refusal number with its place.
pub fn infer(
    table: &[u8],
    arena: &mut [u8],
    work: &mut [u8],
    entries: &mut [u8],
) -> Result<usize, (u64, usize)> {
    let answer = inferred(table, arena, work.len(), entries);
    let used = answer.map_or(0, |(_, words)| ENTRY * words);
    entries[used..].fill(0);
    let answer = answer.map(|(records, _)| records);
    clear_rest(arena, &answer);
    work.fill(0);
    answer
}
