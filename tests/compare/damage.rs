//! Damages the bytes of tables and types, which have kind, zero, key and span in one layout, and types their count too.

use crate::lengths::MOST_ELEMENTS;
use crate::profile::LIMIT;
use crate::random::Random;
use crate::types;
use crate::value::{self, ARRAY};

/// Bytes of records of this size, with one to three changes.
pub fn damaged(bytes: &[u8], size: usize, random: &mut Random) -> Vec<u8> {
    let mut bytes = bytes.to_vec();
    for _ in 0..random.pick(&[1, 1, 1, 2, 3]) {
        damage(&mut bytes, size, random);
    }
    bytes
}

fn damage(bytes: &mut Vec<u8>, size: usize, random: &mut Random) {
    let records = bytes.len() / size;
    if records == 0 {
        let length = random.pick(&[1, 5, size, size + 1]);
        *bytes = random.bytes(length);
        return;
    }
    let at = size * random.below(records);
    match random.below(12) {
        0 => bytes.truncate(random.pick(&[at, at + size / 2, at + size - 1])),
        1 => bytes.resize(bytes.len() + random.pick(&[1, size, 3 * size]), 0),
        2 => bytes[at] = random.below(9) as u8,
        3 => bytes[at + random.below(size)] = random.next() as u8,
        4 => bytes[at + 1] = random.below(2) as u8,
        5 => change_key(bytes, at, size, random),
        6 => change_span(bytes, at, random),
        7 => swap_siblings(bytes, at, size),
        8 => repeat_or_drop(bytes, at, size, random),
        9 if size > value::SIZE => change_count(bytes, at, random),
        10 if size == types::SIZE => change_lengths(bytes, at, random),
        11 if size == types::SIZE => {
            let at = some_array(bytes, random).unwrap_or(at);
            change_lengths(bytes, at, random);
        }
        _ => change_key(bytes, at, size, random),
    }
}

/// Where a record of an array stands in a type, if it has any.
fn some_array(bytes: &[u8], random: &mut Random) -> Option<usize> {
    let starts = (0..bytes.len() / types::SIZE).map(|record| types::SIZE * record);
    let arrays: Vec<usize> = starts.filter(|at| bytes[*at] == ARRAY).collect();
    (!arrays.is_empty()).then(|| random.pick(&arrays))
}

/// Changes one length by one or to a number at a border, swaps the two, or makes them equal.
fn change_lengths(bytes: &mut [u8], at: usize, random: &mut Random) {
    let [mut one, other] = [at + 16, at + 20];
    match random.below(6) {
        0 => return bytes[one..other + 4].rotate_left(4),
        1 => return bytes.copy_within(one..other, other),
        turn if turn % 2 == 0 => one = other,
        _ => {}
    }
    let length = u32::from_le_bytes(bytes[one..one + 4].try_into().unwrap());
    let most = MOST_ELEMENTS as u32;
    let choices = [
        length.wrapping_add(1),
        length.wrapping_sub(1),
        length.wrapping_add(1 << (8 * random.below(4))),
        0,
        most,
        most + 1,
        u32::MAX,
    ];
    bytes[one..one + 4].copy_from_slice(&random.pick(&choices).to_le_bytes());
}

/// Clears the key, or takes one from the record before or behind.
fn change_key(bytes: &mut [u8], at: usize, size: usize, random: &mut Random) {
    let from = match random.below(3) {
        0 => at.saturating_sub(size),
        1 => (at + size).min(bytes.len() - size),
        _ => {
            bytes[at + 2..at + 4].fill(0);
            return;
        }
    };
    bytes.copy_within(from + 2..from + 4, at + 2);
}

fn span(bytes: &[u8], at: usize) -> u32 {
    u32::from_le_bytes(bytes[at + 4..at + 8].try_into().unwrap())
}

fn change_span(bytes: &mut [u8], at: usize, random: &mut Random) {
    let span = span(bytes, at);
    let choices = [
        span.wrapping_add(1),
        span.wrapping_sub(1),
        0,
        u32::MAX,
        1 << 31,
    ];
    bytes[at + 4..at + 8].copy_from_slice(&random.pick(&choices).to_le_bytes());
}

/// Swaps a record and what is inside it with the one that follows.
fn swap_siblings(bytes: &mut [u8], at: usize, size: usize) {
    let middle = at + size * span(bytes, at) as usize;
    if middle + size > bytes.len() {
        return;
    }
    let end = middle + size * span(bytes, middle) as usize;
    if end <= bytes.len() {
        bytes[at..end].rotate_left(middle - at);
    }
}

fn repeat_or_drop(bytes: &mut Vec<u8>, at: usize, size: usize, random: &mut Random) {
    if random.one_in(2) {
        bytes.extend_from_within(at..at + size);
    } else {
        bytes.drain(at..at + size);
    }
}

fn change_count(bytes: &mut [u8], at: usize, random: &mut Random) {
    let count = u64::from_le_bytes(bytes[at + 8..at + 16].try_into().unwrap());
    let choices = [
        count.wrapping_add(1),
        count.wrapping_sub(1),
        0,
        LIMIT,
        LIMIT + 1,
        u64::MAX,
        1 << 63,
    ];
    let choice = random.pick(&choices);
    bytes[at + 8..at + 16].copy_from_slice(&choice.to_le_bytes());
}
