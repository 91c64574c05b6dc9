//! The bytes of a type, written from a profile, and those of removal's types, which have counts alone. `type_reader.rs` reads them back.

use crate::lengths::Lengths;
use crate::profile::{Counts, Place, Profile, Step};
use crate::value::{LONGEST, RECORD};

/// The size of a type record, and the length of the largest arena.
pub const SIZE: usize = 24;
pub const LARGEST: usize = LONGEST / SIZE * SIZE;

/// The size of a record of removal's types, which ends before the lengths. Their largest arena has `LONGEST` bytes.
pub const BARE: usize = 16;

pub const ENTRY: usize = 16;
pub const FIELD: u8 = 7;

pub fn write(profile: &Profile) -> Vec<u8> {
    let mut bytes = Vec::with_capacity(SIZE * profile.len());
    for (place, head) in heads(&profile.counts) {
        let lengths = profile.lengths.get(place).unwrap_or(&Lengths::NONE);
        bytes.extend(head);
        bytes.extend(lengths.bytes());
    }
    bytes
}

/// The bytes of a type for removal.
pub fn write_bare(counts: &Counts) -> Vec<u8> {
    heads(counts).flat_map(|(_, head)| head).collect()
}

/// Some whole type records without their lengths.
pub fn bared(bytes: &[u8]) -> Vec<u8> {
    let records = bytes.chunks(SIZE);
    records
        .flat_map(|record| &record[..BARE])
        .copied()
        .collect()
}

/// The records of a type up to their lengths, each with its place.
fn heads(counts: &Counts) -> impl Iterator<Item = (&Place, [u8; BARE])> {
    let places: Vec<&Place> = counts.keys().collect();
    counts.iter().enumerate().map(move |(i, (place, count))| {
        let inside = |other: &&&Place| other.starts_with(place);
        let span = places[i..].iter().take_while(inside).count() as u32;
        (place, head(place, span, *count))
    })
}

fn head(place: &Place, span: u32, count: u64) -> [u8; BARE] {
    let (kind, key) = match place.last() {
        Some(Step::Class(kind, _)) => (*kind, 0),
        Some(Step::Key(key)) => (FIELD, *key),
        _ => unreachable!("no count is at an element step or at no place"),
    };
    let mut head = [0; BARE];
    head[0] = kind;
    head[2..4].copy_from_slice(&key.to_le_bytes());
    head[4..8].copy_from_slice(&span.to_le_bytes());
    head[8..].copy_from_slice(&count.to_le_bytes());
    head
}

/// The entries of a type under label: of each record the word of its keys, key k at bit k - 1, and their number.
pub fn entries(profile: &Profile) -> Vec<u8> {
    let mut bytes = Vec::new();
    for keys in key_lists(profile) {
        let word: u64 = keys.iter().map(|key| 1 << (key - 1)).sum();
        bytes.extend(word.to_le_bytes());
        bytes.extend((keys.len() as u64).to_le_bytes());
    }
    bytes
}

/// The keys of each record of a type under label.
pub fn key_lists(profile: &Profile) -> impl Iterator<Item = &[u16]> {
    let places = profile.counts.keys();
    places.filter_map(|place| match place.last() {
        Some(Step::Class(RECORD, keys)) => Some(keys.list()),
        _ => None,
    })
}
