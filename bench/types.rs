//! Types for the workloads. But for full arrays and elements their counts are 1, so that most of them are well formed under both
//! equivalences.

use crate::bare_validator::BARE;
use crate::front::front;
use crate::type_validator::{Lengths, ARRAY, FIELD, MAX_ELEMENTS, MAX_TOTAL, RECORD, SIZE};
use crate::validator::MAX_FIELDS;

const NULL: u8 = 1;

fn row(kind: u8, key: u16, count: u64, lengths: Lengths, inner: &[u8]) -> Vec<u8> {
    let mut bytes = vec![kind, 0];
    bytes.extend(key.to_le_bytes());
    bytes.extend((1 + (inner.len() / SIZE) as u32).to_le_bytes());
    bytes.extend(count.to_le_bytes());
    bytes.extend(lengths.shortest.to_le_bytes());
    bytes.extend(lengths.longest.to_le_bytes());
    bytes.extend(inner);
    bytes
}

fn counted(kind: u8, key: u16, count: u64, inner: &[u8]) -> Vec<u8> {
    row(kind, key, count, Lengths::default(), inner)
}

fn null() -> Vec<u8> {
    counted(NULL, 0, 1, &[])
}

fn field(key: u16, union: &[u8]) -> Vec<u8> {
    counted(FIELD, key, 1, union)
}

fn record(fields: &[Vec<u8>]) -> Vec<u8> {
    counted(RECORD, 0, 1, &fields.concat())
}

/// The total of a union.
pub fn total(mut union: &[u8]) -> u64 {
    let mut total = 0;
    while !union.is_empty() {
        let addend = front(union);
        total += addend.header.count;
        union = addend.rest;
    }
    total
}

/// One array, whose length is the total of its content.
pub fn array(union: &[u8]) -> Vec<u8> {
    row(ARRAY, 0, 1, Lengths::of_one(total(union) as u32), union)
}

/// Removal's type of the same counts, whose records end before the lengths.
pub fn bared(bytes: &[u8]) -> Vec<u8> {
    let records = bytes.chunks(SIZE);
    records
        .flat_map(|record| &record[..BARE])
        .copied()
        .collect()
}

/// A record with an array of nulls and of an empty array at each key, of which there are none to nine; `step` says how that changes from
/// key to key.
pub fn arrays(keys: impl IntoIterator<Item = u16>, step: u16) -> Vec<u8> {
    let content = |key| match u64::from(step * key % 10) {
        0 => Vec::new(),
        1 => array(&[]),
        n => [counted(NULL, 0, n - 1, &[]), array(&[])].concat(),
    };
    let with = |key| field(key, &array(&content(key)));
    let fields: Vec<_> = keys.into_iter().map(with).collect();
    record(&fields)
}

/// A record with a null at each key.
pub fn with_keys(keys: impl IntoIterator<Item = u16>) -> Vec<u8> {
    let fields: Vec<_> = keys.into_iter().map(|key| field(key, &null())).collect();
    record(&fields)
}

/// One record with these fields.
pub fn fields(keys: impl IntoIterator<Item = u16>) -> Vec<u8> {
    [null(), with_keys(keys)].concat()
}

/// A record with one field for each key.
pub fn records(keys: impl IntoIterator<Item = u16>) -> Vec<u8> {
    let addends: Vec<_> = keys.into_iter().map(|key| with_keys([key])).collect();
    [null(), addends.concat()].concat()
}

/// For each key a record with nine keys, of which the first eight are 1 to 8 and the ninth is 8 more than that key.
pub fn lists(keys: impl IntoIterator<Item = u16>) -> Vec<u8> {
    let list = |key| with_keys((1..=8).chain([8 + key]));
    keys.into_iter().flat_map(list).collect()
}

/// For each key a record of one to sixteen keys, of which it is the first. Two neighbours have as many.
pub fn mixed(keys: impl IntoIterator<Item = u16>) -> Vec<u8> {
    let length = |first: &u16| 1 + (first - 1) / 2 % 16;
    let mut firsts: Vec<u16> = keys.into_iter().collect();
    firsts.sort_by_key(|first| (length(first), *first));
    let list = |first| with_keys(first..first + length(&first));
    firsts.into_iter().flat_map(list).collect()
}

/// A field for each key, with arrays and records below it in turn, to depth 32.
pub fn deep(keys: impl IntoIterator<Item = u16>) -> Vec<u8> {
    let chain = (2..=32).rev().fold(Vec::new(), |inner, depth| {
        if depth % 2 == 0 {
            array(&inner)
        } else {
            record(&[field(1, &inner)])
        }
    });
    let fields: Vec<_> = keys.into_iter().map(|key| field(key, &chain)).collect();
    record(&fields)
}

/// At most eight records with many keys in common: of 1 to f each lacks one.
pub fn lacking_one(f: u16) -> Vec<u8> {
    let lacking = |missing| with_keys((1..=f).filter(move |key| *key != missing));
    (1..=f.min(8)).rev().flat_map(lacking).collect()
}

/// Arrays in arrays to a depth, with records of three key lists in each.
fn arrays_of_records(depth: usize) -> Vec<u8> {
    if depth == 0 {
        return array(&null());
    }
    let inner = || field(1, &arrays_of_records(depth - 1));
    let with = |key| record(&[inner(), field(key, &null())]);
    array(&[record(&[inner()]), with(2), with(3)].concat())
}

/// A field with such arrays for each key.
pub fn nested_records(keys: impl IntoIterator<Item = u16>) -> Vec<u8> {
    let arrays = arrays_of_records(2);
    let fields: Vec<_> = keys.into_iter().map(|key| field(key, &arrays)).collect();
    record(&fields)
}

/// Of the keys 1 to 2 m, records with the first and the last, the second and the last but one, and so on. In the folded record each field
/// stands in the middle of those before it.
pub fn outside_in(m: u16) -> Vec<u8> {
    let pair = |i| with_keys([i, 2 * m + 1 - i]);
    (1..=m).flat_map(pair).collect()
}

/// Records with a record of b fields at one key, so many of them. In the folded type its fields stand before all that came earlier.
pub fn descending(blocks: u16, b: u16) -> Vec<u8> {
    let block = |j| {
        let first = 1 + b * (blocks - j);
        let inner = field(1, &with_keys(first..first + b));
        record(&[inner, field(1 + j, &null())])
    };
    (1..=blocks).flat_map(block).collect()
}

/// Records with keys from 1 to f, at most as many as one of a table may have. In the folded type all but the first key stand before the
/// last one of the first record.
pub fn before_last(f: u16) -> Vec<u8> {
    let keys: Vec<u16> = (2..=f).collect();
    // Cut from the end: the list that is shorter has the smallest keys.
    let others = keys.rchunks(MAX_FIELDS).rev().map(<[u16]>::to_vec);
    let mut lists: Vec<_> = std::iter::once(vec![1, u16::MAX]).chain(others).collect();
    lists.sort_by_key(Vec::len);
    lists.into_iter().flat_map(with_keys).collect()
}

/// For each key records with that key and with the longest arrays, which have as many nulls as a union may have, at one key.
pub fn full_arrays(keys: impl IntoIterator<Item = u16>) -> Vec<u8> {
    let count = MAX_TOTAL / u64::from(MAX_ELEMENTS);
    let nulls = counted(NULL, 0, MAX_TOTAL, &[]);
    let arrays = row(ARRAY, 0, count, Lengths::of_one(MAX_ELEMENTS), &nulls);
    let full = counted(FIELD, 1, count, &arrays);
    let with = |key| {
        let other = counted(FIELD, 1 + key, count, &counted(NULL, 0, count, &[]));
        counted(RECORD, 0, count, &[&full[..], &other].concat())
    };
    keys.into_iter().flat_map(with).collect()
}
