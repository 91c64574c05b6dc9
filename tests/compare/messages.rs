//! Random messages, as trees of values.

use crate::arrays::with_arrays;
use crate::random::Random;
use crate::value::{write, Value, ARRAY, DEEPEST, MOST_FIELDS, RECORD, SIZE, STRING};

/// What the messages and types of a case have in common, so that places meet.
pub struct Shape {
    /// The keys that records take theirs from.
    pub keys: Vec<u16>,
    /// The most fields of a record.
    pub fields: usize,
    /// The most levels of a value.
    pub deepest: usize,
    /// How many records to make, or some more.
    pub records: usize,
}

impl Shape {
    /// Most shapes are small, a few fill a table or more.
    pub fn random(random: &mut Random) -> Shape {
        let (keys, fields, records) = match random.below(2000) {
            0 => wide_keys(random),
            1..=4 => (small_keys(random), 6, random.below(9_000)),
            5..=80 => (small_keys(random), 6, random.below(300)),
            _ => (small_keys(random), 4, random.below(24)),
        };
        Shape {
            keys,
            fields,
            deepest: random.pick(&[1, 2, 3, 4, 6, 12]),
            records,
        }
    }

    /// Some of the keys, in any order.
    pub fn some_keys(&self, random: &mut Random) -> Vec<u16> {
        let mut keys = self.keys.clone();
        random.shuffle(&mut keys);
        keys.truncate(random.below(self.fields.min(keys.len()) + 1));
        keys
    }
}

fn small_keys(random: &mut Random) -> Vec<u16> {
    match random.below(4) {
        0 => vec![1, 2],
        1 => (1..=6).collect(),
        2 => vec![1, 255, 256, 257, 512, 65_280, 65_535],
        _ => (0..9)
            .map(|i| 1 + 4_000 * i + random.below(4_000) as u16)
            .collect(),
    }
}

/// Keys for `wide`, and few records beside its messages.
fn wide_keys(random: &mut Random) -> (Vec<u16>, usize, usize) {
    let fields = random.pick(&[600, 1_362, 1_364, 1_364, 1_365, 8_160]);
    ((1..=fields).collect(), 4, random.below(4))
}

/// Every key once, in records with as many fields as one may have, or in one record. By kind 1,364 keys give a type of 2,729 records,
/// one less than the longest; by label 1,362 keys in six records give the longest. 8,160 keys in records fill a table.
fn wide(shape: &Shape, random: &mut Random) -> Vec<Value> {
    let mut keys = shape.keys.clone();
    random.shuffle(&mut keys);
    let fields = random.pick(&[MOST_FIELDS, MOST_FIELDS, MOST_FIELDS, keys.len()]);
    let records = keys.chunks(fields);
    records.map(|keys| with_leaves(0, keys, random)).collect()
}

/// A record with about as many fields as one may have, inside some values.
fn full(shape: &Shape, random: &mut Random) -> Value {
    let depth = random.pick(&[1, 1, 2, 3, DEEPEST - 1, DEEPEST]);
    let record = full_record(0, depth, shape, random);
    around(record, depth, shape, random)
}

/// The last field may have no key or that of another, some fields have content, and one may be such a record again.
fn full_record(key: u16, depth: usize, shape: &Shape, random: &mut Random) -> Value {
    let fields = MOST_FIELDS - 1 + random.below(3);
    let first = random.pick(&[1, 200, 65_000]);
    let mut keys: Vec<u16> = (first..).take(fields).collect();
    random.shuffle(&mut keys);
    if random.one_in(6) {
        keys[fields - 1] = random.pick(&[0, keys[0]]);
    }
    let mut record = with_leaves(key, &keys, random);
    for _ in 0..random.pick(&[0, 1, 9]) {
        let at = random.below(fields);
        record.inner[at] = value(keys[at], depth + 1, shape, &mut 9, random);
    }
    if random.one_in(3) {
        let at = random.below(fields);
        record.inner[at] = full_record(keys[at], depth + 1, shape, random);
    }
    record
}

fn with_leaves(key: u16, keys: &[u16], random: &mut Random) -> Value {
    let inner = keys.iter();
    Value {
        kind: RECORD,
        key,
        inner: inner.map(|key| leaf(*key, random)).collect(),
    }
}

pub fn messages(shape: &Shape, random: &mut Random) -> Vec<Value> {
    let mut left = shape.records;
    let mut messages = Vec::new();
    while left > 0 {
        messages.push(value(0, 1, shape, &mut left, random));
    }
    if random.one_in(12) {
        let depth = DEEPEST - 1 + random.below(3);
        messages.push(chain(depth, shape, random));
    }
    if random.one_in(40) {
        let count = random.up_to(3);
        messages.extend((0..count).map(|_| full(shape, random)));
    }
    if shape.keys.len() > 100 {
        messages.extend(wide(shape, random));
    }
    random.shuffle(&mut messages);
    if shape.deepest > 1 && random.one_in(3) {
        messages.extend(with_arrays(&shape.keys, random));
    }
    messages
}

/// Adds leaves to a log until it has so many value records.
pub fn fill(messages: &mut Vec<Value>, records: usize, random: &mut Random) {
    let size = |value: &Value| write(std::slice::from_ref(value)).len() / SIZE;
    let used: usize = messages.iter().map(size).sum();
    messages.extend((used..records).map(|_| leaf(0, random)));
}

/// A value with this key at this depth, of about `left` records at most.
fn value(key: u16, depth: usize, shape: &Shape, left: &mut usize, random: &mut Random) -> Value {
    *left = left.saturating_sub(1);
    let kind = random.pick(&[1, 2, 3, STRING, RECORD, RECORD, RECORD, ARRAY, ARRAY]);
    let mut keys = match kind {
        RECORD => shape.some_keys(random),
        ARRAY => vec![0; random.below(5)],
        _ => Vec::new(),
    };
    if depth >= shape.deepest {
        keys.clear();
    }
    keys.truncate(*left);
    let repeats = kind == ARRAY && random.one_in(4);
    let mut inner: Vec<Value> = Vec::new();
    for key in keys {
        let next = match inner.last() {
            Some(last) if repeats => last.clone(),
            _ => value(key, depth + 1, shape, left, random),
        };
        inner.push(next);
    }
    Value { kind, key, inner }
}

/// A message of this depth, with a value inside a value and now and then another beside it.
fn chain(depth: usize, shape: &Shape, random: &mut Random) -> Value {
    around(leaf(0, random), depth, shape, random)
}

/// A message in which the value is at this depth.
fn around(mut value: Value, depth: usize, shape: &Shape, random: &mut Random) -> Value {
    for _ in 1..depth {
        let kind = random.pick(&[RECORD, ARRAY]);
        let mut keys = match kind {
            RECORD => shape.keys[..2].to_vec(),
            _ => vec![0; 2],
        };
        random.shuffle(&mut keys);
        value.key = keys[0];
        let mut inner = vec![value];
        if random.one_in(3) {
            inner.push(leaf(keys[1], random));
        }
        random.shuffle(&mut inner);
        value = Value {
            kind,
            key: 0,
            inner,
        };
    }
    value
}

/// A value with nothing inside it.
pub fn leaf(key: u16, random: &mut Random) -> Value {
    Value {
        kind: random.pick(&[1, 2, 3, STRING, RECORD, ARRAY]),
        key,
        inner: Vec::new(),
    }
}
