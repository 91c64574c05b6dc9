//! Calls 2 and 3 of document 01 in plain Rust, by a tree of ordered maps: what the proved inference is measured against.

use crate::arena::{clear_rest, Arena};
use crate::pair::LABEL;
use crate::type_validator::{Lengths, FIELD};
use crate::validator::{header, ARRAY, RECORD, SIZE};
use crate::{type_validator, validator};
use std::cmp::Ordering;
use std::collections::BTreeMap;

pub const LENGTH: u64 = 1;
const EQUIVALENCE: u64 = 2;

/// The keys of a record, as they are kept. The order is that of ascending lists of them, shorter ones first; the default has none.
pub trait Keys: Ord + Default {
    fn of(keys: impl Iterator<Item = u16>) -> Self;
}

#[derive(Default, PartialEq, Eq)]
struct List(Vec<u16>);

impl Keys for List {
    fn of(keys: impl Iterator<Item = u16>) -> Self {
        let mut list: Vec<u16> = keys.collect();
        list.sort_unstable();
        List(list)
    }
}

impl Ord for List {
    fn cmp(&self, other: &List) -> Ordering {
        let lengths = self.0.len().cmp(&other.0.len());
        lengths.then_with(|| self.0.cmp(&other.0))
    }
}

impl PartialOrd for List {
    fn partial_cmp(&self, other: &List) -> Option<Ordering> {
        Some(self.cmp(other))
    }
}

/// The kind of a value and, of a record under label, its keys.
#[derive(PartialEq, Eq, PartialOrd, Ord)]
pub struct Class<K> {
    pub kind: u8,
    pub keys: K,
}

pub type Union<K> = BTreeMap<Class<K>, Addend<K>>;

#[derive(Default)]
pub struct Addend<K> {
    count: u64,
    lengths: Lengths,
    pub fields: BTreeMap<u16, Field<K>>,
    pub elements: Union<K>,
}

#[derive(Default)]
pub struct Field<K> {
    count: u64,
    pub union: Union<K>,
}

/// The values of a run, each with its key.
fn values(mut run: &[u8]) -> impl Iterator<Item = (u16, &[u8])> {
    std::iter::from_fn(move || {
        if run.is_empty() {
            return None;
        }
        let first = header(run, 0);
        let (value, rest) = run.split_at(SIZE * first.span);
        run = rest;
        Some((first.key, value))
    })
}

fn class_of<K: Keys>(kind: u8, content: &[u8], label: bool) -> Class<K> {
    let keys = if kind == RECORD && label {
        K::of(values(content).map(|(key, _)| key))
    } else {
        K::default()
    };
    Class { kind, keys }
}

fn add_value<K: Keys>(union: &mut Union<K>, value: &[u8], label: bool) {
    let kind = header(value, 0).kind;
    let content = &value[SIZE..];
    let addend = union.entry(class_of(kind, content, label)).or_default();
    addend.count += 1;
    let mut elements = 0;
    for (key, inner) in values(content) {
        if kind == RECORD {
            let field = addend.fields.entry(key).or_default();
            field.count += 1;
            add_value(&mut field.union, inner, label);
        } else {
            elements += 1;
            add_value(&mut addend.elements, inner, label);
        }
    }
    if kind == ARRAY {
        let of_one = Lengths::of_one(elements);
        addend.lengths = match addend.count {
            1 => of_one,
            _ => addend.lengths.join(of_one),
        };
    }
}

/// The union of a table's messages.
pub fn union_of<K: Keys>(table: &[u8], label: bool) -> Union<K> {
    let mut union = Union::new();
    for (_, message) in values(table) {
        add_value(&mut union, message, label);
    }
    union
}

pub fn write_union<K>(union: &Union<K>, arena: &mut Arena) {
    for (class, addend) in union {
        let at = arena.open();
        write_fields(&addend.fields, arena);
        write_union(&addend.elements, arena);
        arena.close(at, class.kind, 0, addend.count, addend.lengths);
    }
}

fn write_fields<K>(fields: &BTreeMap<u16, Field<K>>, arena: &mut Arena) {
    for (key, field) in fields {
        let at = arena.open();
        write_union(&field.union, arena);
        arena.close(at, FIELD, *key, field.count, Lengths::default());
    }
}

fn inferred(
    table: &[u8],
    equivalence: u64,
    arena: &mut [u8],
    work: usize,
) -> Result<usize, (u64, usize)> {
    let bad_table = validator::bad_length(table.len());
    if bad_table || type_validator::bad_length(arena.len()) || work != arena.len() {
        return Err((LENGTH, 0));
    }
    if equivalence > LABEL {
        return Err((EQUIVALENCE, 0));
    }
    validator::validate(table)?;
    let union: Union<List> = union_of(table, equivalence == LABEL);
    let mut arena = Arena::new(arena);
    write_union(&union, &mut arena);
    arena.records().map_err(|number| (number, 0))
}

/// The number of type records, or a refusal number with its place.
pub fn infer(
    table: &[u8],
    equivalence: u64,
    arena: &mut [u8],
    work: &mut [u8],
) -> Result<usize, (u64, usize)> {
    let answer = inferred(table, equivalence, arena, work.len());
    clear_rest(arena, &answer);
    work.fill(0);
    answer
}
