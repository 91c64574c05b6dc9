//! Value tables: judged and read to trees of values, and written from them.

use std::collections::BTreeSet;

pub const SIZE: usize = 8;
pub const LONGEST: usize = 65_536;
pub const DEEPEST: usize = 32;
pub const MOST_FIELDS: usize = 256;
const LARGEST_KEY: u16 = u16::MAX;
pub const STRING: u8 = 4;
pub const RECORD: u8 = 5;
pub const ARRAY: u8 = 6;

/// The key is 0 but for the value of a field; `inner` is its fields or elements.
#[derive(Clone)]
pub struct Value {
    pub kind: u8,
    pub key: u16,
    pub inner: Vec<Value>,
}

/// A refusal number and a place.
pub type Fault = (u64, u64);

struct Row {
    kind: u8,
    zero: u8,
    key: u16,
    span: u32,
}

fn row(bytes: &[u8]) -> Row {
    Row {
        kind: bytes[0],
        zero: bytes[1],
        key: u16::from_le_bytes([bytes[2], bytes[3]]),
        span: u32::from_le_bytes([bytes[4], bytes[5], bytes[6], bytes[7]]),
    }
}

/// The values around a record: where they end, how deep they stand, which keys came before if they are fields, and which is the largest
/// that a field may have.
struct Siblings {
    end: usize,
    depth: usize,
    keys: Option<BTreeSet<u16>>,
    largest: u16,
}

/// The messages of a table.
pub fn read(table: &[u8]) -> Result<Vec<Value>, Fault> {
    read_up_to(LARGEST_KEY, table)
}

/// The messages of a table in which no field may have a key above the largest.
pub fn read_up_to(largest: u16, table: &[u8]) -> Result<Vec<Value>, Fault> {
    if !is_length(table.len(), SIZE) {
        return Err((1, 0));
    }
    let rows: Vec<Row> = table.chunks(SIZE).map(row).collect();
    let messages = Siblings {
        end: rows.len(),
        depth: 1,
        keys: None,
        largest,
    };
    values(&rows, 0, messages)
}

pub fn is_length(length: usize, size: usize) -> bool {
    length % size == 0 && length <= LONGEST
}

fn values(rows: &[Row], start: usize, mut around: Siblings) -> Result<Vec<Value>, Fault> {
    let mut values = Vec::new();
    let mut place = start;
    while place < around.end {
        let row = &rows[place];
        if let Some(number) = fault(row, place, &around) {
            return Err((number, place as u64));
        }
        if let Some(keys) = &mut around.keys {
            keys.insert(row.key);
        }
        let inside = Siblings {
            end: place + row.span as usize,
            depth: around.depth + 1,
            keys: (row.kind == RECORD).then(BTreeSet::new),
            largest: around.largest,
        };
        let next = inside.end;
        let inner = self::values(rows, place + 1, inside)?;
        values.push(Value {
            kind: row.kind,
            key: row.key,
            inner,
        });
        place = next;
    }
    Ok(values)
}

/// The number that refuses a record at its place: the first here whose fault it has.
fn fault(row: &Row, place: usize, around: &Siblings) -> Option<u64> {
    let room = around.end - place;
    let repeats = |keys: &BTreeSet<u16>| keys.contains(&row.key);
    let full = |keys: &BTreeSet<u16>| keys.len() == MOST_FIELDS;
    let faults = [
        (3, !(1..=ARRAY).contains(&row.kind) || row.zero != 0),
        (4, row.span == 0 || row.span as usize > room),
        (4, row.kind <= STRING && row.span > 1),
        (5, (row.key != 0) != around.keys.is_some()),
        (17, around.keys.is_some() && row.key > around.largest),
        (6, around.keys.as_ref().is_some_and(repeats)),
        (15, around.keys.as_ref().is_some_and(full)),
        (7, around.depth > DEEPEST),
    ];
    let found = faults.into_iter().find(|(_, holds)| *holds);
    found.map(|(number, _)| number)
}

pub fn write(messages: &[Value]) -> Vec<u8> {
    let mut table = Vec::new();
    for message in messages {
        put(message, &mut table);
    }
    table
}

fn put(value: &Value, table: &mut Vec<u8>) {
    let start = table.len();
    table.extend([value.kind, 0]);
    table.extend(value.key.to_le_bytes());
    table.extend([0; 4]);
    for inner in &value.inner {
        put(inner, table);
    }
    let span = ((table.len() - start) / SIZE) as u32;
    table[start + 4..start + 8].copy_from_slice(&span.to_le_bytes());
}
