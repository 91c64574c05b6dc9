//! Tables for the tag bus, each tried once: every table of few records with keys at the border, every key in a field, every two keys,
//! records at every depth, and types that fill the arena or have as many records of kind 5 as can be. Types of few records are folded too.

use crate::calls::ON_BUS;
use crate::case::Case;
use crate::folds;
use crate::runs::runs;
use crate::tag_bus::infer;
use crate::types;
use crate::value::{self, Value, ARRAY, DEEPEST, LONGEST, RECORD, SIZE};

const NULL: u8 = 1;
const KINDS: [u8; 3] = [NULL, RECORD, ARRAY];
const BORDER: [u16; 3] = [1, ON_BUS, ON_BUS + 1];

/// As much room as there can be.
const MOST: [usize; 3] = [types::LARGEST, types::LARGEST, LONGEST];

/// Room for the types of the small tables, and for their entries.
const ROOM: [usize; 3] = [12 * types::SIZE, 12 * types::SIZE, 6 * types::ENTRY];

pub fn compare(case: &mut Case) {
    every_table(case, &mut Vec::new(), 3);
    for records in 0..=5 {
        for table in runs(records, &|n| values(0, n)) {
            with_rooms(case, &table, ROOM);
            folds::of_table(case, &table, ROOM[0], [ROOM[0], ROOM[1]]);
        }
    }
    keys(case);
    depths(case);
    largest(case);
}

/// Every table of so many further records, with spans that may be wrong.
fn every_table(case: &mut Case, table: &mut Vec<u8>, records: usize) {
    infer(case, table, ROOM);
    if records == 0 {
        return;
    }
    let start = table.len();
    for kind in KINDS {
        for key in [0].into_iter().chain(BORDER) {
            for span in 0..=3 {
                table.extend(head(kind, key, span));
                every_table(case, table, records - 1);
                table.truncate(start);
            }
        }
    }
}

fn head(kind: u8, key: u16, span: usize) -> [u8; SIZE] {
    let [low, high] = key.to_le_bytes();
    [kind, 0, low, high, span as u8, 0, 0, 0]
}

/// Every value of so many records with this key, with right spans.
fn values(key: u16, records: usize) -> Vec<Vec<u8>> {
    let fields = |n| BORDER.map(|key| values(key, n)).concat();
    let inside = |kind, contents: Vec<Vec<u8>>| {
        let head = head(kind, key, records);
        contents
            .into_iter()
            .map(move |inner| [&head[..], &inner].concat())
    };
    let mut all: Vec<Vec<u8>> = inside(RECORD, runs(records - 1, &fields)).collect();
    all.extend(inside(ARRAY, runs(records - 1, &|n| values(0, n))));
    if records == 1 {
        all.extend(inside(NULL, vec![Vec::new()]));
    }
    all
}

/// With room, and, if that is accepted, with as much as the type and the entries need and with one record less of either.
fn with_rooms(case: &mut Case, table: &[u8], lengths: [usize; 3]) {
    let outcome = infer(case, table, lengths);
    if outcome.number != 0 {
        return;
    }
    let records = outcome
        .arena
        .chunks(types::SIZE)
        .take(outcome.count as usize);
    let entries = records.filter(|record| record[0] == RECORD).count();
    let exact = [types::SIZE * outcome.count as usize, types::ENTRY * entries];
    for [arena, entries] in [[0, 0], [1, 0], [0, 1], [1, 1]] {
        let arena = exact[0].saturating_sub(types::SIZE * arena);
        let entries = exact[1].saturating_sub(types::ENTRY * entries);
        infer(case, table, [arena, arena, entries]);
    }
}

fn null(key: u16) -> Value {
    Value {
        kind: NULL,
        key,
        inner: Vec::new(),
    }
}

/// A record with nulls at these keys.
pub fn with_nulls(keys: impl IntoIterator<Item = u16>) -> Value {
    Value {
        kind: RECORD,
        key: 0,
        inner: keys.into_iter().map(null).collect(),
    }
}

/// Every key alone; and every two keys in one record and in two.
fn keys(case: &mut Case) {
    for key in 0..=u16::MAX {
        infer(case, &value::write(&[with_nulls([key])]), ROOM);
    }
    for first in 1..=ON_BUS + 1 {
        for second in 1..=ON_BUS + 1 {
            infer(case, &value::write(&[with_nulls([first, second])]), ROOM);
            let two = [first, second].map(|key| with_nulls([key]));
            infer(case, &value::write(&two), ROOM);
        }
    }
}

/// A value with one inside it, which gets this key.
fn around(kind: u8, key: u16, inner: Value) -> Value {
    Value {
        kind,
        key: 0,
        inner: vec![Value { key, ..inner }],
    }
}

/// A record at every depth, in arrays and in fields.
fn depths(case: &mut Case) {
    for (kind, key) in [(ARRAY, 0), (RECORD, ON_BUS)] {
        for last in [vec![], vec![1], vec![ON_BUS], vec![ON_BUS + 1]] {
            let mut message = with_nulls(last);
            for _ in 0..=DEEPEST {
                let table = value::write(std::slice::from_ref(&message));
                with_rooms(case, &table, MOST);
                message = around(kind, key, message);
            }
        }
    }
}

fn largest(case: &mut Case) {
    let pairs = (1..=ON_BUS).flat_map(|first| (1..first).map(move |second| [first, second]));
    let mut pairs: Vec<Value> = pairs.map(with_nulls).collect();
    // Five type records for each pair, three for a record of one key, and one for the null.
    let records = types::LARGEST / types::SIZE - 1;
    let singles = (0..5).find(|n| (records - 3 * n) % 5 == 0).unwrap();
    pairs.truncate((records - 3 * singles) / 5);
    pairs.extend((1..).take(singles).map(|key| with_nulls([key])));
    pairs.push(null(0));
    with_rooms(case, &value::write(&pairs), MOST);
    pairs.push(with_nulls([ON_BUS]));
    with_rooms(case, &value::write(&pairs), MOST);

    let deep: Vec<Value> = (1..=ON_BUS).map(records_in_arrays).collect();
    with_rooms(case, &value::write(&deep), MOST);

    let full = LONGEST / SIZE / (1 + usize::from(ON_BUS));
    let mut wide = vec![with_nulls(1..=ON_BUS); full];
    for record in &mut wide {
        case.random.shuffle(&mut record.inner);
    }
    with_rooms(case, &value::write(&wide), MOST);
    wide[full - 1].inner[0].key = ON_BUS + 1;
    with_rooms(case, &value::write(&wide), MOST);
}

/// A record with a field of this key, and inside it, down to the deepest level, an array with a record beside the next array.
fn records_in_arrays(key: u16) -> Value {
    let mut inner = with_nulls([]);
    for _ in 3..=DEEPEST {
        inner = Value {
            kind: ARRAY,
            key: 0,
            inner: vec![with_nulls([]), inner],
        };
    }
    around(RECORD, key, inner)
}
