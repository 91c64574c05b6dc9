//! Call 9, which folds types, beside a plain fold, and beside call 2 under kind on tables that have these types under label.

use crate::comparing::{self, used_buffers};
use crate::inferences::inferred;
use crate::pair::{answered, Buffers, Call, Inputs, Pair, Workload, KIND, LABEL, ROOM};
use crate::plain_fold;
use crate::tables::{
    fifty_shapes, fifty_varied, first_messages, messages, mixed_arrays, one_each, one_field_shapes,
    two_field_shapes, varied,
};
use crate::timing::{self, Times, TIME};
use crate::type_validator::SIZE;
use crate::types::{
    before_last, deep, descending, full_arrays, lacking_one, lists, nested_records, outside_in,
    records,
};
use crate::validator;
use ct::raw::{self, Answer};

fn proved(inputs: &Inputs, buffers: &mut Buffers) -> Answer {
    let Buffers { arena, work, .. } = buffers;
    raw::fold(&inputs.first, arena, work)
}

fn plain(inputs: &Inputs, buffers: &mut Buffers) -> Answer {
    let Buffers { arena, work, .. } = buffers;
    answered(plain_fold::fold(&inputs.first, arena, work))
}

static FOLD: Pair = Pair {
    name: "9 fold",
    size: SIZE,
    writes: SIZE,
    proved,
    plain,
};

/// Call 2 under kind on the second input.
fn infer_second(inputs: &Inputs, buffers: &mut Buffers) -> Answer {
    let Buffers { arena, work, .. } = buffers;
    raw::infer(&inputs.second, KIND, arena, work)
}

/// The same call beside call 2 of the library.
static BESIDE_CALL_2: Pair = Pair {
    plain: infer_second,
    ..FOLD
};

const TYPE: u64 = 8;
const TOTAL: u64 = 10;
const NO_ROOM: u64 = 11;

/// A fold, and a table that has its type.
pub struct Row {
    workload: Workload,
    table: Vec<u8>,
}

fn workload(name: &str, first: Vec<u8>) -> Workload {
    let inputs = Inputs {
        first,
        second: Vec::new(),
        equivalence: LABEL,
    };
    Workload::accepted(&FOLD, name, inputs)
}

fn of_table((name, table): (&str, Vec<u8>)) -> Row {
    Row {
        workload: workload(name, inferred(&table, LABEL)),
        table,
    }
}

fn of_type((name, bytes): (&str, Vec<u8>)) -> Row {
    Row {
        table: one_each(&bytes),
        workload: workload(name, bytes),
    }
}

/// Types of n records or a few less, whose counts are 1: a table has as many values as they have addends. The first have few key lists in
/// each union, the others many, and in the last three the fields of each record go before those of others.
fn types(n: u16) -> Vec<(&'static str, Vec<u8>)> {
    vec![
        ("eight key lists", eight_lists(n)),
        ("arrays of records", nested_records(1..=(n / 63).max(1))),
        ("deep", deep(1..=(n / 47).max(1))),
        ("lists of nine keys", lists(1..=n / 19)),
        ("lists of one key", one_key(n)),
        ("pairs, outside in", outside_in(n / 5)),
        ("blocks, descending", blocks(n)),
        ("keys before the last", keys_before_last(n)),
    ]
}

fn eight_lists(n: u16) -> Vec<u8> {
    lacking_one(n / 16)
}

fn one_key(n: u16) -> Vec<u8> {
    records(1..=n / 3 - 1)
}

fn blocks(n: u16) -> Vec<u8> {
    let blocks = (n / 16).min(16);
    descending(blocks, (n / blocks - 5) / 2)
}

fn keys_before_last(n: u16) -> Vec<u8> {
    before_last((n - n / 512 - 6) / 2)
}

/// Types of tables of n records or a few less, and those above, which have a third as many.
pub fn rows(n: usize, log: &[u8]) -> Vec<Row> {
    let shapes = (n / 9 - 1).min(64);
    let tables = [
        ("log", first_messages(log, n)),
        ("messages", messages(n / 13)),
        ("varied", varied(n / 13)),
        ("fifty shapes", fifty_shapes(n / 11, 100)),
        ("fifty varied", fifty_varied(n / 11, 100)),
        ("64 shapes", one_field_shapes(shapes as u16, n / 2 / shapes)),
        ("pairs of keys", two_field_shapes(n)),
        ("mixed arrays", mixed_arrays(n)),
    ];
    let mut rows: Vec<Row> = tables.into_iter().map(of_table).collect();
    rows.extend(types(n as u16 / 3).into_iter().map(of_type));
    rows
}

/// Workloads whose types have n records or a few less, for every n.
pub fn growing(n: usize) -> Vec<Workload> {
    let types = types(n as u16).into_iter();
    types.map(|(name, bytes)| workload(name, bytes)).collect()
}

fn refused(number: u64, name: &str, bytes: Vec<u8>, room: usize) -> Workload {
    Workload {
        number,
        room,
        ..workload(name, bytes)
    }
}

/// A type whose last count is not that of its field.
fn bad_last(n: u16) -> Vec<u8> {
    let mut bytes = eight_lists(n);
    let count = bytes.len() - SIZE + 8;
    bytes[count] = 2;
    bytes
}

/// The bytes of the folded type.
fn needed(bytes: &[u8]) -> usize {
    let records = plain_fold::fold(bytes, &mut [0; ROOM], &mut [0; ROOM]);
    SIZE * records.expect("a type that folds")
}

/// Workloads that are refused: for the last count, for totals with and without room, and for room that is none, half, or one record short.
pub fn refused_workloads(n: u16) -> Vec<Workload> {
    let (eight, full) = (eight_lists(n), full_arrays(1..=n / 6));
    let half = needed(&eight) / SIZE / 2 * SIZE;
    let short = |name, bytes: Vec<u8>| {
        let room = needed(&bytes) - SIZE;
        refused(NO_ROOM, name, bytes, room)
    };
    vec![
        refused(TYPE, "8: last count", bad_last(n), ROOM),
        refused(TOTAL, "10: full arrays", full.clone(), ROOM),
        refused(TOTAL, "10: full arrays, no room", full, 0),
        refused(NO_ROOM, "11: eight lists, no room", eight.clone(), 0),
        refused(NO_ROOM, "11: eight lists, half", eight, half),
        short("11: one key, one short", one_key(n)),
        short("11: blocks, one short", blocks(n)),
    ]
}

/// The answer of a call, and the buffers that it leaves.
fn left(call: Call, inputs: &Inputs) -> (Answer, Buffers) {
    let mut buffers = used_buffers([ROOM, ROOM, 0]);
    (call(inputs, &mut buffers), buffers)
}

/// Beside the plain fold; and beside call 2, which must leave the same under kind, of a table that has the type under label.
pub fn compare(row: &Row, turns: usize) {
    let Row { workload, table } = row;
    comparing::compare(workload, turns);
    let inputs = both(row);
    let name = &workload.name;
    assert!(
        inferred(table, LABEL) == inputs.first,
        "{name}: another table"
    );
    let same = left(proved, &inputs) == left(infer_second, &inputs);
    assert!(same, "{name}: call 2 differs");
}

/// The type and the table of a row.
fn both(row: &Row) -> Inputs {
    Inputs {
        second: row.table.clone(),
        ..row.workload.inputs.clone()
    }
}

/// One table of all the rows, each with the ratio to the plain fold and to call 2, of their own rounds.
pub fn report(rows: &[Row]) {
    println!(
        "{:<20}{:<28}records      9 ms   Rust ms   9/Rust   values      2 ms      9/2",
        "call", "type"
    );
    for row in rows {
        let workload = &row.workload;
        let Times {
            proved,
            plain,
            ratio,
        } = workload.measure(TIME);
        let beside = timing::measure(&BESIDE_CALL_2, &[both(row)], [ROOM, 0], TIME);
        println!(
            "{:<20}{:<28}{:>7}{:>10.4}{:>10.4}{ratio:>9.2}{:>9}{:>10.4}{:>9.3}",
            workload.pair.name,
            workload.name,
            workload.records(),
            proved / 1e6,
            plain / 1e6,
            row.table.len() / validator::SIZE,
            beside.plain / 1e6,
            beside.ratio
        );
    }
}
