//! Call 8, which infers for the tag bus, beside call 2 under label on the same tables, and beside a plain inference of the same rules.

use crate::comparing::{self, agree, used_buffers};
use crate::inferences;
use crate::pair::{answered_at, Buffers, Call, Inputs, Pair, Workload, LABEL, LONGEST, ROOM};
use crate::plain_tag_bus;
use crate::sequence::{shuffled, Sequence};
use crate::tables::{
    far_shapes, fifty_shapes, fifty_varied, first_messages, matrices, messages, mixed_arrays,
    mixed_lengths, nested, one_field_shapes, same_keys, two_field_shapes, varied,
};
use crate::timing::{self, TIME};
use crate::type_validator::SIZE;
use crate::validator::RECORD;
use ct::raw::{self, Answer};

const KEYS: u16 = 64;
const ENTRY: usize = 16;

fn proved(inputs: &Inputs, buffers: &mut Buffers) -> Answer {
    let Buffers {
        arena,
        work,
        entries,
    } = buffers;
    raw::infer_tag_bus(&inputs.first, arena, work, entries)
}

fn plain(inputs: &Inputs, buffers: &mut Buffers) -> Answer {
    let Buffers {
        arena,
        work,
        entries,
    } = buffers;
    answered_at(plain_tag_bus::infer(&inputs.first, arena, work, entries))
}

static TAG_BUS: Pair = Pair {
    name: "8 infer, tag bus",
    size: 8,
    writes: SIZE,
    proved,
    plain,
};

/// The same call beside call 2 of the library.
static BESIDE_CALL_2: Pair = Pair {
    plain: inferences::proved,
    ..TAG_BUS
};

/// Workloads with tables of n records or a few less.
pub fn workloads(n: usize, log: &[u8]) -> Vec<Workload> {
    let mut sequence = Sequence::new();
    let fields = usize::from(KEYS);
    let shapes = KEYS.min((n / 9 - 1) as u16);
    let descending = |keys: Vec<u16>| keys.into_iter().rev().collect();
    let mixed = |keys| shuffled(keys, &mut sequence);
    let tables = [
        ("messages", messages(n / 13)),
        ("varied", varied(n / 13)),
        ("fifty shapes", fifty_shapes(n / 11, 60)),
        ("fifty varied", fifty_varied(n / 11, 60)),
        ("mixed lengths", mixed_lengths(n)),
        ("log", first_messages(log, n)),
        ("nested", nested(n / 32)),
        ("matrices", matrices(n / 21)),
        ("mixed arrays", mixed_arrays(n)),
        ("64 fields ascending", same_keys(n, fields, |keys| keys)),
        ("64 fields descending", same_keys(n, fields, descending)),
        ("64 fields mixed", same_keys(n, fields, mixed)),
        (
            "64 shapes",
            one_field_shapes(shapes, n / usize::from(2 * shapes)),
        ),
        ("pairs of keys", two_field_shapes(n)),
        ("far shapes", far_shapes(n, shapes)),
    ];
    let of_table = |(name, table): (&str, Vec<u8>)| Workload {
        entries: LONGEST,
        ..inferences::workload(&TAG_BUS, name, LABEL, &table)
    };
    tables.into_iter().map(of_table).collect()
}

/// The arena that a call leaves, and its answer.
fn left(call: Call, inputs: &Inputs) -> (Answer, Vec<u8>) {
    let mut buffers = used_buffers([ROOM, ROOM, LONGEST]);
    (call(inputs, &mut buffers), buffers.arena)
}

/// The bytes of the entries that a table's type has.
fn entries_of(inputs: &Inputs) -> usize {
    let (answer, arena) = left(proved, inputs);
    let records = arena.chunks(SIZE).take(answer.count as usize);
    ENTRY * records.filter(|record| record[0] == RECORD).count()
}

/// Beside the plain inference, also with room for about as many entries as there are; and beside call 2, which must leave the same type.
pub fn compare(workload: &Workload, turns: usize) {
    comparing::compare(workload, turns);
    let Workload { name, inputs, .. } = workload;
    let exact = entries_of(inputs);
    for entries in [exact, exact.saturating_sub(ENTRY), exact + ENTRY, exact + 1] {
        agree(&TAG_BUS, name, inputs, [ROOM, ROOM, entries]);
    }
    let same = left(proved, inputs) == left(inferences::proved, inputs);
    assert!(same, "{name}: call 2 differs");
}

/// One table of all the workloads, each with three ratios of its own rounds: to call 2 with just the room that the entries need and with
/// the largest, and to the plain inference.
pub fn report(workloads: &[Workload]) {
    println!(
        "{:<20}{:<28}records      8 ms      2 ms      8/2  8/2, largest entries   8/Rust",
        "call", "workload"
    );
    for workload in workloads {
        let inputs = std::slice::from_ref(&workload.inputs);
        let beside = |entries| timing::measure(&BESIDE_CALL_2, inputs, [ROOM, entries], TIME);
        let exact = beside(entries_of(&workload.inputs));
        println!(
            "{:<20}{:<28}{:>7}{:>10.3}{:>10.3}{:>9.2}{:>22.2}{:>9.2}",
            workload.pair.name,
            workload.name,
            workload.records(),
            exact.proved / 1e6,
            exact.plain / 1e6,
            exact.ratio,
            beside(LONGEST).ratio,
            workload.measure(TIME).ratio
        );
    }
}
