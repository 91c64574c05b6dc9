//! Calls 2 and 3, which infer types, beside a plain inference.

use crate::pair::{answered_at, Buffers, Inputs, Pair, Workload, KIND, LABEL, ROOM};
use crate::plain_inference;
use crate::sequence::{shuffled, Sequence};
use crate::tables::{
    far_keys, far_shapes, fifty_shapes, fifty_varied, first_messages, many_keys, matrices,
    messages, mixed_arrays, mixed_lengths, nested, one_field_shapes, same_keys, varied,
};
use crate::type_validator::SIZE;
use crate::validator::MAX_FIELDS;
use ct::raw::{self, Answer};

pub fn proved(inputs: &Inputs, buffers: &mut Buffers) -> Answer {
    let Buffers { arena, work, .. } = buffers;
    raw::infer(&inputs.first, inputs.equivalence, arena, work)
}

fn proved_default(inputs: &Inputs, buffers: &mut Buffers) -> Answer {
    let Buffers { arena, work, .. } = buffers;
    raw::infer_default(&inputs.first, arena, work)
}

fn plain_under(equivalence: u64, inputs: &Inputs, buffers: &mut Buffers) -> Answer {
    let Buffers { arena, work, .. } = buffers;
    answered_at(plain_inference::infer(
        &inputs.first,
        equivalence,
        arena,
        work,
    ))
}

fn plain(inputs: &Inputs, buffers: &mut Buffers) -> Answer {
    plain_under(inputs.equivalence, inputs, buffers)
}

fn plain_default(inputs: &Inputs, buffers: &mut Buffers) -> Answer {
    plain_under(LABEL, inputs, buffers)
}

static INFER: Pair = Pair {
    name: "2 infer",
    size: 8,
    writes: SIZE,
    proved,
    plain,
};

static INFER_DEFAULT: Pair = Pair {
    name: "3 infer by default",
    size: 8,
    writes: SIZE,
    proved: proved_default,
    plain: plain_default,
};

pub fn workload(pair: &'static Pair, name: &str, equivalence: u64, first: &[u8]) -> Workload {
    let inputs = Inputs {
        first: first.to_vec(),
        second: Vec::new(),
        equivalence,
    };
    Workload::accepted(pair, name, inputs)
}

/// The type of a table.
pub fn inferred(table: &[u8], equivalence: u64) -> Vec<u8> {
    let mut arena = vec![0; ROOM];
    let records = plain_inference::infer(table, equivalence, &mut arena, &mut vec![0; ROOM]);
    arena.truncate(SIZE * records.expect("a table"));
    arena
}

/// Workloads with tables of n records or a few less.
pub fn workloads(n: usize, log: &[u8]) -> Vec<Workload> {
    let mut sequence = Sequence::new();
    let descending = |keys: Vec<u16>| keys.into_iter().rev().collect();
    let mixed = |keys| shuffled(keys, &mut sequence);
    let tables = [
        ("messages", messages(n / 13)),
        ("varied", varied(n / 13)),
        ("fifty shapes", fifty_shapes(n / 11, 100)),
        ("fifty varied", fifty_varied(n / 11, 100)),
        ("mixed lengths", mixed_lengths(n)),
        ("log", first_messages(log, n)),
        ("nested", nested(n / 32)),
        ("matrices", matrices(n / 21)),
        ("mixed arrays", mixed_arrays(n)),
        ("fields ascending", same_keys(n, MAX_FIELDS, |keys| keys)),
        ("fields descending", same_keys(n, MAX_FIELDS, descending)),
        ("fields mixed", same_keys(n, MAX_FIELDS, mixed)),
        ("many fields", many_keys(n)),
        ("far fields", far_keys(n)),
        ("many shapes", one_field_shapes((n / 9) as u16, 4)),
        ("far shapes", far_shapes(n, (n / 9 - 1) as u16)),
    ];
    let mut workloads = Vec::new();
    for (name, table) in &tables {
        if ["messages", "far shapes"].contains(name) {
            workloads.push(workload(&INFER_DEFAULT, name, LABEL, table));
        }
    }
    for (name, table) in tables {
        workloads.push(workload(&INFER, &format!("{name}, kind"), KIND, &table));
        workloads.push(workload(&INFER, &format!("{name}, label"), LABEL, &table));
    }
    workloads
}
