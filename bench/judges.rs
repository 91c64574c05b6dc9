//! Calls 1 and 4, which judge tables and types, beside plain validators.

use crate::pair::{accepted, answered, refused, Buffers, Inputs, Pair, Workload, KIND, LABEL};
use crate::tables::{flat, messages, nested, wide};
use crate::types::{arrays, deep, fields, lists, mixed, records};
use crate::{type_validator, validator};
use ct::raw::{self, Answer};

fn proved_table(inputs: &Inputs, _: &mut Buffers) -> Answer {
    raw::judge_table(&inputs.first)
}

fn plain_table(inputs: &Inputs, _: &mut Buffers) -> Answer {
    match validator::validate(&inputs.first) {
        Ok(messages) => accepted(messages),
        Err((number, place)) => refused(number, place),
    }
}

fn proved_type(inputs: &Inputs, _: &mut Buffers) -> Answer {
    raw::judge_type(&inputs.first, inputs.equivalence)
}

fn plain_type(inputs: &Inputs, _: &mut Buffers) -> Answer {
    answered(type_validator::validate(&inputs.first, inputs.equivalence))
}

static TABLES: Pair = Pair {
    name: "1 judge table",
    size: 8,
    writes: 0,
    proved: proved_table,
    plain: plain_table,
};

static TYPES: Pair = Pair {
    name: "4 judge type",
    size: type_validator::SIZE,
    writes: 0,
    proved: proved_type,
    plain: plain_type,
};

fn workload(pair: &'static Pair, name: &str, equivalence: u64, first: Vec<u8>) -> Workload {
    let inputs = Inputs {
        first,
        second: Vec::new(),
        equivalence,
    };
    Workload::accepted(pair, name, inputs)
}

/// Workloads with tables of n records or a few less.
pub fn of_tables(n: usize) -> Vec<Workload> {
    vec![
        workload(&TABLES, "flat", KIND, flat(n)),
        workload(&TABLES, "nested", KIND, nested(n / 32)),
        workload(&TABLES, "messages", KIND, messages(n / 13)),
        workload(&TABLES, "wide", KIND, wide(n, 1)),
        // The proved judge has 64 buckets for keys, and searches only where one is used again.
        workload(&TABLES, "wide, one bucket", KIND, wide(n, 64)),
    ]
}

/// Workloads with types of n records or a few less.
pub fn of_types(n: u16) -> Vec<Workload> {
    let f = n / 2 - 1;
    let d = (n / 47).max(1);
    vec![
        workload(&TYPES, "fields, kind", KIND, fields(1..=f)),
        workload(&TYPES, "fields, label", LABEL, fields(1..=f)),
        workload(&TYPES, "records, label", LABEL, records(1..=(n - 1) / 3)),
        workload(&TYPES, "deep, kind", KIND, deep(1..=d)),
        workload(&TYPES, "deep, label", LABEL, deep(1..=d)),
        workload(&TYPES, "lists, label", LABEL, lists(1..=n / 19)),
        workload(&TYPES, "mixed lists, label", LABEL, mixed(1..=n / 18)),
        workload(&TYPES, "arrays, kind", KIND, arrays(1..=n / 4, 1)),
    ]
}
