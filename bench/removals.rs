//! The removal of a part from a whole type, beside a plain removal. A whole is merged from its part and from the rest, which comes back.
//! Types are made as for the other calls, and then have their lengths cut off.

use crate::bare_validator::BARE;
use crate::inferences::inferred;
use crate::merges::{self, Types};
use crate::pair::{answered, Buffers, Inputs, Pair, Workload, KIND, LABEL, LONGEST};
use crate::tables::first_messages;
use crate::type_validator::SIZE;
use crate::types::{bared, deep, fields, lists, records, with_keys};
use crate::{plain_merge, plain_removal};
use ct::raw::{self, Answer};

fn proved(inputs: &Inputs, buffers: &mut Buffers) -> Answer {
    raw::remove(
        &inputs.first,
        &inputs.second,
        inputs.equivalence,
        &mut buffers.arena,
    )
}

fn plain(inputs: &Inputs, buffers: &mut Buffers) -> Answer {
    answered(plain_removal::remove(
        &inputs.first,
        &inputs.second,
        inputs.equivalence,
        &mut buffers.arena,
    ))
}

static REMOVE: Pair = Pair {
    name: "7 remove",
    size: BARE,
    writes: BARE,
    proved,
    plain,
};

const NO_ROOM: u64 = 11;
const NO_PART: u64 = 16;

/// With lengths the merged type may be longer than one that a call takes.
fn merged(first: &[u8], second: &[u8], equivalence: u64) -> Vec<u8> {
    let mut arena = vec![0; first.len() + second.len()];
    let records = plain_merge::merged_unjudged(first, second, equivalence, &mut arena);
    arena.truncate(SIZE * records.expect("types that merge"));
    arena
}

/// The types of two runs of messages in a log, of n records each or a few less.
fn halves(log: &[u8], n: usize, equivalence: u64) -> [Vec<u8>; 2] {
    let first = first_messages(log, n);
    let second = first_messages(&log[first.len()..], n);
    [first, second].map(|table| inferred(&table, equivalence))
}

/// A type of which nothing is left.
fn all(part: Vec<u8>) -> [Vec<u8>; 2] {
    [Vec::new(), part]
}

/// A type from which nothing is taken.
fn none(rest: Vec<u8>) -> [Vec<u8>; 2] {
    [rest, Vec::new()]
}

/// The rest and the part, besides those that are merged in the rows of call 5.
fn types(n: u16) -> Vec<Types> {
    let (f, r, l, d) = (n / 2 - 1, n / 3, n / 19, n / 47);
    let ten_fields = with_keys((1..=f).step_by(usize::from(f / 10)).take(10));
    let tenths = fields((10..=f).step_by(10));
    let one_field = with_keys([f / 2]);
    let one_record = || with_keys([r / 2]);
    let others = records((1..=r).filter(|key| *key != r / 2));
    vec![
        ("equal lists, label", LABEL, [lists(1..=l), lists(1..=l)]),
        ("all fields, kind", KIND, all(fields(1..=f))),
        ("all records, label", LABEL, all(records(1..=r))),
        ("all deep, kind", KIND, all(deep(1..=d))),
        ("no fields, kind", KIND, none(fields(1..=f))),
        ("no records, label", LABEL, none(records(1..=r))),
        ("ten fields, kind", KIND, [fields(1..=f), ten_fields]),
        ("every tenth field, kind", KIND, [fields(1..=f), tenths]),
        ("one record, label", LABEL, [records(1..=r), one_record()]),
        ("one list, label", LABEL, [lists(1..=l), lists([l])]),
        ("one deep, kind", KIND, [deep(1..=d), deep([d])]),
        ("all but one field, kind", KIND, [one_field, fields(1..=f)]),
        ("all but one record, label", LABEL, [one_record(), others]),
        ("all but one deep, kind", KIND, [deep([d]), deep(1..=d)]),
    ]
}

fn removal(name: &str, equivalence: u64, whole: Vec<u8>, part: Vec<u8>) -> Workload {
    let inputs = Inputs {
        first: bared(&whole),
        second: bared(&part),
        equivalence,
    };
    Workload {
        room: LONGEST,
        ..Workload::accepted(&REMOVE, name, inputs)
    }
}

fn workload((name, equivalence, [rest, part]): Types) -> Workload {
    removal(name, equivalence, merged(&rest, &part, equivalence), part)
}

/// Workloads with whole types of n records or a few less, and with the types of a log of 2 n records or a few less.
pub fn workloads(n: u16, log: &[u8]) -> Vec<Workload> {
    let halves = |equivalence| halves(log, usize::from(n), equivalence);
    let mut rows = merges::types(n);
    rows.extend(types(n));
    rows.push(("half of the log, kind", KIND, halves(KIND)));
    rows.push(("half of the log, label", LABEL, halves(LABEL)));
    rows.into_iter().map(workload).collect()
}

/// The keys 1 to n, but for the last one, which is larger.
fn other_last_key(n: u16) -> impl Iterator<Item = u16> {
    (1..n).chain([n + 1])
}

/// A whole and no part of it: for the part's first place, for its last one, and for a last field of which more is left than of its record.
fn no_parts(n: u16) -> Vec<Types> {
    let (f, r) = (n / 2 - 1, n / 3);
    let some = fields(1..=f);
    let twice = merged(&some, &some, KIND);
    let thrice = merged(&twice, &some, KIND);
    let less_last = merged(&some, &fields(1..f), KIND);
    let other_last = fields(other_last_key(f));
    let records_twice = merged(&records(1..=r), &records(1..=r), LABEL);
    let others = records(other_last_key(r));
    vec![
        ("16: first place, kind", KIND, [with_keys(1..=f), some]),
        ("16: last place, kind", KIND, [twice, other_last]),
        ("16: last place, label", LABEL, [records_twice, others]),
        ("16: last field, kind", KIND, [thrice, less_last]),
    ]
}

/// Workloads that are refused: those above, and one with half of the room that the result takes.
pub fn refused_workloads(n: u16) -> Vec<Workload> {
    let some = fields(1..=n / 2 - 1);
    let no_room = Workload {
        number: NO_ROOM,
        room: REMOVE.size * usize::from(n / 2),
        ..workload(("11: half the room, kind", KIND, [some.clone(), some]))
    };
    let no_part = |(name, equivalence, [whole, part]): Types| Workload {
        number: NO_PART,
        ..removal(name, equivalence, whole, part)
    };
    let no_parts = no_parts(n).into_iter().map(no_part);
    no_parts.chain([no_room]).collect()
}
