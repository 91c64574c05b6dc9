//! Call 5, which merges types, beside a plain merge. Where the inputs don't have all their records in common they are half as large, so
//! that the merged type fits the largest arena.

use crate::pair::{answered, Buffers, Inputs, Pair, Workload, KIND, LABEL};
use crate::plain_merge;
use crate::type_validator::SIZE;
use crate::types::{arrays, deep, fields, lists, mixed, records};
use ct::raw::{self, Answer};

fn proved(inputs: &Inputs, buffers: &mut Buffers) -> Answer {
    raw::merge(
        &inputs.first,
        &inputs.second,
        inputs.equivalence,
        &mut buffers.arena,
    )
}

fn plain(inputs: &Inputs, buffers: &mut Buffers) -> Answer {
    answered(plain_merge::merge(
        &inputs.first,
        &inputs.second,
        inputs.equivalence,
        &mut buffers.arena,
    ))
}

static MERGE: Pair = Pair {
    name: "5 merge",
    size: SIZE,
    writes: SIZE,
    proved,
    plain,
};

/// The keys 1 to n in two halves.
fn disjoint(make: fn(Vec<u16>) -> Vec<u8>, n: u16) -> [Vec<u8>; 2] {
    [(1..=n / 2).collect(), (n / 2 + 1..=n).collect()].map(make)
}

/// The odd and the even ones of the keys 1 to n.
fn interleaved(make: fn(Vec<u16>) -> Vec<u8>, n: u16) -> [Vec<u8>; 2] {
    [1, 2].map(|first| make((first..=n).step_by(2).collect()))
}

/// The keys 1 to n twice.
fn equal(make: fn(Vec<u16>) -> Vec<u8>, n: u16) -> [Vec<u8>; 2] {
    [1, 1].map(|first| make((first..=n).collect()))
}

/// Two types to be merged under an equivalence.
pub type Types = (&'static str, u64, [Vec<u8>; 2]);

/// Types whose merged type has n records or a few less.
pub fn types(n: u16) -> Vec<Types> {
    let f = n / 2 - 1;
    let r = (n - 1) / 3;
    let l = n / 19;
    let m = n / 18;
    let d = (n / 47).max(1);
    let a = n / 4;
    vec![
        ("disjoint fields, kind", KIND, disjoint(fields, f)),
        ("interleaved fields, kind", KIND, interleaved(fields, f)),
        ("equal fields, kind", KIND, equal(fields, f)),
        ("equal fields, label", LABEL, equal(fields, f)),
        ("disjoint records, label", LABEL, disjoint(records, r)),
        ("interleaved records, label", LABEL, interleaved(records, r)),
        ("equal records, label", LABEL, equal(records, r)),
        ("interleaved lists, label", LABEL, interleaved(lists, l)),
        ("interleaved mixed, label", LABEL, interleaved(mixed, m)),
        ("equal deep, kind", KIND, equal(deep, d)),
        ("equal deep, label", LABEL, equal(deep, d)),
        (
            "arrays of mixed lengths",
            KIND,
            [1, 4].map(|s| arrays(1..=a, s)),
        ),
    ]
}

fn workload((name, equivalence, [first, second]): Types) -> Workload {
    let inputs = Inputs {
        first,
        second,
        equivalence,
    };
    Workload::accepted(&MERGE, name, inputs)
}

/// Workloads with types of n records or a few less.
pub fn workloads(n: u16) -> Vec<Workload> {
    types(n).into_iter().map(workload).collect()
}
