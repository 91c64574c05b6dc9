//! Every type of few arrays with few elements, each tried once. It is well formed exactly if there is a list of so many lengths with that
//! minimum, that maximum and that sum, which is found by making all lists. They are inferred as tables too, and every two merged.

use crate::calls::{Call, Outcome};
use crate::case::Case;
use crate::lengths::Lengths;
use crate::single::EQUIVALENCES;
use crate::types::SIZE;
use crate::value::{self, Value, ARRAY};
use std::collections::BTreeMap;

const NULL: u8 = 1;

/// The most arrays of a list and the most elements of one.
const ARRAYS: u64 = 4;
const ELEMENTS: usize = 5;

/// Room for an array with nulls inside another.
const ROOM: usize = 3 * SIZE;

type List = Vec<usize>;

/// What a type says of arrays.
#[derive(Clone, Copy, PartialEq, Eq, PartialOrd, Ord)]
pub struct Arrays {
    pub count: u64,
    pub elements: u64,
    pub lengths: Lengths,
}

impl Arrays {
    fn of(list: &List) -> Arrays {
        Arrays {
            count: list.len() as u64,
            elements: list.iter().sum::<usize>() as u64,
            lengths: Lengths::of(list).expect("a list with a length"),
        }
    }

    /// The type in which all elements are nulls.
    pub fn bytes(&self) -> Vec<u8> {
        let content = match self.elements {
            0 => Vec::new(),
            _ => record(NULL, self.elements, Lengths::NONE, &[]),
        };
        record(ARRAY, self.count, self.lengths, &content)
    }
}

fn record(kind: u8, count: u64, lengths: Lengths, inner: &[u8]) -> Vec<u8> {
    let span = 1 + inner.len() / SIZE;
    let mut bytes = vec![kind, 0, 0, 0, span as u8, 0, 0, 0];
    bytes.extend(count.to_le_bytes());
    bytes.extend(lengths.bytes());
    bytes.extend(inner);
    bytes
}

pub fn compare(case: &mut Case) {
    let lists: Vec<List> = (1..=ARRAYS).flat_map(lists).collect();
    for list in &lists {
        infer(case, list);
    }
    // By what a type says, the last of the lists that it can be the type of.
    let possible = lists.into_iter().map(|list| (Arrays::of(&list), list));
    let possible: BTreeMap<Arrays, List> = possible.collect();
    every_type(case, &possible);
    every_two(case, &possible);
}

/// The lists of so many lengths.
fn lists(arrays: u64) -> Vec<List> {
    if arrays == 0 {
        return vec![List::new()];
    }
    let rests = lists(arrays - 1);
    let with = |first: usize| rests.iter().map(move |rest| [&[first], &rest[..]].concat());
    (0..=ELEMENTS).flat_map(with).collect()
}

fn array(elements: Vec<Value>) -> Value {
    Value {
        kind: ARRAY,
        key: 0,
        inner: elements,
    }
}

/// Arrays with nulls as messages, and as elements of one array.
fn infer(case: &mut Case, list: &List) {
    let null = Value {
        kind: NULL,
        key: 0,
        inner: Vec::new(),
    };
    let arrays: Vec<Value> = list.iter().map(|n| array(vec![null.clone(); *n])).collect();
    let bytes = Arrays::of(list).bytes();
    infer_table(case, &value::write(&arrays), &bytes);
    let around = Lengths::of(&[list.len()]).expect("one array");
    let around = record(ARRAY, 1, around, &bytes);
    infer_table(case, &value::write(&[array(arrays)]), &around);
}

fn infer_table(case: &mut Case, table: &[u8], bytes: &[u8]) {
    for equivalence in EQUIVALENCES {
        let inferred = case.call(Call::Infer {
            table,
            equivalence: equivalence as u64,
            arena: ROOM,
            work: ROOM,
        });
        settle(case, &inferred, bytes);
    }
}

fn settle(case: &Case, outcome: &Outcome, bytes: &[u8]) {
    let in_use = SIZE * outcome.count as usize;
    if outcome.number != 0 || &outcome.arena[..in_use] != bytes {
        case.fail("a list of arrays tells of other lengths\n");
    }
}

fn every_type(case: &mut Case, possible: &BTreeMap<Arrays, List>) {
    let most = ELEMENTS as u32;
    for count in 1..=ARRAYS {
        for elements in 0..=ARRAYS * u64::from(most) + 1 {
            for numbers in 0..(most + 1) * (most + 1) {
                let arrays = Arrays {
                    count,
                    elements,
                    lengths: Lengths {
                        shortest: numbers / (most + 1),
                        longest: numbers % (most + 1),
                    },
                };
                judge(case, &arrays.bytes(), possible.contains_key(&arrays));
            }
        }
    }
}

fn judge(case: &mut Case, bytes: &[u8], possible: bool) {
    for equivalence in EQUIVALENCES {
        let judged = case.call(Call::JudgeType {
            bytes,
            equivalence: equivalence as u64,
        });
        if judged.number != if possible { 0 } else { 8 } {
            case.fail("lists of lengths tell otherwise of this type\n");
        }
    }
}

/// A list of the first arrays and one of the second make one of the merged type.
fn every_two(case: &mut Case, possible: &BTreeMap<Arrays, List>) {
    for (first, of_first) in possible {
        for (second, of_second) in possible {
            let equivalence = case.random.pick(&EQUIVALENCES);
            let merged = case.call(Call::Merge {
                first: &first.bytes(),
                second: &second.bytes(),
                equivalence: equivalence as u64,
                arena: ROOM,
            });
            let both = [&of_first[..], of_second].concat();
            settle(case, &merged, &Arrays::of(&both).bytes());
        }
    }
}
