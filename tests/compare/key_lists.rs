//! Key lists in every order, each tried once: runs of up to three lists of four keys, and long lists beside short ones. A type of them is
//! well formed exactly if they ascend, and a type that is inferred or merged has them in that order.

use crate::calls::{Call, Outcome};
use crate::case::Case;
use crate::profile::{profile, Equivalence};
use crate::small_tables::with_nulls;
use crate::tag_bus;
use crate::types::{self, bared, BARE, ENTRY, LARGEST, SIZE};
use crate::value::{self, MOST_FIELDS};

const LABEL: u64 = Equivalence::Label as u64;

/// Keys of the tag bus, and keys whose bytes stand in another order.
const KEYS: [[u16; 4]; 2] = [[1, 2, 63, 64], [1, 255, 256, 65_535]];

/// Room for the types of three lists, and for their entries.
const ROOM: [usize; 3] = [32 * SIZE, 32 * SIZE, 4 * ENTRY];

/// Few keys, as many as a word has bits, and about 256, where a record of a table is full and a byte that counts them starts anew.
const LENGTHS: [usize; 8] = [0, 1, 2, 64, 255, 256, 257, 513];

type List = Vec<u16>;

pub fn compare(case: &mut Case) {
    for keys in KEYS {
        let lengths = 0..=keys.len();
        let lists: Vec<List> = lengths.flat_map(|n| of_length(&keys, n)).collect();
        every_run(case, &lists, &mut Vec::new(), 3);
    }
    for first in LENGTHS {
        for second in LENGTHS {
            long(case, [first, second]);
        }
    }
}

/// The lists of so many of these keys, those with the smallest first key first.
fn of_length(keys: &[u16], length: usize) -> Vec<List> {
    if length == 0 {
        return vec![List::new()];
    }
    let mut lists = Vec::new();
    for (i, key) in keys.iter().enumerate() {
        let rests = of_length(&keys[i + 1..], length - 1);
        lists.extend(rests.iter().map(|rest| [&[*key], &rest[..]].concat()));
    }
    lists
}

/// The runs that go on from this one with up to so many further lists. A run has the places of its lists in their order.
fn every_run(case: &mut Case, lists: &[List], run: &mut Vec<usize>, more: usize) {
    one_run(case, lists, run);
    if more == 0 {
        return;
    }
    for next in 0..lists.len() {
        run.push(next);
        every_run(case, lists, run, more - 1);
        run.pop();
    }
}

fn one_run(case: &mut Case, lists: &[List], run: &[usize]) {
    let ascends = |run: &[usize]| run.windows(2).all(|two| two[0] < two[1]);
    let of_run: Vec<&List> = run.iter().map(|place| &lists[*place]).collect();
    judge(case, &bytes(&of_run), ascends(run));

    let mut places = run.to_vec();
    places.sort();
    let sorted: Vec<&List> = places.iter().map(|place| &lists[*place]).collect();
    let sorted = ascends(&places).then(|| bytes(&sorted));
    infer(case, &of_run, sorted.as_deref());
    if let Some((last, before)) = of_run.split_last() {
        if ascends(&run[..before.len()]) {
            merge_and_remove(case, [&bytes(before), &bytes(&[last])], sorted.as_deref());
        }
    }
}

/// The types of one message for each list, one behind the other.
fn bytes(lists: &[&List]) -> Vec<u8> {
    let message = |list: &List| with_nulls(list.iter().copied());
    let of_list = |list| types::write(&profile(&[message(list)], Equivalence::Label));
    lists.iter().copied().flat_map(of_list).collect()
}

/// Folds the type too, if it is one.
fn judge(case: &mut Case, bytes: &[u8], ascends: bool) {
    let judged = case.call(Call::JudgeType {
        bytes,
        equivalence: LABEL,
    });
    let folded = case.call(Call::Fold {
        bytes,
        arena: bytes.len(),
        work: bytes.len(),
    });
    let number = if ascends { 0 } else { 8 };
    if [judged.number, folded.number] != [number; 2] {
        case.fail(&format!("{number} must answer these key lists\n"));
    }
}

/// The lists must come out sorted, where none is there twice.
fn settle(case: &Case, outcome: &Outcome, sorted: Option<&[u8]>) {
    let agrees = |bytes: &[u8]| outcome.number == 0 && outcome.arena.starts_with(bytes);
    if !sorted.is_none_or(agrees) {
        case.fail("a call does not sort key lists\n");
    }
}

fn infer(case: &mut Case, lists: &[&List], sorted: Option<&[u8]>) {
    let messages = lists.iter().map(|list| with_nulls(list.iter().copied()));
    let table = value::write(&messages.collect::<Vec<_>>());
    let inferred = case.call(Call::Infer {
        table: &table,
        equivalence: LABEL,
        arena: ROOM[0],
        work: ROOM[1],
    });
    settle(case, &inferred, sorted);
    tag_bus::infer(case, &table, ROOM);
}

/// Merges two types in either order, and takes each out again, in types without lengths.
fn merge_and_remove(case: &mut Case, types: [&[u8]; 2], sorted: Option<&[u8]>) {
    let [one, other] = types;
    for [first, second] in [[one, other], [other, one]] {
        let arena = first.len() + second.len();
        let merged = case.call(Call::Merge {
            first,
            second,
            equivalence: LABEL,
            arena,
        });
        settle(case, &merged, sorted);
        let rest = case.call(Call::Remove {
            whole: &bared(&merged.arena[..SIZE * merged.count as usize]),
            part: &bared(second),
            equivalence: LABEL,
            arena: BARE * merged.count as usize,
        });
        settle(case, &rest, Some(&bared(first)));
    }
}

/// Lists of so many keys, of which the first or the second begins with the smaller key.
fn long(case: &mut Case, lengths: [usize; 2]) {
    for firsts in [[1, 2], [2, 1]] {
        let list = |i: usize| (firsts[i]..).take(lengths[i]).collect::<List>();
        let two = [list(0), list(1)];
        let mut order = [0, 1];
        order.sort_by_key(|i| (lengths[*i], firsts[*i]));
        let given = bytes(&[&two[0], &two[1]]);
        let sorted = (two[0] != two[1]).then(|| bytes(&order.map(|i| &two[i])));
        judge(case, &given, sorted.as_ref() == Some(&given));
        let types = [bytes(&[&two[0]]), bytes(&[&two[1]])];
        merge_and_remove(case, [&types[0], &types[1]], sorted.as_deref());
        if lengths.iter().all(|length| *length <= MOST_FIELDS) {
            infer_long(case, &two, sorted.as_deref());
        }
    }
}

fn infer_long(case: &mut Case, lists: &[List; 2], sorted: Option<&[u8]>) {
    let messages = lists.each_ref().map(|list| with_nulls(list.clone()));
    let inferred = case.call(Call::InferDefault {
        table: &value::write(&messages),
        arena: LARGEST,
        work: LARGEST,
    });
    settle(case, &inferred, sorted);
}
