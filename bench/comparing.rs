//! Compares two versions of a call: both must leave the same answers and bytes, or their times say nothing.

use crate::pair::{Buffers, Inputs, Pair, Workload, ROOM};
use crate::sequence::Sequence;
use crate::type_validator::{MAX_TOTAL, SIZE as TYPE_RECORD};
use crate::types;
use crate::validator::{header, ARRAY, SIZE as VALUE_RECORD};
use ct::raw::Answer;

/// Buffers with something in them beforehand.
pub fn used_buffers([arena, work, entries]: [usize; 3]) -> Buffers {
    Buffers {
        arena: (0..arena).map(|i| i as u8 | 1).collect(),
        work: (0..work).map(|i| i as u8 | 2).collect(),
        entries: (0..entries).map(|i| i as u8 | 4).collect(),
    }
}

/// The answer of both, with these lengths of the arena, of the working buffer and of the entries.
pub fn agree(pair: &Pair, name: &str, inputs: &Inputs, lengths: [usize; 3]) -> Answer {
    let mut of_proved = used_buffers(lengths);
    let mut of_plain = used_buffers(lengths);
    let answer = (pair.proved)(inputs, &mut of_proved);
    assert_eq!(
        answer,
        (pair.plain)(inputs, &mut of_plain),
        "{} of {name}",
        pair.name
    );
    assert!(
        of_proved == of_plain,
        "{} of {name}: buffers differ",
        pair.name
    );
    answer
}

/// Puts all records into one more array.
fn wrap(bytes: &mut Vec<u8>, size: usize) {
    if size == TYPE_RECORD {
        *bytes = types::array(bytes);
        return;
    }
    let span = 1 + (bytes.len() / size) as u32;
    let mut array = vec![6, 0, 0, 0];
    array.extend(span.to_le_bytes());
    array.extend(&1u64.to_le_bytes()[..size - 8]);
    bytes.splice(0..0, array);
}

/// Changes a length of an array by one, if there is one from this record on.
fn change_length(bytes: &mut [u8], record: usize, sequence: &mut Sequence) {
    let from = bytes.chunks_exact_mut(TYPE_RECORD).skip(record);
    let array = from.into_iter().find(|record| record[0] == ARRAY);
    if let Some(array) = array {
        let at = [16, 20][sequence.below(2)];
        array[at] = array[at].wrapping_add([1, 255][sequence.below(2)]);
    }
}

/// Gives the first record of a type a count by which totals are near the limit.
fn raise(bytes: &mut [u8], below: u64) {
    if let Some(count) = bytes.get_mut(8..16) {
        count.copy_from_slice(&(MAX_TOTAL - below).to_le_bytes());
    }
}

/// Gives the first value of a table one more field, in place of the record behind that value: the widest records then have too many.
fn widen(bytes: &mut Vec<u8>) {
    let span = header(bytes, 0).span;
    let end = VALUE_RECORD * span;
    let next = bytes.len().min(end + VALUE_RECORD);
    bytes.splice(end..next, [1, 0, 255, 255, 1, 0, 0, 0]);
    bytes[4..8].copy_from_slice(&(span as u32 + 1).to_le_bytes());
}

/// Cuts bytes short, changes one of them, or does one of the above. Small bytes are good kinds, keys, spans and counts, which often put
/// the fault at a later record, or make none.
fn damage(bytes: &mut Vec<u8>, size: usize, sequence: &mut Sequence) {
    let n = bytes.len().max(1);
    let at = sequence.below(n);
    match sequence.below(12) {
        0 => bytes.truncate(at),
        1 => bytes.truncate(at / size * size),
        2 => wrap(bytes, size),
        3 | 4 if size > VALUE_RECORD => raise(bytes, sequence.below(6) as u64),
        3 if size == VALUE_RECORD => widen(bytes),
        5 if size == TYPE_RECORD => change_length(bytes, at / size, sequence),
        turn => {
            if let Some(byte) = bytes.get_mut(at) {
                *byte = sequence.below(if turn % 2 == 0 { 8 } else { 256 }) as u8;
            }
        }
    }
}

/// The first input damaged, the second, or both alike.
fn damaged(inputs: &Inputs, size: usize, sequence: &mut Sequence) -> Inputs {
    let mut inputs = inputs.clone();
    if inputs.second.is_empty() {
        damage(&mut inputs.first, size, sequence);
        return inputs;
    }
    match sequence.below(3) {
        0 => damage(&mut inputs.first, size, sequence),
        1 => damage(&mut inputs.second, size, sequence),
        _ => {
            damage(&mut inputs.first, size, sequence);
            inputs.second = inputs.first.clone();
        }
    }
    inputs
}

/// Lengths of an arena around the one that just holds the type that a call has written, or around the workload's if it has written none.
fn rooms(workload: &Workload, answer: Answer) -> [usize; 4] {
    let record = workload.pair.writes;
    let room = match answer.number {
        0 => record * answer.count as usize,
        _ => workload.room,
    };
    let less = room.saturating_sub(record);
    [room, less, room + record, room + 1]
}

/// On the workload, and with each of those rooms, which are the answer.
fn compare_rooms(workload: &Workload) -> [usize; 4] {
    let Workload {
        pair, name, inputs, ..
    } = workload;
    let entries = workload.entries;
    let answer = agree(pair, name, inputs, [workload.room, workload.room, entries]);
    assert_eq!(answer.number, workload.number, "{} of {name}", pair.name);
    if pair.writes == 0 {
        return [0; 4];
    }
    let rooms = rooms(workload, answer);
    for room in rooms {
        agree(pair, name, inputs, [room, room, entries]);
        agree(pair, name, inputs, [room, ROOM, entries]);
    }
    rooms
}

/// The same, and on damaged forms of the workload, as often as asked.
pub fn compare(workload: &Workload, turns: usize) {
    let rooms = compare_rooms(workload);
    let Workload {
        pair, name, inputs, ..
    } = workload;
    let mut sequence = Sequence::new();
    for _ in 0..turns {
        let mut inputs = damaged(inputs, pair.size, &mut sequence);
        if sequence.below(4) == 0 {
            inputs.equivalence = sequence.below(3) as u64;
        }
        let room = rooms[sequence.below(3)];
        agree(pair, name, &inputs, [room, room, workload.entries]);
    }
}
