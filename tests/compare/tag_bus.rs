//! Cases of the inference for the tag bus: tables with keys up to 64, few of them above, beside call 2 under label.

use crate::calls::{Call, Outcome, ON_BUS};
use crate::case::Case;
use crate::damage::damaged;
use crate::messages::{messages, Shape};
use crate::profile::{profile, Equivalence};
use crate::random::Random;
use crate::single::{arena_length, length_about, work_length};
use crate::types;
use crate::value::{self, LONGEST};

pub fn table(case: &mut Case) {
    let random = &mut case.random;
    let messages = messages(&shape(random), random);
    let profile = profile(&messages, Equivalence::Label);
    let mut table = value::write(&messages);
    match random.below(6) {
        0..=1 => table = damaged(&table, value::SIZE, random),
        2 => change_key(&mut table, random),
        _ => {}
    }
    let mut arena = arena_length(profile.len(), random);
    let mut entries = length_about(types::key_lists(&profile).count(), types::ENTRY, random);
    // Mostly one of them has room for sure.
    match random.below(4) {
        0..=1 => entries = LONGEST,
        2 => arena = types::LARGEST,
        _ => {}
    }
    let work = work_length(arena, random);
    infer(case, &table, [arena, work, entries]);
}

/// A shape with keys that the tag bus may have, or with some beside them.
fn shape(random: &mut Random) -> Shape {
    let keys: Vec<u16> = match random.below(9) {
        0 => vec![1, 2],
        1..=2 => (1..=6).collect(),
        3..=4 => vec![1, 2, 31, 32, 33, 63, 64],
        5..=7 => (1..=ON_BUS).collect(),
        _ => vec![1, 63, 64, 65, 66, 128, 257],
    };
    let shape = Shape::random(random);
    Shape {
        fields: random.pick(&[shape.fields, shape.fields, keys.len()]),
        keys,
        ..shape
    }
}

/// Gives a record a key at the border, or one whose low bits are those of a smaller one.
fn change_key(table: &mut [u8], random: &mut Random) {
    let records = table.len() / value::SIZE;
    if records > 0 {
        let at = value::SIZE * random.below(records);
        let key: u16 = random.pick(&[63, 64, 65, 66, 127, 128, 129, 192, 255, 256, 320, 65_535]);
        table[at + 2..at + 4].copy_from_slice(&key.to_le_bytes());
    }
}

/// Infers for the tag bus, with these lengths of the arena, of the working buffer and of the entries. Where that is accepted, call 2 must
/// leave the same type.
pub fn infer(case: &mut Case, table: &[u8], [arena, work, entries]: [usize; 3]) -> Outcome {
    let of_bus = case.call(Call::InferTagBus {
        table,
        arena,
        work,
        entries,
    });
    if of_bus.number == 0 {
        let equivalence = Equivalence::Label as u64;
        let of_any = case.call(Call::Infer {
            table,
            equivalence,
            arena,
            work,
        });
        if of_any.number != 0 || of_any.count != of_bus.count || of_any.arena != of_bus.arena {
            case.fail("the type for the tag bus is not that of call 2\n");
        }
    }
    of_bus
}
