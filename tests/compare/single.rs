//! Cases of single calls: tables for calls 1 to 3, types for call 4, pairs of types for call 5, texts for call 6.

use crate::calls::Call;
use crate::case::Case;
use crate::counted::counted;
use crate::damage::damaged;
use crate::messages::{fill, messages, Shape};
use crate::profile::{profile, sum, Equivalence};
use crate::random::Random;
use crate::texts::{self, Inputs};
use crate::value::LONGEST;
use crate::{types, value};

/// Few more bytes than the largest buffer has, as many as a record of some size.
pub const ABOVE: [usize; 4] = [1, 8, 16, 24];

pub const EQUIVALENCES: [Equivalence; 2] = [Equivalence::Kind, Equivalence::Label];

pub fn table(case: &mut Case) {
    let random = &mut case.random;
    let mut messages = messages(&Shape::random(random), random);
    if random.one_in(1_000) {
        let longest = LONGEST / value::SIZE;
        fill(&mut messages, longest + random.below(2), random);
    }
    let equivalence = random.pick(&EQUIVALENCES);
    let records = profile(&messages, equivalence).len();
    let mut table = value::write(&messages);
    if random.one_in(2) {
        table = damaged(&table, value::SIZE, random);
    }
    let arena = arena_length(records, random);
    let work = work_length(arena, random);
    let number = number(equivalence, random);
    case.call(Call::JudgeTable { table: &table });
    case.call(Call::Infer {
        table: &table,
        equivalence: number,
        arena,
        work,
    });
    case.call(Call::InferDefault {
        table: &table,
        arena,
        work,
    });
}

pub fn one_type(case: &mut Case) {
    let random = &mut case.random;
    let equivalence = random.pick(&EQUIVALENCES);
    let shape = Shape::random(random);
    let mut bytes = types::write(&counted(&shape, equivalence, random));
    if random.one_in(2) {
        bytes = damaged(&bytes, types::SIZE, random);
    }
    let other = random.pick(&EQUIVALENCES);
    for number in [number(equivalence, random), other as u64] {
        case.call(Call::JudgeType {
            bytes: &bytes,
            equivalence: number,
        });
    }
}

pub fn two_types(case: &mut Case) {
    let random = &mut case.random;
    let equivalence = random.pick(&EQUIVALENCES);
    let shape = Shape::random(random);
    let types = [(); 2].map(|()| counted(&shape, equivalence, random));
    let same = random.one_in(8);
    let other = if same { &types[0] } else { &types[1] };
    let records = sum(&types[0], other).len();
    let [first, second] = types.map(|profile| {
        let bytes = types::write(&profile);
        if random.one_in(8) {
            return damaged(&bytes, types::SIZE, random);
        }
        bytes
    });
    let arena = arena_length(records, random);
    let equivalence = number(equivalence, random);
    case.call(Call::Merge {
        first: &first,
        second: if same { &first } else { &second },
        equivalence,
        arena,
    });
}

pub fn text(case: &mut Case) {
    let Inputs { text, book, table } = texts::inputs(&mut case.random);
    case.call(Call::ReadText {
        text: &text,
        book: &book,
        table,
    });
}

/// Mostly the equivalence itself, sometimes the other one or none.
pub fn number(equivalence: Equivalence, random: &mut Random) -> u64 {
    match random.below(20) {
        0 => random.pick(&[0, 1]),
        1 => random.pick(&[2, 3, 255, 256, 257, 1 << 32, 1 << 63, u64::MAX]),
        _ => equivalence as u64,
    }
}

/// The length of an arena about a type of so many records.
pub fn arena_length(records: usize, random: &mut Random) -> usize {
    length_about(records, types::SIZE, random)
}

/// The length of a buffer about so many records of a size.
pub fn length_about(records: usize, size: usize, random: &mut Random) -> usize {
    let exact = size * records;
    match random.below(20) {
        0..=6 => exact,
        7..=9 => exact.saturating_sub(size),
        10 => exact + size,
        11 => 0,
        12..=14 => LONGEST / size * size,
        15 => size * random.below(records + 1),
        16 => exact + 1 + random.below(size - 1),
        17 => LONGEST / size * size + random.pick(&ABOVE),
        _ => exact + size * random.below(8),
    }
}

pub fn work_length(arena: usize, random: &mut Random) -> usize {
    match random.below(30) {
        0 => arena + types::SIZE,
        1 => arena.saturating_sub(types::SIZE),
        2 => arena + 1,
        _ => arena,
    }
}
