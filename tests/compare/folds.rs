//! Cases of folding: types of tables beside inference under kind, merges folded beside folds merged, and any types, with totals about the
//! limit and arenas that are too small.

use crate::calls::{Call, Outcome};
use crate::case::Case;
use crate::counted::counted;
use crate::crowded::crowded;
use crate::damage::damaged;
use crate::messages::Shape;
use crate::profile::{profile, sum, to_kind, Equivalence, Profile, LIMIT};
use crate::random::Random;
use crate::single::{arena_length, work_length, ABOVE, EQUIVALENCES};
use crate::tally::{FOLDED, FOLDED_MERGES, FOLD_FULL};
use crate::types::{self, LARGEST};
use crate::value::{self, is_length};
use crate::{type_reader, ways};

/// Folds a type into an arena, with a working buffer. What comes of it has no more records, and call 4 accepts it under kind.
pub fn fold(case: &mut Case, bytes: &[u8], [arena, work]: [usize; 2]) -> Outcome {
    let folded = case.call(Call::Fold { bytes, arena, work });
    if folded.number == 11 && arena >= bytes.len() {
        case.fail("a folded type has more records than before\n");
    }
    if folded.number == 0 {
        let judged = case.call(Call::JudgeType {
            bytes: in_use(&folded),
            equivalence: Equivalence::Kind as u64,
        });
        if judged.number != 0 || judged.count != folded.count {
            case.fail("a folded type is not well formed under kind\n");
        }
    }
    folded
}

/// The records of an accepted call.
fn in_use(outcome: &Outcome) -> &[u8] {
    &outcome.arena[..types::SIZE * outcome.count as usize]
}

/// The type of a log.
pub fn table(case: &mut Case) {
    let log = ways::log(&mut case.random);
    let records = profile(&log, Equivalence::Kind).len();
    let arena = arena_length(records, &mut case.random);
    let work = work_length(arena, &mut case.random);
    of_table(case, &value::write(&log), LARGEST, [arena, work]);
}

/// Folds a table's type under label, which is inferred with so much room. With the same buffers that is what inference under kind does.
pub fn of_table(case: &mut Case, table: &[u8], room: usize, [arena, work]: [usize; 2]) {
    let by_label = case.call(Call::Infer {
        table,
        equivalence: Equivalence::Label as u64,
        arena: room,
        work: room,
    });
    if by_label.number != 0 {
        return;
    }
    let folded = fold(case, in_use(&by_label), [arena, work]);
    let by_kind = case.call(Call::Infer {
        table,
        equivalence: Equivalence::Kind as u64,
        arena,
        work,
    });
    if folded != by_kind {
        case.fail("the folded type is not the one under kind\n");
    }
    case.tally.add(FOLDED, folded.number);
}

/// Two types that are merged and then folded. Where each folds within the limit, merging what comes of them under kind does the same; where
/// one does not, the merge doesn't either.
pub fn merges(case: &mut Case) {
    let [first, second] = two(&mut case.random);
    let records = to_kind(&sum(&first, &second)).len();
    let arena = ways::arena_length(records, &mut case.random);
    let [first, second] = [first, second].map(|profile| types::write(&profile));
    let merged = merge(case, [&first, &second], Equivalence::Label, LARGEST);
    if merged.number != 0 {
        return;
    }
    let end = fold(case, in_use(&merged), [arena; 2]);
    let parts = [first, second].map(|bytes| fold(case, &bytes, [LARGEST; 2]));
    let same = if parts.iter().all(|part| part.number == 0) {
        let parts = [in_use(&parts[0]), in_use(&parts[1])];
        let other = merge(case, parts, Equivalence::Kind, arena);
        end.number == other.number && end.count == other.count && end.arena == other.arena
    } else {
        end.number == 10
    };
    if !same {
        case.fail("a folded merge differs from the merge of folded types\n");
    }
    case.tally.add(FOLDED_MERGES, end.number);
}

fn merge(case: &mut Case, types: [&[u8]; 2], equivalence: Equivalence, arena: usize) -> Outcome {
    case.call(Call::Merge {
        first: types[0],
        second: types[1],
        equivalence: equivalence as u64,
        arena,
    })
}

/// Types of which both, or both together, may pass the limit when folded.
fn two(random: &mut Random) -> [Profile; 2] {
    let shape = Shape::random(random);
    match random.below(3) {
        0 => [(); 2].map(|()| crowded(about(LIMIT / 2, random), random)),
        1 => [
            crowded(about(LIMIT, random), random),
            counted(&shape, Equivalence::Label, random),
        ],
        _ => [(); 2].map(|()| counted(&shape, Equivalence::Label, random)),
    }
}

/// A number near another, or any one below it.
fn about(number: u64, random: &mut Random) -> u64 {
    match random.below(6) {
        0 => random.up_to(number),
        near => number + near as u64 - 3,
    }
}

/// The number of records that a type has when folded, if it is well formed.
fn records_folded(bytes: &[u8]) -> Option<usize> {
    if !is_length(bytes.len(), types::SIZE) {
        return None;
    }
    Some(to_kind(&type_reader::read(bytes, Equivalence::Label)?).len())
}

/// A type with or without a fault, some of them well formed under kind only.
pub fn one_type(case: &mut Case) {
    let random = &mut case.random;
    let profile = match random.below(3) {
        0 => {
            let equivalence = random.pick(&EQUIVALENCES);
            counted(&Shape::random(random), equivalence, random)
        }
        _ => crowded(about(LIMIT, random), random),
    };
    let mut bytes = types::write(&profile);
    if random.one_in(100) {
        bytes.resize(LARGEST + random.pick(&ABOVE), 0);
    } else if random.one_in(5) {
        bytes = damaged(&bytes, types::SIZE, random);
    }
    let records = records_folded(&bytes).unwrap_or(profile.len());
    let arena = arena_length(records, random);
    let work = work_length(arena, random);
    let outcome = fold(case, &bytes, [arena, work]);
    if outcome.number >= 10 && arena < types::SIZE * records {
        case.tally.add(FOLD_FULL, outcome.number);
    }
}
