//! Cases of types whose records have the size that the call does not take: 16 bytes, as they were stored once, for calls 4, 5 and 9, and 24
//! bytes for removal. A length refuses them, or they are not well formed.

use crate::calls::Call;
use crate::case::Case;
use crate::counted::counted;
use crate::messages::Shape;
use crate::profile::{Equivalence, Profile};
use crate::random::Random;
use crate::single::EQUIVALENCES;
use crate::tally::{BARE_ELSEWHERE, NOT_BARE};
use crate::type_reader;
use crate::types::{self, BARE, LARGEST, SIZE};
use crate::value::{is_length, LONGEST};

/// The first and the second of two types, by the number that refuses it.
const FIRST: u64 = 8;
const SECOND: u64 = 9;

pub fn types(case: &mut Case) {
    let equivalence = case.random.pick(&EQUIVALENCES);
    let profile = some_type(equivalence, &mut case.random);
    let bytes = types::write(&profile);
    let bare = types::write_bare(&profile.counts);
    without_lengths(case, &bytes, &bare, equivalence as u64);
    with_lengths(case, &bytes, &bare, equivalence as u64);
}

/// A well-formed type that is not empty.
fn some_type(equivalence: Equivalence, random: &mut Random) -> Profile {
    loop {
        let profile = counted(&Shape::random(random), equivalence, random);
        let bytes = types::write(&profile);
        let fits = !bytes.is_empty() && bytes.len() <= LARGEST;
        if fits && type_reader::read(&bytes, equivalence).is_some() {
            return profile;
        }
    }
}

fn without_lengths(case: &mut Case, bytes: &[u8], bare: &[u8], equivalence: u64) {
    let judge = Call::JudgeType {
        bytes: bare,
        equivalence,
    };
    refused(case, BARE_ELSEWHERE, judge, number(bare, SIZE, FIRST));
    let fold = Call::Fold {
        bytes: bare,
        arena: LARGEST,
        work: LARGEST,
    };
    refused(case, BARE_ELSEWHERE, fold, number(bare, SIZE, FIRST));
    for (first, second, place) in [
        (bare, bytes, FIRST),
        (bytes, bare, SECOND),
        (bare, bare, FIRST),
    ] {
        let merge = Call::Merge {
            first,
            second,
            equivalence,
            arena: LARGEST,
        };
        refused(case, BARE_ELSEWHERE, merge, number(bare, SIZE, place));
    }
}

fn with_lengths(case: &mut Case, bytes: &[u8], bare: &[u8], equivalence: u64) {
    for (whole, part, place) in [
        (bytes, bare, FIRST),
        (bare, bytes, SECOND),
        (bytes, bytes, FIRST),
    ] {
        let remove = Call::Remove {
            whole,
            part,
            equivalence,
            arena: LONGEST,
        };
        refused(case, NOT_BARE, remove, number(bytes, BARE, place));
    }
}

/// The number that refuses a type at its place where records have this size.
fn number(bytes: &[u8], size: usize, place: u64) -> u64 {
    if is_length(bytes.len(), size) {
        return place;
    }
    1
}

fn refused(case: &mut Case, row: usize, call: Call, number: u64) {
    let answer = case.call(call).number;
    if answer != number {
        case.fail(&format!("{answer} answers records of the other size\n"));
    }
    case.tally.add(row, answer);
}
