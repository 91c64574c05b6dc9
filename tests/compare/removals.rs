//! Cases of removal: merges taken apart again, wholes with parts that are in them, nearly are, or are not, and types of the former default.
//! No call makes such types any more, and none merges them: that is done here.

use crate::calls::{Call, Outcome};
use crate::case::{hex, Case};
use crate::counted::bare_counted;
use crate::damage::damaged;
use crate::messages::{messages, Shape};
use crate::parts::{lessened, nudged};
use crate::profile::{difference, profile, sum_of_counts, Counts, Equivalence};
use crate::random::Random;
use crate::single::{length_about, number, EQUIVALENCES};
use crate::tally::{APART, FORMER_DEFAULT};
use crate::types::{self, BARE};
use crate::value::LONGEST;
use crate::{type_reader, ways};

/// Takes either of two merged types out again. What is left is the other.
pub fn apart(case: &mut Case) {
    let random = &mut case.random;
    let shape = Shape::random(random);
    let equivalence = random.pick(&EQUIVALENCES);
    let [one, other] = two(&shape, equivalence, random);
    let both = sum_of_counts(&one, &other);
    let all = [&one, &other, &both].map(types::write_bare);
    if !all.iter().all(|bytes| is_type(bytes, equivalence)) {
        return;
    }
    let [first, second, whole] = all;
    for (part, other) in [(&second, &first), (&first, &second)] {
        let arena = length_about(other.len() / BARE, BARE, &mut case.random);
        let rest = case.call(Call::Remove {
            whole: &whole,
            part,
            equivalence: equivalence as u64,
            arena,
        });
        if !brings_back(&rest, other, arena) {
            case.fail(&format!("removal does not bring back {}\n", hex(other)));
        }
        case.tally.add(APART, rest.number);
    }
}

/// Whether these are the bytes of a well-formed type for removal.
pub fn is_type(bytes: &[u8], equivalence: Equivalence) -> bool {
    bytes.len() <= LONGEST && type_reader::read_bare(bytes, equivalence).is_some()
}

/// Takes a part of a log out of it, in types that the default call made when it inferred under kind. Under kind the others are left. Under
/// label they are too, or a type that is not well formed there is refused.
pub fn former_defaults(case: &mut Case) {
    let log = ways::log(&mut case.random);
    let (part, rest) = log.split_at(case.random.below(log.len() + 1));
    let [whole, part, rest] = [&log[..], part, rest]
        .map(|messages| types::write_bare(&profile(messages, Equivalence::Kind).counts));
    if whole.len() > LONGEST {
        return;
    }
    let equivalence = case.random.pick(&EQUIVALENCES);
    let left = case.call(Call::Remove {
        whole: &whole,
        part: &part,
        equivalence: equivalence as u64,
        arena: LONGEST,
    });
    let refused = equivalence == Equivalence::Label && left.number == 8;
    if !refused && !brings_back(&left, &rest, LONGEST) {
        case.fail("a part of the former default is not taken out\n");
    }
    case.tally.add(FORMER_DEFAULT, left.number);
}

/// Whether a removal leaves these bytes with zeros behind them, or has no room for them or a wrong length.
fn brings_back(rest: &Outcome, bytes: &[u8], arena: usize) -> bool {
    let mut all = bytes.to_vec();
    all.resize(arena, 0);
    match rest.number {
        0 => rest.count as usize * BARE == bytes.len() && rest.arena == all,
        1 => arena % BARE != 0 || arena > LONGEST,
        11 => bytes.len() > arena,
        _ => false,
    }
}

/// Two types, in any order. The counts of one are mostly small, so that both together seldom pass the limit.
fn two(shape: &Shape, equivalence: Equivalence, random: &mut Random) -> [Counts; 2] {
    let one = bare_counted(shape, equivalence, random);
    let other = match random.below(4) {
        0 => bare_counted(shape, equivalence, random),
        _ => profile(&messages(shape, random), equivalence).counts,
    };
    let mut two = [one, other];
    random.shuffle(&mut two);
    two
}

pub fn whole_and_part(case: &mut Case) {
    let random = &mut case.random;
    let shape = Shape::random(random);
    let equivalence = random.pick(&EQUIVALENCES);
    let [one, other] = two(&shape, equivalence, random);
    let both = sum_of_counts(&one, &other);
    let whole = random.pick(&[&one, &both, &both]).clone();
    let part = part(&whole, other, equivalence, random);
    let rest = difference(&whole, &part).map_or(whole.len(), |rest| rest.len());
    let [whole, part] = [whole, part].map(|counts| given(&counts, random));
    let part = match random.below(16) {
        0 => &whole[..],
        1 => last_addends(&whole, random),
        _ => &part[..],
    };
    let arena = length_about(rest, BARE, random);
    let equivalence = number(equivalence, random);
    case.call(Call::Remove {
        whole: &whole,
        part,
        equivalence,
        arena,
    });
}

/// A part of the whole or of something like it, or the other type.
fn part(whole: &Counts, other: Counts, equivalence: Equivalence, random: &mut Random) -> Counts {
    let read = |counts| type_reader::read_bare(&types::write_bare(counts), equivalence);
    let malformed = |counts| read(counts).is_none();
    if malformed(whole) || malformed(&other) {
        return other;
    }
    match random.below(10) {
        0..=1 => other,
        2 => nudged(&other, equivalence, random),
        3 => whole.clone(),
        4 => nudged(whole, equivalence, random),
        5..=7 => lessened(whole, equivalence, random),
        _ => nudged(&lessened(whole, equivalence, random), equivalence, random),
    }
}

/// The bytes of a type, now and then damaged or too long.
fn given(counts: &Counts, random: &mut Random) -> Vec<u8> {
    let mut bytes = types::write_bare(counts);
    match random.below(200) {
        0..=9 => bytes = damaged(&bytes, BARE, random),
        10 => bytes.resize(LONGEST + random.pick(&[1, BARE]), 0),
        _ => {}
    }
    bytes
}

/// The addends of a type from any one on, as a part of its slice; all of it where a span leads elsewhere.
fn last_addends<'a>(whole: &'a [u8], random: &mut Random) -> &'a [u8] {
    let mut rest = whole;
    while rest.len() >= BARE && !random.one_in(3) {
        let span = u32::from_le_bytes(rest[4..8].try_into().unwrap()) as usize;
        match rest.get(BARE * span..) {
            Some(behind) => rest = behind,
            None => return whole,
        }
    }
    rest
}
