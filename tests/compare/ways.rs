//! Ways of bringing one log together: every one ends in the bytes of the log's profile, or all are refused.

use crate::calls::{Call, Outcome};
use crate::case::{hex, Case};
use crate::counted::counted;
use crate::messages::{messages, Shape};
use crate::profile::{passes_limit, profile, sum, Equivalence, Profile};
use crate::random::Random;
use crate::single::EQUIVALENCES;
use crate::tally::{BY_KIND, MERGES, WAY};
use crate::types::LARGEST;
use crate::value::{Value, LONGEST};
use crate::{type_reader, types, value};

/// What every way of a case fixes.
#[derive(Clone, Copy)]
struct Fixed {
    equivalence: Equivalence,
    arena: usize,
}

/// Two or three ways of one log.
pub fn ways(case: &mut Case) {
    let random = &mut case.random;
    let mut log = log(random);
    let equivalence = random.pick(&EQUIVALENCES);
    let profile = profile(&log, equivalence);
    let fixed = Fixed {
        equivalence,
        arena: arena_length(profile.len(), random),
    };
    let mut ends = Vec::new();
    for _ in 0..2 + case.random.below(2) {
        reorder(&mut log, &mut case.random);
        let tables = tables(&log, &mut case.random);
        ends.push(bring(case, tables, Vec::new(), fixed));
    }
    settle(case, WAY, &ends, &profile, fixed);
}

/// Any order, or one in which equal messages stand beside each other.
fn reorder(log: &mut [Value], random: &mut Random) {
    match random.below(3) {
        0 => log.sort_by_key(|message| value::write(std::slice::from_ref(message))),
        1 => log.reverse(),
        _ => random.shuffle(log),
    }
}

/// Messages that call 1 accepts.
pub fn log(random: &mut Random) -> Vec<Value> {
    let shape = Shape::random(random);
    let mut log = messages(&shape, random);
    log.retain(|message| value::read(&value::write(std::slice::from_ref(message))).is_ok());
    log
}

/// Merges the types under kind of two parts of a log. Under kind the end is that of a way. Under label it is too, or a type that is not
/// well formed there is refused.
pub fn made_by_kind(case: &mut Case) {
    let log = log(&mut case.random);
    let (one, other) = log.split_at(case.random.below(log.len() + 1));
    let [first, second] = [one, other].map(|part| types::write(&profile(part, Equivalence::Kind)));
    if first.len() > LARGEST || second.len() > LARGEST {
        return;
    }
    let fixed = Fixed {
        equivalence: case.random.pick(&EQUIVALENCES),
        arena: LARGEST,
    };
    let end = merge_two(case, &mut vec![first, second], fixed);
    let refused = fixed.equivalence == Equivalence::Label && [8, 9].contains(&end.number);
    if !refused && !agrees(&end, &profile(&log, fixed.equivalence), fixed) {
        case.fail("a merge of types under kind ends otherwise than its profile\n");
    }
    case.tally.add(BY_KIND, end.number);
}

/// Two or three merge trees of the same types, whose counts come up to the limit.
pub fn merges(case: &mut Case) {
    let random = &mut case.random;
    let shape = Shape::random(random);
    let equivalence = random.pick(&EQUIVALENCES);
    let mut profiles = Vec::new();
    for _ in 0..2 + random.below(4) {
        let profile = counted(&shape, equivalence, random);
        if type_reader::read(&types::write(&profile), equivalence).is_some() {
            profiles.push(profile);
        }
    }
    let fits = |p: &Profile| types::SIZE * p.len() <= LARGEST;
    if profiles.len() < 2 || !profiles.iter().all(fits) {
        return;
    }
    let all = profiles
        .iter()
        .fold(Profile::default(), |all, one| sum(&all, one));
    let fixed = Fixed {
        equivalence,
        arena: arena_length(all.len(), random),
    };
    let mut ends = Vec::new();
    for _ in 0..2 + case.random.below(2) {
        case.random.shuffle(&mut profiles);
        let at_hand = profiles.iter().map(types::write).collect();
        ends.push(bring(case, Vec::new(), at_hand, fixed));
    }
    settle(case, MERGES, &ends, &all, fixed);
}

/// A length that a way may fix.
pub fn arena_length(records: usize, random: &mut Random) -> usize {
    allowed_length(records, types::SIZE, random)
}

/// A length that an arena for about so many records of a size may have.
pub fn allowed_length(records: usize, size: usize, random: &mut Random) -> usize {
    let exact = size * records;
    let largest = LONGEST / size * size;
    let length = match random.below(8) {
        0..=2 => exact,
        3 => exact.saturating_sub(size),
        4 => size * random.below(records + 1),
        5 => exact + size * random.below(9),
        _ => largest,
    };
    length.min(largest)
}

/// Cuts a log into tables, some of them empty.
fn tables(log: &[Value], random: &mut Random) -> Vec<Vec<u8>> {
    let most = random.pick(&[1, 2, 5, 1 + log.len()]).max(log.len() / 60);
    let mut tables = Vec::new();
    let mut rest = log;
    while !rest.is_empty() || tables.is_empty() || random.one_in(9) {
        let (cut, behind) = rest.split_at(random.below(most + 1).min(rest.len()));
        let table = value::write(cut);
        if table.len() <= LONGEST {
            tables.push(table);
            rest = behind;
        }
    }
    tables
}

/// Infers from each table and merges types at hand, in any order, until one is left; gives the outcome of the last call.
fn bring(
    case: &mut Case,
    mut tables: Vec<Vec<u8>>,
    mut at_hand: Vec<Vec<u8>>,
    fixed: Fixed,
) -> Outcome {
    loop {
        let merges = at_hand.len() > 1 && (tables.is_empty() || case.random.one_in(2));
        let outcome = if merges {
            merge_two(case, &mut at_hand, fixed)
        } else {
            infer(case, &tables.pop().expect("a table, or two types"), fixed)
        };
        if outcome.number != 0 || (tables.is_empty() && at_hand.is_empty()) {
            return outcome;
        }
        at_hand.push(outcome.arena[..types::SIZE * outcome.count as usize].to_vec());
    }
}

fn infer(case: &mut Case, table: &[u8], fixed: Fixed) -> Outcome {
    let arena = fixed.arena;
    if fixed.equivalence == Equivalence::Label && case.random.one_in(2) {
        return case.call(Call::InferDefault {
            table,
            arena,
            work: arena,
        });
    }
    case.call(Call::Infer {
        table,
        equivalence: fixed.equivalence as u64,
        arena,
        work: arena,
    })
}

fn merge_two(case: &mut Case, at_hand: &mut Vec<Vec<u8>>, fixed: Fixed) -> Outcome {
    let first = at_hand.swap_remove(case.random.below(at_hand.len()));
    let second = at_hand.swap_remove(case.random.below(at_hand.len()));
    case.call(Call::Merge {
        first: &first,
        second: &second,
        equivalence: fixed.equivalence as u64,
        arena: fixed.arena,
    })
}

/// The ends of ways must be alike, and be what the profile of everything brought together says.
fn settle(case: &mut Case, row: usize, ends: &[Outcome], profile: &Profile, fixed: Fixed) {
    for end in ends {
        if !alike(end, &ends[0]) {
            case.fail("two ways of the same messages end differently\n");
        }
        if !agrees(end, profile, fixed) {
            let bytes = hex(&types::write(profile));
            case.fail(&format!("a way ends otherwise than its profile {bytes}\n"));
        }
        case.tally.add(row, end.number);
    }
}

/// Both are refused, or both have the same answer and arena.
fn alike(one: &Outcome, other: &Outcome) -> bool {
    if one.number != 0 && other.number != 0 {
        return true;
    }
    let answer = |end: &Outcome| (end.number, end.place, end.count);
    answer(one) == answer(other) && one.arena == other.arena
}

fn agrees(end: &Outcome, profile: &Profile, fixed: Fixed) -> bool {
    let too_many = types::SIZE * profile.len() > fixed.arena;
    match end.number {
        0 => {
            let mut bytes = types::write(profile);
            bytes.resize(fixed.arena, 0);
            let fits = !too_many && !passes_limit(&profile.counts);
            fits && end.place == 0 && end.count == profile.len() as u64 && end.arena == bytes
        }
        10 => passes_limit(&profile.counts),
        11 => too_many,
        _ => false,
    }
}
