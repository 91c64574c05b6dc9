//! Cases of label types in the former order of key lists, in which the first key that differs settles and a list that begins the other
//! comes first. A type has it in every union or in one; the calls refuse that exactly where the two orders disagree.

use crate::calls::Call;
use crate::case::Case;
use crate::counted::counted;
use crate::crowded::crowded;
use crate::messages::Shape;
use crate::profile::{profile, sum, Equivalence, Profile};
use crate::random::Random;
use crate::removals;
use crate::tally::{FORMER_FOLDED, FORMER_JUDGED, FORMER_MERGED, FORMER_REMOVED};
use crate::type_reader;
use crate::types::{self, BARE, LARGEST, SIZE};
use crate::value::RECORD;
use crate::ways::{allowed_length, log};
use std::ops::Range;

const LABEL: u64 = Equivalence::Label as u64;

/// The bytes of a type with records of a size, and the bytes in which it may have been stored.
struct Stored {
    size: usize,
    ordered: Vec<u8>,
    former: Vec<u8>,
}

impl Stored {
    fn new(profile: &Profile, rewrite: Rewrite, random: &mut Random) -> Stored {
        let ordered = types::write(profile);
        let former = rewrite(&ordered, SIZE, random);
        Stored {
            size: SIZE,
            ordered,
            former,
        }
    }

    /// The same for removal.
    fn bare(profile: &Profile, rewrite: Rewrite, random: &mut Random) -> Stored {
        let ordered = types::write_bare(&profile.counts);
        let former = rewrite(&ordered, BARE, random);
        Stored {
            size: BARE,
            ordered,
            former,
        }
    }

    fn records(&self) -> usize {
        self.ordered.len() / self.size
    }

    fn orders_agree(&self) -> bool {
        self.former == self.ordered
    }
}

type Rewrite = fn(&[u8], usize, &mut Random) -> Vec<u8>;

/// Only type, first, second and both, with every union in the former order and with one.
pub fn stored(case: &mut Case) {
    let [one, other] = [(); 2].map(|()| some_type(&mut case.random));
    let whole = sum(&one, &other);
    for rewrite in [every_union as Rewrite, one_union] {
        let [first, second] =
            [&one, &other].map(|profile| Stored::new(profile, rewrite, &mut case.random));
        judge(case, &first);
        fold(case, &first);
        first_and_second(case, FORMER_MERGED, [&first, &second], merge);
        let [whole, part] =
            [&whole, &other].map(|profile| Stored::bare(profile, rewrite, &mut case.random));
        if removals::is_type(&whole.ordered, Equivalence::Label) {
            first_and_second(case, FORMER_REMOVED, [&whole, &part], remove);
        }
    }
}

fn is_type(bytes: &[u8]) -> bool {
    bytes.len() <= LARGEST && type_reader::read(bytes, Equivalence::Label).is_some()
}

/// A well-formed type. Many have unions with several key lists.
fn some_type(random: &mut Random) -> Profile {
    loop {
        let profile = match random.below(3) {
            0 => profile(&log(random), Equivalence::Label),
            1 => counted(&Shape::random(random), Equivalence::Label, random),
            _ => crowded(random.up_to(20), random),
        };
        if is_type(&types::write(&profile)) {
            return profile;
        }
    }
}

fn judge(case: &mut Case, stored: &Stored) {
    let answer = case.call(Call::JudgeType {
        bytes: &stored.former,
        equivalence: LABEL,
    });
    settle(case, FORMER_JUDGED, answer.number, refusal(stored, 8));
}

fn fold(case: &mut Case, stored: &Stored) {
    let arena = allowed_length(stored.records(), stored.size, &mut case.random);
    let answer = case.call(Call::Fold {
        bytes: &stored.former,
        arena,
        work: arena,
    });
    settle(case, FORMER_FOLDED, answer.number, refusal(stored, 8));
}

fn merge([first, second]: [&[u8]; 2], arena: usize) -> Call<'_> {
    Call::Merge {
        first,
        second,
        equivalence: LABEL,
        arena,
    }
}

fn remove([whole, part]: [&[u8]; 2], arena: usize) -> Call<'_> {
    Call::Remove {
        whole,
        part,
        equivalence: LABEL,
        arena,
    }
}

/// A call with either of two types in the former order, and with both.
fn first_and_second(
    case: &mut Case,
    row: usize,
    [first, second]: [&Stored; 2],
    call: fn([&[u8]; 2], usize) -> Call<'_>,
) {
    let refused = [refusal(first, 8), refusal(second, 9)];
    for (types, refused) in [
        ([&first.former, &second.ordered], refused[0]),
        ([&first.ordered, &second.former], refused[1]),
        ([&first.former, &second.former], refused[0].or(refused[1])),
    ] {
        let records = first.records() + second.records();
        let arena = allowed_length(records, first.size, &mut case.random);
        let answer = case.call(call([types[0], types[1]], arena));
        settle(case, row, answer.number, refused);
    }
}

/// The number that refuses a type, if its bytes are not those in order.
fn refusal(stored: &Stored, number: u64) -> Option<u64> {
    (!stored.orders_agree()).then_some(number)
}

/// A type whose orders agree is not refused for itself.
fn settle(case: &mut Case, row: usize, number: u64, refused: Option<u64>) {
    let agrees = match refused {
        Some(refusal) => number == refusal,
        None => ![8, 9].contains(&number),
    };
    if !agrees {
        case.fail(&format!("{number} answers a type in the former order\n"));
    }
    case.tally.add(row, number);
}

fn every_union(bytes: &[u8], size: usize, _: &mut Random) -> Vec<u8> {
    let mut former = bytes.to_vec();
    for run in runs(bytes, size) {
        let reordered = reordered(&former, &run, size);
        former[run].copy_from_slice(&reordered);
    }
    former
}

/// Any one of the unions that this changes, if there is one.
fn one_union(bytes: &[u8], size: usize, random: &mut Random) -> Vec<u8> {
    let mut changed = runs(bytes, size);
    changed.retain(|run| reordered(bytes, run, size) != bytes[run.clone()]);
    let mut former = bytes.to_vec();
    if !changed.is_empty() {
        let run = random.pick(&changed);
        former[run.clone()].copy_from_slice(&reordered(bytes, &run, size));
    }
    former
}

/// The unions of a type and the fields of its records, each behind those inside it.
fn runs(bytes: &[u8], size: usize) -> Vec<Range<usize>> {
    let mut runs = Vec::new();
    add_runs(bytes, 0..bytes.len(), size, &mut runs);
    runs
}

fn add_runs(bytes: &[u8], run: Range<usize>, size: usize, runs: &mut Vec<Range<usize>>) {
    for item in items(bytes, run.clone(), size) {
        add_runs(bytes, item.start + size..item.end, size, runs);
    }
    runs.push(run);
}

/// The addends or the fields of a run.
fn items(bytes: &[u8], run: Range<usize>, size: usize) -> Vec<Range<usize>> {
    let mut items = Vec::new();
    let mut start = run.start;
    while start < run.end {
        let span = u32::from_le_bytes(bytes[start + 4..start + 8].try_into().unwrap());
        let end = start + size * span as usize;
        items.push(start..end);
        start = end;
    }
    items
}

fn reordered(bytes: &[u8], run: &Range<usize>, size: usize) -> Vec<u8> {
    let mut items = items(bytes, run.clone(), size);
    items.sort_by_key(|item| label(bytes, item, size));
    items
        .into_iter()
        .flat_map(|item| bytes[item].to_vec())
        .collect()
}

/// The kind of an addend with its key list, or of a field with its key. Lists of keys are compared in the former order.
fn label(bytes: &[u8], item: &Range<usize>, size: usize) -> (u8, Vec<u16>) {
    let key = |at: usize| u16::from_le_bytes([bytes[at + 2], bytes[at + 3]]);
    let kind = bytes[item.start];
    let keys = match kind {
        RECORD => items(bytes, item.start + size..item.end, size)
            .iter()
            .map(|field| key(field.start))
            .collect(),
        _ => vec![key(item.start)],
    };
    (kind, keys)
}
