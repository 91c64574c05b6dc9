//! Every small type, each tried once: as a whole with every one as a part, and with lengths judged, folded and merged. What must be left of
//! a whole is found by merging the part with every small type: one that is left has no more records and no higher counts than the whole,
//! so it is small too.

use crate::calls::{Call, Outcome};
use crate::case::{hex, Case};
use crate::folds::fold;
use crate::lengths::Lengths;
use crate::profile::{
    elements, is_array, sum_of_counts, totals, Counts, Equivalence, Place, Profile,
};
use crate::runs::runs;
use crate::single::EQUIVALENCES;
use crate::type_reader;
use crate::types::{self, BARE, FIELD, SIZE};
use crate::value::{ARRAY, RECORD};
use std::collections::BTreeMap;

const NULL: u8 = 1;
const KEYS: [u16; 2] = [1, 2];

/// Lengths are tried up to this.
const MOST_ELEMENTS: u32 = 5;

/// Types are merged in pairs if they have no more records.
const MERGED: usize = 3;

/// Which types are small.
struct Small {
    kinds: &'static [u8],
    records: usize,
    counts: &'static [u64],
}

/// Small in two ways, since all kinds in five records, which two fields take, would be too many types.
const SMALL: [Small; 2] = [
    Small {
        kinds: &[NULL, RECORD, ARRAY],
        records: 4,
        counts: &[1, 2],
    },
    Small {
        kinds: &[NULL, RECORD],
        records: 5,
        counts: &[1, 2, 3],
    },
];

/// The bytes of each type for removal, with its counts.
type Types = BTreeMap<Vec<u8>, Counts>;

pub fn compare(case: &mut Case) {
    for small in SMALL {
        for equivalence in EQUIVALENCES {
            let types = small.types(equivalence);
            every_pair(case, &types, equivalence);
            let profiles: Vec<Profile> = types.values().flat_map(with_lengths).collect();
            for profile in &profiles {
                other_lengths(case, profile, equivalence);
                if equivalence == Equivalence::Label {
                    fold_with_rooms(case, &types::write(profile));
                }
            }
            every_merge(case, &profiles, equivalence);
        }
    }
}

fn every_pair(case: &mut Case, types: &Types, equivalence: Equivalence) {
    for (part, counts) in types {
        let rests = rests(case, counts, types);
        for whole in types.keys() {
            let rest = rests.get(whole).copied();
            remove(case, [whole, part], equivalence, rest);
        }
    }
}

/// Counts with all lengths of their arrays that go with them.
fn with_lengths(counts: &Counts) -> Vec<Profile> {
    let totals = totals(counts);
    let mut all = vec![Profile {
        counts: counts.clone(),
        ..Profile::default()
    }];
    for (place, count) in counts.iter().filter(|(place, _)| is_array(place)) {
        let elements = elements(&totals, place);
        let allowed = two_lengths().filter(|lengths| lengths.allowed(*count, elements));
        let with = |lengths| all.iter().map(move |one| with_one(one, place, lengths));
        all = allowed.flat_map(with).collect();
    }
    all
}

/// Every two numbers that may be tried as lengths.
fn two_lengths() -> impl Iterator<Item = Lengths> {
    let shortest = 0..=MOST_ELEMENTS;
    shortest.flat_map(|shortest| {
        let longest = 0..=MOST_ELEMENTS;
        longest.map(move |longest| Lengths { shortest, longest })
    })
}

fn with_one(profile: &Profile, place: &Place, lengths: Lengths) -> Profile {
    let mut profile = profile.clone();
    profile.lengths.insert(place.clone(), lengths);
    profile
}

/// Judges a type, and with any lengths in one of its arrays.
fn other_lengths(case: &mut Case, profile: &Profile, equivalence: Equivalence) {
    let places = profile.lengths.keys();
    let others = places.flat_map(|place| two_lengths().map(move |two| (place, two)));
    let others = others.map(|(place, two)| with_one(profile, place, two));
    for other in others.chain([profile.clone()]) {
        case.call(Call::JudgeType {
            bytes: &types::write(&other),
            equivalence: equivalence as u64,
        });
    }
}

/// Every two types of few records.
fn every_merge(case: &mut Case, profiles: &[Profile], equivalence: Equivalence) {
    let few = profiles.iter().filter(|profile| profile.len() <= MERGED);
    let few: Vec<Vec<u8>> = few.map(types::write).collect();
    for first in &few {
        for second in &few {
            case.call(Call::Merge {
                first,
                second,
                equivalence: equivalence as u64,
                arena: first.len() + second.len(),
            });
        }
    }
}

/// With as much room as the type takes, with as much as the folded one needs, with one record less, and with none.
fn fold_with_rooms(case: &mut Case, bytes: &[u8]) {
    let folded = fold(case, bytes, [bytes.len(); 2]);
    let exact = SIZE * folded.count as usize;
    for arena in [exact, exact.saturating_sub(SIZE), 0] {
        fold(case, bytes, [arena; 2]);
    }
}

impl Small {
    fn types(&self, equivalence: Equivalence) -> Types {
        let bytes = (0..=self.records).flat_map(|records| self.unions(records));
        let read = |bytes: Vec<u8>| Some((type_reader::read_bare(&bytes, equivalence)?, bytes));
        let types = bytes.filter_map(read);
        types.map(|(counts, bytes)| (bytes, counts)).collect()
    }

    /// Unions of so many records, well formed or not.
    fn unions(&self, records: usize) -> Vec<Vec<u8>> {
        runs(records, &|n| self.addends(n))
    }

    fn addends(&self, records: usize) -> Vec<Vec<u8>> {
        let of_kind = |kind: &u8| match *kind {
            RECORD => self.with_head(RECORD, 0, runs(records - 1, &|n| self.fields(n))),
            ARRAY => self.with_head(ARRAY, 0, self.unions(records - 1)),
            _ if records == 1 => self.with_head(*kind, 0, vec![Vec::new()]),
            _ => Vec::new(),
        };
        self.kinds.iter().flat_map(of_kind).collect()
    }

    fn fields(&self, records: usize) -> Vec<Vec<u8>> {
        let unions = self.unions(records - 1);
        let fields = KEYS.map(|key| self.with_head(FIELD, key, unions.clone()));
        fields.concat()
    }

    /// Each run inside a record of this kind and key, with each count.
    fn with_head(&self, kind: u8, key: u16, runs: Vec<Vec<u8>>) -> Vec<Vec<u8>> {
        let mut all = Vec::new();
        for inner in runs {
            let span = (1 + inner.len() / BARE) as u32;
            let [low, high] = key.to_le_bytes();
            for count in self.counts {
                let numbers = [&span.to_le_bytes()[..], &count.to_le_bytes()].concat();
                all.push([&[kind, 0, low, high][..], &numbers, &inner].concat());
            }
        }
        all
    }
}

/// By the bytes of each merged type, the type that was merged with the part.
fn rests<'a>(case: &Case, part: &Counts, types: &'a Types) -> BTreeMap<Vec<u8>, &'a [u8]> {
    let mut rests = BTreeMap::new();
    for (rest, counts) in types {
        let whole = types::write_bare(&sum_of_counts(part, counts));
        if let Some(other) = rests.insert(whole, &rest[..]) {
            let [rest, other] = [rest, other].map(hex);
            case.fail(&format!(
                "one part gives the same with {rest} and {other}\n"
            ));
        }
    }
    rests
}

fn remove(case: &mut Case, types: [&[u8]; 2], equivalence: Equivalence, rest: Option<&[u8]>) {
    let [whole, part] = types;
    let left = case.call(Call::Remove {
        whole,
        part,
        equivalence: equivalence as u64,
        arena: whole.len(),
    });
    if !agrees(&left, rest) {
        let [whole, part] = types.map(hex);
        case.fail(&format!("merging tells otherwise of {whole} and {part}\n"));
    }
}

fn agrees(left: &Outcome, rest: Option<&[u8]>) -> bool {
    let number = if rest.is_some() { 0 } else { 16 };
    let bytes = rest.unwrap_or_default();
    let (front, behind) = left.arena.split_at(bytes.len());
    left.number == number && front == bytes && behind.iter().all(|byte| *byte == 0)
}
