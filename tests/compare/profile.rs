//! Profiles as maps from places to counts and to the lengths of arrays. The order of places is the order of a type's records.

use crate::lengths::Lengths;
use crate::value::{Value, ARRAY, RECORD};
use std::cmp::Ordering;
use std::collections::BTreeMap;
use std::rc::Rc;

/// What a union may total in a type.
pub const LIMIT: u64 = 1_000_000_000_000_000;

#[derive(Clone, Copy, Debug, PartialEq)]
pub enum Equivalence {
    Kind,
    Label,
}

/// The key list of a record under label, else empty; shared, since every place inside the record has it.
#[derive(Clone)]
pub struct Keys(Rc<[u16]>);

#[derive(Clone, PartialEq, Eq, PartialOrd, Ord)]
pub enum Step {
    Class(u8, Keys),
    Key(u16),
    Element,
}

/// A place of a value ends in its class. A place that ends in a key is that of a field record.
pub type Place = Vec<Step>;

pub type Counts = BTreeMap<Place, u64>;

/// The places of arrays, each with the lengths of those at that place.
pub type ArrayLengths = BTreeMap<Place, Lengths>;

#[derive(Clone, Default)]
pub struct Profile {
    pub counts: Counts,
    pub lengths: ArrayLengths,
}

impl Profile {
    /// The number of records of its type.
    pub fn len(&self) -> usize {
        self.counts.len()
    }
}

impl Keys {
    pub fn list(&self) -> &[u16] {
        &self.0
    }
}

impl Ord for Keys {
    /// Shorter lists come first; among lists of one length the first key that differs settles.
    fn cmp(&self, other: &Keys) -> Ordering {
        if Rc::ptr_eq(&self.0, &other.0) {
            return Ordering::Equal;
        }
        let lengths = self.0.len().cmp(&other.0.len());
        lengths.then_with(|| self.0.cmp(&other.0))
    }
}

impl PartialOrd for Keys {
    fn partial_cmp(&self, other: &Keys) -> Option<Ordering> {
        Some(self.cmp(other))
    }
}

impl PartialEq for Keys {
    fn eq(&self, other: &Keys) -> bool {
        self.cmp(other) == Ordering::Equal
    }
}

impl Eq for Keys {}

/// The class of a value with these keys of its own, in any order.
pub fn class(kind: u8, keys: impl Iterator<Item = u16>, equivalence: Equivalence) -> Step {
    let mut list = Vec::new();
    if kind == RECORD && equivalence == Equivalence::Label {
        list.extend(keys);
        list.sort();
    }
    Step::Class(kind, Keys(list.into()))
}

pub fn profile(messages: &[Value], equivalence: Equivalence) -> Profile {
    let mut seen = Seen {
        equivalence,
        counts: Counts::new(),
        arrays: BTreeMap::new(),
    };
    for message in messages {
        seen.value(message, &mut Place::new());
    }
    let lengths = seen.arrays.into_iter();
    Profile {
        counts: seen.counts,
        lengths: lengths
            .filter_map(|(place, elements)| Some((place, Lengths::of(&elements)?)))
            .collect(),
    }
}

/// The values that were seen: how many have each place, and how many elements each of the arrays at a place has.
struct Seen {
    equivalence: Equivalence,
    counts: Counts,
    arrays: BTreeMap<Place, Vec<usize>>,
}

impl Seen {
    /// A value and those inside it. `place` is what its class follows, and is given back as it was.
    fn value(&mut self, value: &Value, place: &mut Place) {
        let keys = value.inner.iter().map(|field| field.key);
        place.push(class(value.kind, keys, self.equivalence));
        self.count(place);
        if value.kind == ARRAY {
            let arrays = self.arrays.entry(place.clone()).or_default();
            arrays.push(value.inner.len());
        }
        for inner in &value.inner {
            if value.kind == RECORD {
                place.push(Step::Key(inner.key));
                self.count(place);
            } else {
                place.push(Step::Element);
            }
            self.value(inner, place);
            place.pop();
        }
        place.pop();
    }

    fn count(&mut self, place: &Place) {
        *self.counts.entry(place.clone()).or_insert(0) += 1;
    }
}

pub fn sum(first: &Profile, second: &Profile) -> Profile {
    let mut lengths = first.lengths.clone();
    for (place, of_second) in &second.lengths {
        join(&mut lengths, place.clone(), *of_second);
    }
    Profile {
        counts: sum_of_counts(&first.counts, &second.counts),
        lengths,
    }
}

fn join(lengths: &mut ArrayLengths, place: Place, others: Lengths) {
    let joined = lengths.entry(place).or_insert(others);
    *joined = joined.join(others);
}

pub fn sum_of_counts(first: &Counts, second: &Counts) -> Counts {
    let mut sum = first.clone();
    for (place, count) in second {
        *sum.entry(place.clone()).or_insert(0) += count;
    }
    sum
}

/// What is left of the first at every place, without places where nothing is; none if the second counts a place higher.
pub fn difference(first: &Counts, second: &Counts) -> Option<Counts> {
    let mut rest = first.clone();
    for (place, count) in second {
        let left = rest.get_mut(place)?;
        *left = left.checked_sub(*count)?;
    }
    rest.retain(|_, count| *count > 0);
    Some(rest)
}

/// The profile under kind that one under label tells of: classes lose their key lists. Where places become one, counts add and lengths
/// join.
pub fn to_kind(profile: &Profile) -> Profile {
    let by_kind = |step: &Step| match step {
        Step::Class(kind, _) => class(*kind, std::iter::empty(), Equivalence::Kind),
        other => other.clone(),
    };
    let folded_place = |place: &Place| place.iter().map(by_kind).collect::<Place>();
    let mut folded = Profile::default();
    for (place, count) in &profile.counts {
        *folded.counts.entry(folded_place(place)).or_insert(0) += count;
    }
    for (place, lengths) in &profile.lengths {
        join(&mut folded.lengths, folded_place(place), *lengths);
    }
    folded
}

/// The total of each union, by what the classes of its addends follow.
pub fn totals(counts: &Counts) -> BTreeMap<&[Step], u128> {
    let mut totals = BTreeMap::new();
    for (place, count) in counts {
        if let Some((Step::Class(..), union)) = place.split_last() {
            *totals.entry(union).or_insert(0) += u128::from(*count);
        }
    }
    totals
}

/// Whether values at a place are arrays.
pub fn is_array(place: &Place) -> bool {
    matches!(place.last(), Some(Step::Class(ARRAY, _)))
}

/// What the totals say of the elements of the arrays at a place: 0 where all of them are empty.
pub fn elements(totals: &BTreeMap<&[Step], u128>, array: &Place) -> u128 {
    let content: Place = array.iter().cloned().chain([Step::Element]).collect();
    totals.get(&content[..]).copied().unwrap_or(0)
}

pub fn passes_limit(counts: &Counts) -> bool {
    totals(counts)
        .values()
        .any(|total| *total > u128::from(LIMIT))
}
