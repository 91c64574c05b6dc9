//! Random types under label that pass the limit when they are folded, or nearly do: records with different keys have arrays at one key.

use crate::counted::with_lengths;
use crate::lengths::MOST_ELEMENTS;
use crate::profile::{class, Counts, Equivalence, Place, Profile, Step};
use crate::random::Random;
use crate::value::{ARRAY, RECORD, STRING};

const NULL: u8 = 1;

/// The key of the arrays, and other keys that the records may have.
const SHARED: u16 = 3;
const OTHERS: [u16; 4] = [1, 2, 256, 65_535];

/// A type in which those arrays have so many elements in all.
pub fn crowded(elements: u64, random: &mut Random) -> Profile {
    let lists = lists(random);
    let elements = shares(elements, lists.len(), random);
    // With a null beside them there are still enough arrays for their elements.
    let records = |elements: &u64| elements.div_ceil(MOST_ELEMENTS) + random.up_to(3);
    let records: Vec<u64> = elements.iter().map(records).collect();
    let mut maker = Maker {
        counts: Counts::new(),
        place: Place::new(),
        random,
    };
    maker.around(records.iter().sum());
    for ((keys, count), elements) in lists.iter().zip(records).zip(elements) {
        maker.record(keys, count, elements);
    }
    with_lengths(maker.counts, random)
}

/// Two to five ascending key lists with the shared key.
fn lists(random: &mut Random) -> Vec<Vec<u16>> {
    let mut sets: Vec<usize> = (0..1 << OTHERS.len()).collect();
    random.shuffle(&mut sets);
    sets.truncate(2 + random.below(4));
    let list = |set: &usize| {
        let chosen = |i: &usize| set & 1 << i != 0;
        let others = (0..OTHERS.len()).filter(chosen).map(|i| OTHERS[i]);
        let mut keys: Vec<u16> = others.chain([SHARED]).collect();
        keys.sort();
        keys
    };
    sets.iter().map(list).collect()
}

/// So many numbers from 1 on that add up to a total, or fewer if that is too small.
fn shares(total: u64, parts: usize, random: &mut Random) -> Vec<u64> {
    let mut left = total;
    let mut shares = Vec::new();
    for others in (0..total.min(parts as u64)).rev() {
        let share = match others {
            0 => left,
            _ => random.up_to(left - others),
        };
        left -= share;
        shares.push(share);
    }
    shares
}

fn by_label(kind: u8, keys: &[u16]) -> Step {
    class(kind, keys.iter().copied(), Equivalence::Label)
}

struct Maker<'a> {
    counts: Counts,
    place: Place,
    random: &'a mut Random,
}

impl Maker<'_> {
    /// Goes a step on, to a place with this count.
    fn enter(&mut self, step: Step, count: u64) {
        self.place.push(step);
        self.counts.insert(self.place.clone(), count);
    }

    fn leaf(&mut self, kind: u8, count: u64) {
        self.enter(by_label(kind, &[]), count);
        self.place.pop();
    }

    /// Goes into some arrays and records, around a union of so many values.
    fn around(&mut self, values: u64) {
        for _ in 0..self.random.below(3) {
            if self.random.one_in(2) {
                self.enter(by_label(ARRAY, &[]), values);
                self.place.push(Step::Element);
            } else {
                let key = self.random.pick(&OTHERS);
                self.enter(by_label(RECORD, &[key]), values);
                self.enter(Step::Key(key), values);
            }
        }
    }

    fn record(&mut self, keys: &[u16], count: u64, elements: u64) {
        self.enter(by_label(RECORD, keys), count);
        for key in keys {
            self.enter(Step::Key(*key), count);
            if *key == SHARED {
                self.arrays(count, elements);
            } else {
                let kind = self.random.pick(&[NULL, STRING, ARRAY]);
                self.leaf(kind, count);
            }
            self.place.pop();
        }
        self.place.pop();
    }

    /// So many values, all of them arrays or all but one null.
    fn arrays(&mut self, count: u64, elements: u64) {
        let nulls = u64::from(count > 1 && self.random.one_in(2));
        if nulls > 0 {
            self.leaf(NULL, nulls);
        }
        self.enter(by_label(ARRAY, &[]), count - nulls);
        self.place.push(Step::Element);
        self.content(elements);
        self.place.pop();
        self.place.pop();
    }

    /// Nulls, empty records, and records with a null at one key.
    fn content(&mut self, elements: u64) {
        let classes = 1 + self.random.below(3);
        let mut counts = shares(elements, classes, self.random).into_iter();
        if let Some(nulls) = counts.next() {
            self.leaf(NULL, nulls);
        }
        if let Some(empty) = counts.next() {
            self.leaf(RECORD, empty);
        }
        if let Some(with_null) = counts.next() {
            let key = self.random.pick(&OTHERS);
            self.enter(by_label(RECORD, &[key]), with_null);
            self.enter(Step::Key(key), with_null);
            self.leaf(NULL, with_null);
            self.place.pop();
            self.place.pop();
        }
    }
}
