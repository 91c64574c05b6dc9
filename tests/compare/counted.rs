//! Random types, as profiles with any counts up to the limit and any lengths that go with them, or with counts alone, as removal has them.
//! Sometimes a count breaks a rule.

use crate::lengths::{Lengths, MOST_ELEMENTS};
use crate::messages::{messages, Shape};
use crate::profile::{
    class, elements, is_array, profile, sum, sum_of_counts, totals, Counts, Equivalence, Place,
    Profile, Step, LIMIT,
};
use crate::random::Random;
use crate::value::{ARRAY, RECORD, STRING};
use std::collections::BTreeMap;

/// A type of messages, one with any counts, or the merged type of both.
pub fn counted(shape: &Shape, equivalence: Equivalence, random: &mut Random) -> Profile {
    let of_messages = profile(&messages(shape, random), equivalence);
    if random.one_in(3) {
        return of_messages;
    }
    let counts = any_counts(shape, equivalence, MOST_ELEMENTS, random);
    let made = with_lengths(counts, random);
    if random.one_in(3) {
        return sum(&of_messages, &made);
    }
    made
}

/// The same for removal, whose types say nothing of the lengths of arrays: one array may have as many elements as a union.
pub fn bare_counted(shape: &Shape, equivalence: Equivalence, random: &mut Random) -> Counts {
    let of_messages = profile(&messages(shape, random), equivalence).counts;
    if random.one_in(3) {
        return of_messages;
    }
    let made = any_counts(shape, equivalence, LIMIT, random);
    if random.one_in(3) {
        return sum_of_counts(&of_messages, &made);
    }
    made
}

/// Counts of arrays and their contents say which lengths there may be.
pub fn with_lengths(counts: Counts, random: &mut Random) -> Profile {
    let totals = totals(&counts);
    let arrays = counts.iter().filter(|(place, _)| is_array(place));
    let mut drawn = |(place, count): (&Place, &u64)| {
        let elements = u64::try_from(elements(&totals, place)).unwrap_or(u64::MAX);
        (place.clone(), Lengths::drawn(*count, elements, random))
    };
    let lengths = arrays.map(&mut drawn).collect();
    Profile { counts, lengths }
}

/// `most_elements` is what one array may have at most.
fn any_counts(
    shape: &Shape,
    equivalence: Equivalence,
    most_elements: u64,
    random: &mut Random,
) -> Counts {
    let mut maker = Maker {
        shape,
        equivalence,
        most_elements,
        slips: random.one_in(8),
        left: shape.records,
        counts: Counts::new(),
        random,
    };
    if maker.left > 0 {
        let total = maker.total(LIMIT);
        maker.union(total, &mut Place::new(), 1);
    }
    maker.counts
}

struct Maker<'a> {
    shape: &'a Shape,
    equivalence: Equivalence,
    most_elements: u64,
    slips: bool,
    left: usize,
    counts: Counts,
    random: &'a mut Random,
}

impl Maker<'_> {
    fn slip(&mut self) -> bool {
        self.slips && self.random.one_in(4)
    }

    /// A total of a union that no field sets, up to what it may be.
    fn total(&mut self, most: u64) -> u64 {
        if self.slip() {
            return self.random.pick(&[0, most + 1, LIMIT + 1, 1 << 63]);
        }
        match self.random.below(4) {
            0 => self.random.up_to(6).min(most),
            1 => self.random.up_to(most),
            2 => most.saturating_sub(self.random.up_to(9)).max(1),
            _ => self.random.pick(&[most / 2, most - 1, most]).max(1),
        }
    }

    fn field_total(&mut self, of_record: u64) -> u64 {
        if self.slip() {
            return self.random.pick(&[of_record - 1, of_record + 1]);
        }
        match self.equivalence {
            Equivalence::Kind if self.random.one_in(2) => self.random.up_to(of_record),
            _ => of_record,
        }
    }

    /// A union with this total, whose classes follow `place`.
    fn union(&mut self, total: u64, place: &mut Place, depth: usize) {
        let classes = self.classes(total, depth);
        let mut others = classes.len() as u64;
        let mut rest = total;
        for (class, (kind, keys)) in classes {
            others -= 1;
            let count = match others {
                0 => rest,
                _ => self.random.up_to(rest - others),
            };
            rest -= count;
            place.push(class);
            self.addend(kind, keys, count, place, depth);
            place.pop();
        }
    }

    /// At most `most` classes, each with its kind and, for a record, the keys that it is to have.
    fn classes(&mut self, most: u64, depth: usize) -> BTreeMap<Step, (u8, Vec<u16>)> {
        let mut classes = BTreeMap::new();
        for _ in 0..self.random.up_to(4).min(most) {
            let kind = self.random.pick(&[1, 2, 3, STRING, RECORD, RECORD, ARRAY]);
            let keys = self.keys(kind, depth);
            let class = class(kind, keys.iter().copied(), self.equivalence);
            classes.insert(class, (kind, keys));
        }
        classes
    }

    fn keys(&mut self, kind: u8, depth: usize) -> Vec<u16> {
        let mut keys = Vec::new();
        if kind == RECORD && depth < self.shape.deepest {
            keys = self.shape.some_keys(self.random);
        }
        keys.truncate(self.left);
        self.left -= keys.len();
        keys
    }

    fn addend(&mut self, kind: u8, keys: Vec<u16>, count: u64, place: &mut Place, depth: usize) {
        self.left = self.left.saturating_sub(1);
        self.counts.insert(place.clone(), count);
        for key in keys {
            let total = self.field_total(count);
            place.push(Step::Key(key));
            self.counts.insert(place.clone(), total);
            if !self.slip() {
                self.union(total, place, depth + 1);
            }
            place.pop();
        }
        if kind == ARRAY && depth < self.shape.deepest && self.left > 0 {
            let most = count.saturating_mul(self.most_elements).clamp(1, LIMIT);
            let total = self.total(most);
            place.push(Step::Element);
            self.union(total, place, depth + 1);
            place.pop();
        }
    }
}
