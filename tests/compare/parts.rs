//! Random parts of a type for removal: types that count no place higher, and types that differ a little from another.

use crate::profile::{is_array, Counts, Equivalence, Place, Step};
use crate::random::Random;
use crate::{type_reader, types};
use std::ops::Bound::{Included, Unbounded};

/// How often a change is sought that leaves a type well formed.
const TRIES: usize = 9;

/// A well-formed type with places of a well-formed one, none counted higher there.
pub fn lessened(whole: &Counts, equivalence: Equivalence, random: &mut Random) -> Counts {
    let mut lesser = Lesser {
        whole,
        equivalence,
        leaves_none: random.one_in(2),
        part: Counts::new(),
        random,
    };
    for (place, most) in lesser.next(&[]) {
        let count = lesser.between(0, most);
        lesser.addend(place, count);
    }
    lesser.part
}

struct Lesser<'a> {
    whole: &'a Counts,
    equivalence: Equivalence,
    /// Whether it takes all that is inside an addend of which it takes all.
    leaves_none: bool,
    part: Counts,
    random: &'a mut Random,
}

impl Lesser<'_> {
    /// The places of the whole from this one on that begin with it.
    fn inside(&self, around: &[Step]) -> Vec<(Place, u64)> {
        let from = self.whole.range::<[Step], _>((Included(around), Unbounded));
        from.take_while(|(place, _)| place.starts_with(around))
            .map(|(place, count)| (place.clone(), *count))
            .collect()
    }

    /// Those that are one step further.
    fn next(&self, around: &[Step]) -> Vec<(Place, u64)> {
        let mut next = self.inside(around);
        next.retain(|(place, _)| place.len() == around.len() + 1);
        next
    }

    /// A number within these bounds, mostly at or near one of them.
    fn between(&mut self, least: u64, most: u64) -> u64 {
        match self.random.below(4) {
            0 => least,
            1 => most,
            2 => most.saturating_sub(1).max(least),
            _ => least + self.random.up_to(most - least + 1) - 1,
        }
    }

    fn addend(&mut self, mut place: Place, count: u64) {
        if count == 0 {
            return;
        }
        if self.leaves_none && count == self.whole[&place] {
            self.part.extend(self.inside(&place));
            return;
        }
        self.part.insert(place.clone(), count);
        for (field, most) in self.next(&place) {
            let total = match self.equivalence {
                Equivalence::Kind => self.between(0, most.min(count)),
                Equivalence::Label => count,
            };
            self.field(field, total);
        }
        if is_array(&place) {
            place.push(Step::Element);
            for (element, most) in self.next(&place) {
                let count = self.between(0, most);
                self.addend(element, count);
            }
        }
    }

    /// The addends of a field share out its total.
    fn field(&mut self, place: Place, total: u64) {
        if total == 0 {
            return;
        }
        let addends = self.next(&place);
        self.part.insert(place, total);
        let mut behind: u64 = addends.iter().map(|(_, most)| most).sum();
        let mut left = total;
        for (addend, most) in addends {
            behind -= most;
            let count = self.between(left.saturating_sub(behind), left.min(most));
            left -= count;
            self.addend(addend, count);
        }
    }
}

/// A well-formed type with a count one higher or lower than another, or without something in it; the same if none was found.
pub fn nudged(counts: &Counts, equivalence: Equivalence, random: &mut Random) -> Counts {
    if counts.is_empty() {
        return counts.clone();
    }
    for _ in 0..TRIES {
        let bytes = types::write_bare(&nudge(counts, random));
        if let Some(found) = type_reader::read_bare(&bytes, equivalence) {
            return found;
        }
    }
    counts.clone()
}

/// Changes a place, and the count of the field that it is a value of.
fn nudge(counts: &Counts, random: &mut Random) -> Counts {
    let mut nudged = counts.clone();
    let places: Vec<&Place> = counts.keys().collect();
    let place = random.pick(&places);
    let count = match random.below(3) {
        0 => counts[place] + 1,
        1 => counts[place] - 1,
        _ => 0,
    };
    if count == 0 {
        nudged.retain(|other, _| !other.starts_with(place));
    } else {
        nudged.insert(place.clone(), count);
    }
    let (last, around) = place.split_last().expect("no place is empty");
    let in_field = matches!((last, around.last()), (Step::Class(..), Some(Step::Key(_))));
    if in_field {
        let of_field = counts[around] - counts[place] + count;
        nudged.insert(around.to_vec(), of_field);
        nudged.retain(|_, count| *count > 0);
    }
    nudged
}
