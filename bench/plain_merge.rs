//! Call 5 of document 01 in plain Rust: what the proved merge is measured against.

use crate::arena::{clear_rest, Arena};
use crate::front::{front, order, Front};
use crate::pair::LABEL;
use crate::type_validator::{bad_length, validate, MAX_TOTAL, RECORD};
use std::cmp::Ordering;

const LENGTH: u64 = 1;
const SECOND: u64 = 9;
const TOTAL: u64 = 10;

fn total(mut union: &[u8]) -> u64 {
    let mut sum = 0;
    while !union.is_empty() {
        let first = front(union);
        sum += first.header.count;
        union = first.rest;
    }
    sum
}

struct Merge<'a> {
    arena: Arena<'a>,
    label: bool,
    over: bool,
}

impl Merge<'_> {
    /// Two unions, or the fields of two records.
    fn runs(&mut self, mut a: &[u8], mut b: &[u8], fields: bool) {
        let mut sum = 0;
        while !a.is_empty() && !b.is_empty() {
            let (x, y) = (front(a), front(b));
            match order(&x, &y, self.label) {
                Ordering::Less => {
                    sum += x.header.count;
                    self.arena.append(x.all);
                    a = x.rest;
                }
                Ordering::Greater => {
                    sum += y.header.count;
                    self.arena.append(y.all);
                    b = y.rest;
                }
                Ordering::Equal => {
                    sum += x.header.count + y.header.count;
                    self.addends(&x, &y);
                    a = x.rest;
                    b = y.rest;
                }
            }
        }
        self.arena.append(a);
        self.arena.append(b);
        self.over |= !fields && sum + total(a) + total(b) > MAX_TOTAL;
    }

    /// Two addends, or two fields, with one label.
    fn addends(&mut self, x: &Front, y: &Front) {
        let at = self.arena.open();
        self.runs(x.inside, y.inside, x.header.kind == RECORD);
        let (x, y) = (&x.header, &y.header);
        let lengths = x.lengths.join(y.lengths);
        self.arena
            .close(at, x.kind, x.key, x.count + y.count, lengths);
    }
}

fn merged(first: &[u8], second: &[u8], equivalence: u64, arena: &mut [u8]) -> Result<usize, u64> {
    if [first.len(), second.len(), arena.len()]
        .into_iter()
        .any(bad_length)
    {
        return Err(LENGTH);
    }
    validate(first, equivalence)?;
    validate(second, equivalence).map_err(|_| SECOND)?;
    merged_unjudged(first, second, equivalence, arena)
}

/// The same of types that need no judging, which may be longer than those that a call takes.
pub fn merged_unjudged(
    first: &[u8],
    second: &[u8],
    equivalence: u64,
    arena: &mut [u8],
) -> Result<usize, u64> {
    let mut merge = Merge {
        arena: Arena::new(arena),
        label: equivalence == LABEL,
        over: false,
    };
    merge.runs(first, second, false);
    if merge.over {
        return Err(TOTAL);
    }
    merge.arena.records()
}

/// The number of type records, or a refusal number.
pub fn merge(
    first: &[u8],
    second: &[u8],
    equivalence: u64,
    arena: &mut [u8],
) -> Result<usize, u64> {
    let answer = merged(first, second, equivalence, arena);
    clear_rest(arena, &answer);
    answer
}
