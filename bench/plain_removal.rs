//! Removal, which change 3 asks for, in plain Rust: what the proved removal is measured against. Its types have records of 16 bytes.

use crate::bare_arena::{clear_bare_rest, BareArena};
use crate::bare_front::{bare_front, bare_order, BareFront};
use crate::bare_validator::{bad_bare_length, validate_bare, BareHeader, RECORD};
use crate::pair::LABEL;
use std::cmp::Ordering;

const LENGTH: u64 = 1;
const SECOND: u64 = 9;
const NO_PART: u64 = 16;

/// Whether an addend or a field of a run counts more than this.
fn counts_above(mut run: &[u8], most: u64) -> bool {
    while !run.is_empty() {
        let first = bare_front(run);
        if first.header.count > most {
            return true;
        }
        run = first.rest;
    }
    false
}

struct Removal<'a> {
    arena: BareArena<'a>,
    label: bool,
}

impl Removal<'_> {
    /// Two unions, or the fields of two records; a field must not count more than `most`, which is left of its record.
    fn runs(&mut self, mut a: &[u8], mut b: &[u8], most: Option<u64>) -> Result<(), u64> {
        while !b.is_empty() {
            if a.is_empty() {
                return Err(NO_PART);
            }
            let (x, y) = (bare_front(a), bare_front(b));
            match bare_order(&x, &y, self.label) {
                Ordering::Less => self.keep(x.all, most)?,
                Ordering::Greater => return Err(NO_PART),
                Ordering::Equal => {
                    self.addends(&x, &y, most)?;
                    b = y.rest;
                }
            }
            a = x.rest;
        }
        self.keep(a, most)
    }

    /// Addends or fields that the part lacks.
    fn keep(&mut self, run: &[u8], most: Option<u64>) -> Result<(), u64> {
        if most.is_some_and(|most| counts_above(run, most)) {
            return Err(NO_PART);
        }
        self.arena.append(run);
        Ok(())
    }

    /// Two addends, or two fields, with one label.
    fn addends(&mut self, x: &BareFront, y: &BareFront, most: Option<u64>) -> Result<(), u64> {
        let BareHeader {
            kind, key, count, ..
        } = x.header;
        let count = count.checked_sub(y.header.count).ok_or(NO_PART)?;
        let too_many = most.is_some_and(|most| count > most);
        // Where nothing is left of a count, nothing may be left inside.
        if too_many || count == 0 && x.inside != y.inside {
            return Err(NO_PART);
        }
        if count > 0 {
            let at = self.arena.open();
            let most = (kind == RECORD).then_some(count);
            self.runs(x.inside, y.inside, most)?;
            self.arena.close(at, kind, key, count);
        }
        Ok(())
    }
}

fn removed(whole: &[u8], part: &[u8], equivalence: u64, arena: &mut [u8]) -> Result<usize, u64> {
    if [whole.len(), part.len(), arena.len()]
        .into_iter()
        .any(bad_bare_length)
    {
        return Err(LENGTH);
    }
    validate_bare(whole, equivalence)?;
    validate_bare(part, equivalence).map_err(|_| SECOND)?;
    let mut removal = Removal {
        arena: BareArena::new(arena),
        label: equivalence == LABEL,
    };
    removal.runs(whole, part, None)?;
    removal.arena.records()
}

/// The number of type records, or a refusal number.
pub fn remove(whole: &[u8], part: &[u8], equivalence: u64, arena: &mut [u8]) -> Result<usize, u64> {
    let answer = removed(whole, part, equivalence, arena);
    clear_bare_rest(arena, &answer);
    answer
}
