//! Call 9, which change 8 asks for, in plain Rust: what the proved fold is measured against. Unions that become one are taken together.

use crate::arena::{clear_rest, Arena};
use crate::front::{front, Front};
use crate::pair::LABEL;
use crate::type_validator::{bad_length, validate, Lengths, ARRAY, FIELD, MAX_TOTAL, RECORD};
use std::collections::BTreeMap;

const LENGTH: u64 = 1;
const TOTAL: u64 = 10;

/// The addends or fields of a run.
fn fronts(mut run: &[u8]) -> impl Iterator<Item = Front<'_>> {
    std::iter::from_fn(move || {
        if run.is_empty() {
            return None;
        }
        let first = front(run);
        run = first.rest;
        Some(first)
    })
}

/// The fields of one key: their count, and their unions.
#[derive(Default)]
struct Fields<'a> {
    count: u64,
    unions: Vec<&'a [u8]>,
}

struct Fold<'a> {
    arena: Arena<'a>,
    over: bool,
}

impl Fold<'_> {
    /// Unions that become one.
    fn unions(&mut self, unions: &[&[u8]]) {
        let mut counts = [0; 1 + ARRAY as usize];
        let (mut records, mut contents) = (Vec::new(), Vec::new());
        let mut lengths = None;
        for addend in unions.iter().flat_map(|union| fronts(union)) {
            counts[usize::from(addend.header.kind)] += addend.header.count;
            match addend.header.kind {
                RECORD => records.push(addend.inside),
                ARRAY => {
                    contents.push(addend.inside);
                    let of_addend = addend.header.lengths;
                    lengths = Some(lengths.map_or(of_addend, |l: Lengths| l.join(of_addend)));
                }
                _ => {}
            }
        }
        self.over |= counts.iter().sum::<u64>() > MAX_TOTAL;
        for kind in (1..=ARRAY).filter(|kind| counts[usize::from(*kind)] > 0) {
            let at = self.arena.open();
            let mut of_kind = Lengths::default();
            match kind {
                RECORD => self.records(&records),
                ARRAY => {
                    self.unions(&contents);
                    of_kind = lengths.unwrap_or_default();
                }
                _ => {}
            }
            let count = counts[usize::from(kind)];
            self.arena.close(at, kind, 0, count, of_kind);
        }
    }

    /// The fields of records that become one.
    fn records(&mut self, records: &[&[u8]]) {
        let mut of_key: BTreeMap<u16, Fields> = BTreeMap::new();
        for field in records.iter().flat_map(|record| fronts(record)) {
            let fields = of_key.entry(field.header.key).or_default();
            fields.count += field.header.count;
            fields.unions.push(field.inside);
        }
        for (key, Fields { count, unions }) in of_key {
            let at = self.arena.open();
            self.unions(&unions);
            self.arena.close(at, FIELD, key, count, Lengths::default());
        }
    }
}

fn folded(bytes: &[u8], arena: &mut [u8], work: usize) -> Result<usize, u64> {
    if bad_length(bytes.len()) || bad_length(arena.len()) || work != arena.len() {
        return Err(LENGTH);
    }
    validate(bytes, LABEL)?;
    let mut fold = Fold {
        arena: Arena::new(arena),
        over: false,
    };
    fold.unions(&[bytes]);
    if fold.over {
        return Err(TOTAL);
    }
    fold.arena.records()
}

/// The number of type records, or a refusal number.
pub fn fold(bytes: &[u8], arena: &mut [u8], work: &mut [u8]) -> Result<usize, u64> {
    let answer = folded(bytes, arena, work.len());
    clear_rest(arena, &answer);
    work.fill(0);
    answer
}
