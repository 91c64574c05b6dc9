//! Judges the bytes of types, and reads them back to profiles, or to counts where they are removal's types.

use crate::lengths::Lengths;
use crate::profile::{
    class, elements, passes_limit, totals, ArrayLengths, Counts, Equivalence, Place, Profile, Step,
};
use crate::types::{BARE, FIELD, SIZE};
use crate::value::{ARRAY, DEEPEST, RECORD, STRING};

/// The type of some whole records, if it is well formed under the equivalence.
pub fn read(bytes: &[u8], equivalence: Equivalence) -> Option<Profile> {
    let profile = read_rows(bytes, SIZE, equivalence)?;
    lengths_agree(&profile).then_some(profile)
}

/// The same of a type for removal, whose records have no lengths.
pub fn read_bare(bytes: &[u8], equivalence: Equivalence) -> Option<Counts> {
    Some(read_rows(bytes, BARE, equivalence)?.counts)
}

/// All but whether the lengths of arrays agree with the counts.
fn read_rows(bytes: &[u8], size: usize, equivalence: Equivalence) -> Option<Profile> {
    let rows: Vec<Row> = bytes.chunks(size).map(row).collect();
    let mut reader = Reader {
        equivalence,
        counts: Vec::new(),
        lengths: ArrayLengths::new(),
    };
    reader.union(&rows, &mut Place::new(), 1)?;
    // Each place comes before those inside it, so siblings ascend strictly exactly if all places do.
    if !reader.counts.windows(2).all(|two| two[0].0 < two[1].0) {
        return None;
    }
    let counts = reader.counts.into_iter().collect();
    let lengths = reader.lengths;
    counts_agree(&counts, equivalence).then_some(Profile { counts, lengths })
}

struct Row {
    kind: u8,
    zero: u8,
    key: u16,
    span: u32,
    count: u64,
    lengths: Lengths,
}

/// A record that ends before the lengths has none.
fn row(bytes: &[u8]) -> Row {
    let number = |at: usize| u32::from_le_bytes(bytes[at..at + 4].try_into().unwrap());
    let lengths = if bytes.len() == SIZE {
        Lengths {
            shortest: number(16),
            longest: number(20),
        }
    } else {
        Lengths::NONE
    };
    Row {
        kind: bytes[0],
        zero: bytes[1],
        key: u16::from_le_bytes([bytes[2], bytes[3]]),
        span: number(4),
        count: u64::from_le_bytes(bytes[8..16].try_into().unwrap()),
        lengths,
    }
}

/// The records of a run that stand in no other, each with what is inside it.
fn split(mut run: &[Row]) -> Option<Vec<(&Row, &[Row])>> {
    let mut items = Vec::new();
    while let Some(head) = run.first() {
        let span = head.span as usize;
        let odd_lengths = head.kind != ARRAY && head.lengths != Lengths::NONE;
        if head.zero != 0 || odd_lengths || span == 0 || span > run.len() {
            return None;
        }
        items.push((head, &run[1..span]));
        run = &run[span..];
    }
    Some(items)
}

/// Reads layout alone; the counts come in the order of the bytes.
struct Reader {
    equivalence: Equivalence,
    counts: Vec<(Place, u64)>,
    lengths: ArrayLengths,
}

impl Reader {
    /// A union whose classes follow `place`, which is given back as it was.
    fn union(&mut self, run: &[Row], place: &mut Place, depth: usize) -> Option<()> {
        for (addend, inner) in split(run)? {
            if addend.key != 0 || depth > DEEPEST {
                return None;
            }
            self.addend(addend, inner, place, depth)?;
        }
        Some(())
    }

    fn addend(
        &mut self,
        addend: &Row,
        inner: &[Row],
        place: &mut Place,
        depth: usize,
    ) -> Option<()> {
        let fields = if addend.kind == RECORD {
            split(inner)?
        } else {
            Vec::new()
        };
        let keys = fields.iter().map(|(field, _)| field.key);
        place.push(class(addend.kind, keys, self.equivalence));
        self.counts.push((place.clone(), addend.count));
        match addend.kind {
            1..=STRING if inner.is_empty() => {}
            RECORD => {
                for (field, union) in fields {
                    self.field(field, union, place, depth)?;
                }
            }
            ARRAY => {
                self.lengths.insert(place.clone(), addend.lengths);
                place.push(Step::Element);
                self.union(inner, place, depth + 1)?;
                place.pop();
            }
            _ => return None,
        }
        place.pop();
        Some(())
    }

    fn field(&mut self, field: &Row, union: &[Row], place: &mut Place, depth: usize) -> Option<()> {
        if field.kind != FIELD || field.key == 0 || union.is_empty() {
            return None;
        }
        place.push(Step::Key(field.key));
        self.counts.push((place.clone(), field.count));
        self.union(union, place, depth + 1)?;
        place.pop();
        Some(())
    }
}

fn counts_agree(counts: &Counts, equivalence: Equivalence) -> bool {
    let totals = totals(counts);
    let field_agrees = |place: &[Step], of_record: u64, count: u64| {
        let allowed = match equivalence {
            Equivalence::Kind => count <= of_record,
            Equivalence::Label => count == of_record,
        };
        allowed && totals[place] == u128::from(count)
    };
    let agrees = |(place, count): (&Place, &u64)| match place.split_last() {
        Some((Step::Key(_), record)) => field_agrees(place, counts[record], *count),
        _ => true,
    };
    counts.values().all(|count| *count >= 1) && counts.iter().all(agrees) && !passes_limit(counts)
}

fn lengths_agree(profile: &Profile) -> bool {
    let totals = totals(&profile.counts);
    let agrees = |(place, lengths): (&Place, &Lengths)| {
        lengths.allowed(profile.counts[place], elements(&totals, place))
    };
    profile.lengths.iter().all(agrees)
}
