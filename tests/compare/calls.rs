//! The calls: what each must answer and leave in the buffers lent to it, by its inputs.

use crate::json;
use crate::profile::{
    difference, passes_limit, profile, sum, sum_of_counts, to_kind, Counts, Equivalence, Profile,
};
use crate::type_reader;
use crate::types::{self, BARE};
use crate::value::{self, is_length, Fault};

/// The largest key on the tag bus.
pub const ON_BUS: u16 = 64;

/// A call with its inputs. `arena`, `work` and `entries` are the lengths of the buffers, and so is the `table` that a text is read into.
pub enum Call<'a> {
    JudgeTable {
        table: &'a [u8],
    },
    Infer {
        table: &'a [u8],
        equivalence: u64,
        arena: usize,
        work: usize,
    },
    InferDefault {
        table: &'a [u8],
        arena: usize,
        work: usize,
    },
    JudgeType {
        bytes: &'a [u8],
        equivalence: u64,
    },
    Merge {
        first: &'a [u8],
        second: &'a [u8],
        equivalence: u64,
        arena: usize,
    },
    ReadText {
        text: &'a [u8],
        book: &'a [u8],
        table: usize,
    },
    Remove {
        whole: &'a [u8],
        part: &'a [u8],
        equivalence: u64,
        arena: usize,
    },
    InferTagBus {
        table: &'a [u8],
        arena: usize,
        work: usize,
        entries: usize,
    },
    Fold {
        bytes: &'a [u8],
        arena: usize,
        work: usize,
    },
}

/// The answer, and every byte of the buffers. A text is read into the arena.
#[derive(PartialEq)]
pub struct Outcome {
    pub number: u64,
    pub place: u64,
    pub count: u64,
    pub arena: Vec<u8>,
    pub work: Vec<u8>,
    pub entries: Vec<u8>,
}

/// The number that an accepted call answers, and the type and the entries that it writes.
#[derive(Default)]
struct Accepted {
    count: usize,
    bytes: Vec<u8>,
    entries: Vec<u8>,
}

impl Call<'_> {
    /// The number of the call: 1 to 5 are document 01's.
    pub fn number(&self) -> usize {
        match self {
            Call::JudgeTable { .. } => 1,
            Call::Infer { .. } => 2,
            Call::InferDefault { .. } => 3,
            Call::JudgeType { .. } => 4,
            Call::Merge { .. } => 5,
            Call::ReadText { .. } => 6,
            Call::Remove { .. } => 7,
            Call::InferTagBus { .. } => 8,
            Call::Fold { .. } => 9,
        }
    }

    pub fn expected(&self) -> Outcome {
        match *self {
            Call::JudgeTable { table } => {
                let messages = value::read(table);
                settle(messages.map(|m| counted(m.len())), [0; 3])
            }
            Call::Infer {
                table,
                equivalence,
                arena,
                work,
            } => settle(infer(table, equivalence, arena, work), [arena, work, 0]),
            Call::InferDefault { table, arena, work } => {
                let default = Equivalence::Label as u64;
                settle(infer(table, default, arena, work), [arena, work, 0])
            }
            Call::JudgeType { bytes, equivalence } => {
                settle(judge_type(bytes, equivalence), [0; 3])
            }
            Call::Merge {
                first,
                second,
                equivalence,
                arena,
            } => settle(merge(first, second, equivalence, arena), [arena, 0, 0]),
            Call::ReadText { text, book, table } => read_text(text, book, table),
            Call::Remove {
                whole,
                part,
                equivalence,
                arena,
            } => settle(remove(whole, part, equivalence, arena), [arena, 0, 0]),
            Call::InferTagBus {
                table,
                arena,
                work,
                entries,
            } => {
                let lengths = [arena, work, entries];
                settle(infer_tag_bus(table, lengths), lengths)
            }
            Call::Fold { bytes, arena, work } => settle(fold(bytes, arena, work), [arena, work, 0]),
        }
    }
}

fn counted(count: usize) -> Accepted {
    Accepted {
        count,
        ..Accepted::default()
    }
}

/// The lengths are those of the arena, of the working buffer and of the entries.
fn settle(result: Result<Accepted, Fault>, lengths: [usize; 3]) -> Outcome {
    let (number, place) = *result.as_ref().err().unwrap_or(&(0, 0));
    let mut accepted = result.unwrap_or_default();
    accepted.bytes.resize(lengths[0], 0);
    accepted.entries.resize(lengths[2], 0);
    Outcome {
        number,
        place,
        count: accepted.count as u64,
        arena: accepted.bytes,
        work: vec![0; lengths[1]],
        entries: accepted.entries,
    }
}

fn infer(table: &[u8], number: u64, arena: usize, work: usize) -> Result<Accepted, Fault> {
    if !is_length(table.len(), value::SIZE) || !is_length(arena, types::SIZE) || work != arena {
        return Err((1, 0));
    }
    let equivalence = equivalence(number)?;
    let messages = value::read(table)?;
    fit(
        types::write(&profile(&messages, equivalence)),
        types::SIZE,
        arena,
    )
}

/// The lengths are those of the arena, of the working buffer and of the entries.
fn infer_tag_bus(table: &[u8], [arena, work, room]: [usize; 3]) -> Result<Accepted, Fault> {
    let bad_entries = !is_length(room, types::ENTRY);
    if bad_entries || !is_length(arena, types::SIZE) || work != arena {
        return Err((1, 0));
    }
    let profile = profile(&value::read_up_to(ON_BUS, table)?, Equivalence::Label);
    let entries = types::entries(&profile);
    if entries.len() > room {
        return Err((11, 0));
    }
    let accepted = fit(types::write(&profile), types::SIZE, arena)?;
    Ok(Accepted {
        entries,
        ..accepted
    })
}

fn judge_type(bytes: &[u8], number: u64) -> Result<Accepted, Fault> {
    if !is_length(bytes.len(), types::SIZE) {
        return Err((1, 0));
    }
    match type_reader::read(bytes, equivalence(number)?) {
        Some(profile) => Ok(counted(profile.len())),
        None => Err((8, 0)),
    }
}

/// Whether two types of records of a size, and an arena for a third, have lengths that they may have.
fn are_lengths(types: [&[u8]; 2], arena: usize, size: usize) -> bool {
    let lengths = [types[0].len(), types[1].len(), arena];
    lengths.into_iter().all(|n| is_length(n, size))
}

fn merge(first: &[u8], second: &[u8], number: u64, arena: usize) -> Result<Accepted, Fault> {
    if !are_lengths([first, second], arena, types::SIZE) {
        return Err((1, 0));
    }
    let equivalence = equivalence(number)?;
    let first: Profile = type_reader::read(first, equivalence).ok_or((8, 0))?;
    let second: Profile = type_reader::read(second, equivalence).ok_or((9, 0))?;
    let merged = sum(&first, &second);
    if passes_limit(&merged.counts) {
        return Err((10, 0));
    }
    fit(types::write(&merged), types::SIZE, arena)
}

/// Counts add at each place, so no type but the difference can give the whole. Whether it does is left to judging and merging its bytes.
fn remove(whole: &[u8], part: &[u8], number: u64, arena: usize) -> Result<Accepted, Fault> {
    if !are_lengths([whole, part], arena, BARE) {
        return Err((1, 0));
    }
    let equivalence = equivalence(number)?;
    let all: Counts = type_reader::read_bare(whole, equivalence).ok_or((8, 0))?;
    let part: Counts = type_reader::read_bare(part, equivalence).ok_or((9, 0))?;
    let rest = types::write_bare(&difference(&all, &part).ok_or((16, 0))?);
    let read = type_reader::read_bare(&rest, equivalence).ok_or((16, 0))?;
    if types::write_bare(&sum_of_counts(&read, &part)) != whole {
        return Err((16, 0));
    }
    fit(rest, BARE, arena)
}

fn fold(bytes: &[u8], arena: usize, work: usize) -> Result<Accepted, Fault> {
    if !is_length(bytes.len(), types::SIZE) || !is_length(arena, types::SIZE) || work != arena {
        return Err((1, 0));
    }
    let by_label = type_reader::read(bytes, Equivalence::Label).ok_or((8, 0))?;
    let by_kind = to_kind(&by_label);
    if passes_limit(&by_kind.counts) {
        return Err((10, 0));
    }
    fit(types::write(&by_kind), types::SIZE, arena)
}

fn equivalence(number: u64) -> Result<Equivalence, Fault> {
    match number {
        0 => Ok(Equivalence::Kind),
        1 => Ok(Equivalence::Label),
        _ => Err((2, 0)),
    }
}

/// A type of records of a size in an arena.
fn fit(bytes: Vec<u8>, size: usize, arena: usize) -> Result<Accepted, Fault> {
    if bytes.len() > arena {
        return Err((11, 0));
    }
    Ok(Accepted {
        count: bytes.len() / size,
        bytes,
        entries: Vec::new(),
    })
}

fn read_text(text: &[u8], book: &[u8], table: usize) -> Outcome {
    let read = json::read(text, book, table);
    Outcome {
        number: read.number,
        place: read.place,
        count: read.count,
        arena: read.table,
        work: Vec::new(),
        entries: Vec::new(),
    }
}
