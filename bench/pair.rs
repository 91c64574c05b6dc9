//! A call of the library beside the same call in plain Rust.

use crate::type_validator::SIZE;
use ct::raw::Answer;

pub fn accepted(count: usize) -> Answer {
    Answer {
        number: 0,
        place: 0,
        count: count as u64,
    }
}

pub fn refused(number: u64, place: usize) -> Answer {
    Answer {
        number,
        place: place as u64,
        count: 0,
    }
}

/// The answer of a plain call that has no place to name.
pub fn answered(result: Result<usize, u64>) -> Answer {
    match result {
        Ok(records) => accepted(records),
        Err(number) => refused(number, 0),
    }
}

/// The answer of a plain inference.
pub fn answered_at(result: Result<usize, (u64, usize)>) -> Answer {
    match result {
        Ok(records) => accepted(records),
        Err((number, place)) => refused(number, place),
    }
}

pub const KIND: u64 = 0;
pub const LABEL: u64 = 1;

/// What a call reads. Only a merge, a removal and a reader of texts have a second input, another type or the book. The judge of tables,
/// the reader and a fold ask for no equivalence.
#[derive(Clone)]
pub struct Inputs {
    pub first: Vec<u8>,
    pub second: Vec<u8>,
    pub equivalence: u64,
}

/// What a call writes. Only an inference and a fold have a working buffer, only the inference for the tag bus has entries, and the judges
/// have no arena; the reader's is a table.
#[derive(PartialEq)]
pub struct Buffers {
    pub arena: Vec<u8>,
    pub work: Vec<u8>,
    pub entries: Vec<u8>,
}

pub type Call = fn(&Inputs, &mut Buffers) -> Answer;

pub struct Pair {
    pub name: &'static str,
    /// The size of a record of the inputs.
    pub size: usize,
    /// The size of a record that the call writes to the arena; 0 if it writes none.
    pub writes: usize,
    pub proved: Call,
    pub plain: Call,
}

/// What a table, a text, a book, entries and removal's types have at most.
pub const LONGEST: usize = 65_536;

/// The length of the largest arena, and of the longest type.
pub const ROOM: usize = LONGEST / SIZE * SIZE;

/// A call on inputs, with an arena and entries of a length. A working buffer is as long as the arena.
pub struct Workload {
    pub pair: &'static Pair,
    pub name: String,
    pub inputs: Inputs,
    pub room: usize,
    pub entries: usize,
    /// What the call answers: 0, as it accepts most workloads, or a refusal number.
    pub number: u64,
}

impl Workload {
    /// A call that accepts its inputs, with the largest arena.
    pub fn accepted(pair: &'static Pair, name: &str, inputs: Inputs) -> Self {
        Workload {
            pair,
            name: name.to_string(),
            inputs,
            room: ROOM,
            entries: 0,
            number: 0,
        }
    }

    /// The number of records that the call reads.
    pub fn records(&self) -> usize {
        (self.inputs.first.len() + self.inputs.second.len()) / self.pair.size
    }
}
