//! Call 6, which reads texts, beside a plain reader.

use crate::comparing::agree;
use crate::pair::{accepted, refused, Buffers, Inputs, Pair, KIND, LONGEST};
use crate::plain_reader;
use crate::sequence::Sequence;
use crate::texts::{self, Texts};
use crate::timing::{measure, Times, TIME};
use ct::raw::{self, Answer};

const VALUE: usize = 8;

fn proved(inputs: &Inputs, buffers: &mut Buffers) -> Answer {
    raw::read_text(&inputs.first, &inputs.second, &mut buffers.arena)
}

fn plain(inputs: &Inputs, buffers: &mut Buffers) -> Answer {
    match plain_reader::read(&inputs.first, &inputs.second, &mut buffers.arena) {
        Ok(records) => accepted(records),
        Err((number, place)) => refused(number, place),
    }
}

/// A text has no records: its size is that of a byte. It is read into the arena.
static READ: Pair = Pair {
    name: "6 read text",
    size: 1,
    writes: VALUE,
    proved,
    plain,
};

/// The call on several texts with one book.
pub struct Workload {
    name: &'static str,
    inputs: Vec<Inputs>,
}

fn workload(Texts { name, texts, book }: Texts) -> Workload {
    let inputs = |text| Inputs {
        first: text,
        second: book.clone(),
        equivalence: KIND,
    };
    Workload {
        name,
        inputs: texts.into_iter().map(inputs).collect(),
    }
}

pub fn workloads(log: &str, book: &[u8]) -> Vec<Workload> {
    let texts = texts::workloads(log, book);
    texts.into_iter().map(workload).collect()
}

/// Makes one record of the first two that stand on lines of their own: of the widest it is one with too many keys.
fn join(text: &mut Vec<u8>) {
    let between = text.windows(3).position(|bytes| bytes == b"}\n{");
    if let Some(at) = between {
        text.splice(at..at + 3, *b",");
    }
}

/// Cuts bytes short, changes one of them, leaves one out, or puts one in.
fn damage(bytes: &mut Vec<u8>, sequence: &mut Sequence) {
    let at = sequence.below(bytes.len() + 1);
    let piece: &[u8] = match sequence.below(4) {
        0 => return bytes.truncate(at),
        1 => b"",
        2 => &[sequence.below(256) as u8],
        _ => &b"\"\\{}[],:0e. n"[sequence.below(12)..][..1],
    };
    let end = bytes.len().min(at + sequence.below(2));
    bytes.splice(at..end, piece.iter().copied());
}

/// Both on a text, in tables around the one that just holds its records, and on damaged forms of the text and of the book; one of them has
/// two records made one.
fn compare_on(name: &str, inputs: &Inputs, turns: usize, sequence: &mut Sequence) {
    let answer = agree(&READ, name, inputs, [LONGEST, 0, 0]);
    assert_eq!(answer.number, 0, "{name} is not accepted");
    let exact = VALUE * answer.count as usize;
    for room in [exact, exact - VALUE, exact + 1, LONGEST + VALUE] {
        agree(&READ, name, inputs, [room, 0, 0]);
    }
    let mut joined = inputs.clone();
    join(&mut joined.first);
    agree(&READ, name, &joined, [exact, 0, 0]);
    for turn in 0..turns {
        let mut inputs = inputs.clone();
        let bytes = match turn % 8 {
            0 => &mut inputs.second,
            _ => &mut inputs.first,
        };
        damage(bytes, sequence);
        agree(&READ, name, &inputs, [exact, 0, 0]);
    }
}

/// Both on all texts of a workload.
pub fn compare(workload: &Workload, turns: usize) {
    let mut sequence = Sequence::new();
    for inputs in &workload.inputs {
        compare_on(workload.name, inputs, turns, &mut sequence);
    }
}

/// One table of all the texts.
pub fn report(workloads: &[Workload]) {
    println!(
        "{:<20}{:<28}  bytes       ct MB/s       Rust MB/s  ct/Rust     ct ms   Rust ms",
        "call", "text"
    );
    for workload in workloads {
        let lengths = workload.inputs.iter().map(|inputs| inputs.first.len());
        let bytes = lengths.sum::<usize>() as f64 / workload.inputs.len() as f64;
        let Times {
            proved,
            plain,
            ratio,
        } = measure(&READ, &workload.inputs, [LONGEST, 0], TIME);
        println!(
            "{:<20}{:<28}{bytes:>7.0}{:>14.0}{:>16.0}{ratio:>9.2}{:>10.3}{:>10.3}",
            READ.name,
            workload.name,
            1e3 * bytes / proved,
            1e3 * bytes / plain,
            proved / 1e6,
            plain / 1e6
        );
    }
}
