//! Reads a log from JSON text, brings its messages together in several ways, and says whether all of them end in the same bytes; then takes
//! the first messages out of its counts. At last folds the log's type, and infers it for the tag bus. `tests/ways.py` says which bytes.
//!
//! Arguments: the files with the log, as a value table and as text, and with the key book.

use ct::{Equivalence, Refusal};
use ct::{LARGEST_ARENA, LONGEST, REMOVAL_RECORD, TYPE_RECORD, VALUE_RECORD};
use std::collections::VecDeque;

/// In which order types are merged.
#[derive(Clone, Copy, PartialEq)]
enum Merges {
    /// Each type with what came before it, as soon as it is inferred.
    AsInferred,
    /// When all are inferred, from the last one to the first.
    LastFirst,
    /// When all are inferred, two neighbours at a time.
    InPairs,
}

/// How many messages are taken out of the log's type.
const SHIFT: usize = 100;

/// How the messages are ordered, how many go into a table, and how the tables' types are merged.
struct Way {
    name: &'static str,
    order: fn(&mut Vec<&[u8]>),
    messages: usize,
    merges: Merges,
}

const WAYS: [Way; 6] = [
    Way {
        name: "one table",
        order: |_| {},
        messages: usize::MAX,
        merges: Merges::AsInferred,
    },
    Way {
        name: "one message a table",
        order: |_| {},
        messages: 1,
        merges: Merges::AsInferred,
    },
    Way {
        name: "tables of 7, the last merged first",
        order: |_| {},
        messages: 7,
        merges: Merges::LastFirst,
    },
    Way {
        name: "backwards, tables of 25, in pairs",
        order: |messages| messages.reverse(),
        messages: 25,
        merges: Merges::InPairs,
    },
    Way {
        name: "shortest first, tables of 60",
        order: |messages| messages.sort_by_key(|message| message.len()),
        messages: 60,
        merges: Merges::AsInferred,
    },
    Way {
        name: "sorted by bytes, tables of 3, in pairs",
        order: |messages| messages.sort(),
        messages: 3,
        merges: Merges::InPairs,
    },
];

/// What all ways have in common.
#[derive(Clone, Copy)]
struct Fixed {
    equivalence: Equivalence,
    arena: usize,
}

/// The arena of an accepted call and the number of records in use.
struct Written {
    arena: Vec<u8>,
    records: usize,
}

impl Written {
    fn in_use(&self) -> &[u8] {
        &self.arena[..TYPE_RECORD * self.records]
    }

    /// The records as removal takes them, without lengths.
    fn without_lengths(&self) -> Vec<u8> {
        let records = self.in_use().chunks(TYPE_RECORD);
        let cut = records.flat_map(|record| &record[..REMOVAL_RECORD]);
        cut.copied().collect()
    }
}

impl Fixed {
    fn infer(self, table: &[u8]) -> Result<Written, Refusal> {
        let mut arena = vec![0; self.arena];
        let mut work = vec![0; self.arena];
        let records = ct::infer(table, self.equivalence, &mut arena, &mut work)?;
        Ok(Written { arena, records })
    }

    fn merge(self, first: &Written, second: &Written) -> Result<Written, Refusal> {
        let mut arena = vec![0; self.arena];
        let (first, second) = (first.in_use(), second.in_use());
        let records = ct::merge(first, second, self.equivalence, &mut arena)?;
        Ok(Written { arena, records })
    }

    /// The arena has as many records as the others.
    fn remove(self, whole: &Written, part: &Written) -> Result<Written, Refusal> {
        let mut arena = vec![0; self.arena / TYPE_RECORD * REMOVAL_RECORD];
        let (whole, part) = (whole.without_lengths(), part.without_lengths());
        let records = ct::remove(&whole, &part, self.equivalence, &mut arena)?;
        Ok(Written { arena, records })
    }

    /// What the counts of a log's type are without those of the first messages.
    fn without_shift(self, log: &[u8]) -> Result<Written, Refusal> {
        let whole = self.infer(log)?;
        let part = self.infer(&messages(log)[..SHIFT].concat())?;
        self.remove(&whole, &part)
    }

    /// The type that a way leaves. The first refusal ends it.
    fn bring(self, tables: &[Vec<u8>], merges: Merges) -> Result<Written, Refusal> {
        let mut at_hand = VecDeque::new();
        for table in tables {
            at_hand.push_back(self.infer(table)?);
            if merges == Merges::AsInferred {
                self.merge_all(&mut at_hand, merges)?;
            }
        }
        self.merge_all(&mut at_hand, merges)?;
        Ok(at_hand.pop_back().expect("a way has a table"))
    }

    fn merge_all(self, at_hand: &mut VecDeque<Written>, merges: Merges) -> Result<(), Refusal> {
        while at_hand.len() > 1 {
            let two = match merges {
                Merges::InPairs => at_hand.pop_front().zip(at_hand.pop_front()),
                _ => at_hand.pop_back().zip(at_hand.pop_back()),
            };
            let (first, second) = two.expect("two types are at hand");
            at_hand.push_back(self.merge(&first, &second)?);
        }
        Ok(())
    }
}

/// The messages of an accepted table.
fn messages(mut table: &[u8]) -> Vec<&[u8]> {
    let mut messages = Vec::new();
    while !table.is_empty() {
        let span = u32::from_le_bytes(table[4..8].try_into().unwrap());
        let (message, rest) = table.split_at(VALUE_RECORD * span as usize);
        messages.push(message);
        table = rest;
    }
    messages
}

/// Cuts messages into tables. A way has at least one.
fn tables(messages: &[&[u8]], most: usize) -> Vec<Vec<u8>> {
    if messages.is_empty() {
        return vec![Vec::new()];
    }
    messages.chunks(most).map(<[_]>::concat).collect()
}

/// A short digest of some bytes (FNV-1a), to be compared by eye.
fn digest(bytes: &[u8]) -> u64 {
    bytes.iter().fold(0xcbf2_9ce4_8422_2325, |digest, byte| {
        (digest ^ u64::from(*byte)).wrapping_mul(0x0000_0100_0000_01b3)
    })
}

/// Prints the line of a way, or of what is done with its end.
fn print_line(name: &str, tables: &str, result: &Result<Written, Refusal>) {
    let number = result.as_ref().err().map_or(0, |refusal| refusal.number());
    let records = result.as_ref().map_or(0, |written| written.records);
    let digest = result.as_ref().map_or(0, |written| digest(&written.arena));
    println!("{name:<40}{tables:>12}   answer {number:>2}{records:>6} records   {digest:016x}");
}

/// Goes one way, prints its line and gives the bytes that it leaves.
fn go(way: &Way, log: &[u8], fixed: Fixed) -> Result<Vec<u8>, Refusal> {
    let mut messages = messages(log);
    (way.order)(&mut messages);
    let tables = tables(&messages, way.messages);
    let result = fixed.bring(&tables, way.merges);
    print_line(way.name, &format!("{} tables", tables.len()), &result);
    result.map(|written| written.arena)
}

/// Goes every way and says whether they end alike.
fn compare(log: &[u8], fixed: Fixed) -> bool {
    println!("{:?}, arenas of {} bytes", fixed.equivalence, fixed.arena);
    let ends: Vec<_> = WAYS.iter().map(|way| go(way, log, fixed)).collect();
    let refused = ends.iter().all(Result::is_err);
    let same = ends.iter().all(|end| end.is_ok() && *end == ends[0]);
    let verdict = match (same, refused) {
        (true, _) => "the same bytes each time",
        (_, true) => "refused each time",
        _ => "THE WAYS DIFFER",
    };
    println!("{verdict}");
    let rest = fixed.without_shift(log);
    print_line(&format!("without the first {SHIFT} messages"), "", &rest);
    println!();
    same || refused
}

/// The log's type under kind, from that under label and without the log.
fn folded(log: &[u8]) -> Result<Written, Refusal> {
    let by_label = Fixed {
        equivalence: Equivalence::Label,
        arena: LARGEST_ARENA,
    };
    let detailed = by_label.infer(log)?;
    let [mut arena, mut work] = [(); 2].map(|()| vec![0; LARGEST_ARENA]);
    let records = ct::fold(detailed.in_use(), &mut arena, &mut work)?;
    Ok(Written { arena, records })
}

/// The log has seventeen keys, which the tag bus may have: its type is that under label, and the entries have the key sets.
fn for_tag_bus(log: &[u8]) {
    let [mut arena, mut work] = [(); 2].map(|()| vec![0; LARGEST_ARENA]);
    let mut entries = vec![0; LONGEST];
    let result = ct::infer_tag_bus(log, &mut arena, &mut work, &mut entries);
    let written = result.map(|records| Written { arena, records });
    print_line("for the tag bus", "", &written);
    println!("{:<81}{:016x}", "its entries", digest(&entries));
}

/// The value table of a text.
fn table(text: &[u8], book: &[u8]) -> Vec<u8> {
    let mut table = vec![0; LONGEST];
    let records = ct::read_text(text, book, &mut table).expect("a text that call 6 accepts");
    table.truncate(VALUE_RECORD * records);
    table
}

fn main() {
    let paths: Vec<String> = std::env::args().skip(1).collect();
    let file = |i: usize| std::fs::read(&paths[i]).expect("a file that can be read");
    let (log, text, book) = (file(0), file(1), file(2));
    let count = ct::judge_table(&log).expect("a table that call 1 accepts");
    println!("{}: {count} messages", paths[0]);
    assert!(table(&text, &book) == log, "{} is another table", paths[1]);
    println!("{}: {} bytes, the same table\n", paths[1], text.len());
    let mut alike = true;
    for (equivalence, arena) in [
        (Equivalence::Kind, LARGEST_ARENA),
        (Equivalence::Label, LARGEST_ARENA),
        (Equivalence::Label, TYPE_RECORD * 64),
    ] {
        alike &= compare(&log, Fixed { equivalence, arena });
    }
    print_line("label, folded to kind", "", &folded(&log));
    for_tag_bus(&log);
    std::process::exit(if alike { 0 } else { 1 });
}
