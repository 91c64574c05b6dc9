//! Compares and times the calls of the library against plain Rust of the same rules.
//!
//! Arguments: the files with a log, as a value table and as text, and with its key book; then `texts` to time the reading of texts only,
//! `removals` for removal, `tagbus` for the inference for the tag bus beside call 2, or `folds` for folding.

mod arena;
mod bare_arena;
mod bare_front;
mod bare_validator;
mod comparing;
mod folds;
mod front;
mod growth;
mod inferences;
mod judges;
mod merges;
mod pair;
mod plain_fold;
mod plain_inference;
mod plain_merge;
mod plain_reader;
mod plain_removal;
mod plain_tag_bus;
mod plain_tokens;
mod readings;
mod removals;
mod sequence;
mod tables;
mod tag_bus;
mod texts;
mod timing;
mod type_validator;
mod types;
mod validator;

use pair::Workload;

/// The calls that write a type, with tables of n records and types of a third as many, or half as many where they have no lengths.
fn writers(n: usize, log: &[u8]) -> Vec<Workload> {
    let mut workloads = inferences::workloads(n, log);
    workloads.extend(merges::workloads(n as u16 / 3));
    workloads.extend(removals::workloads(n as u16 / 2, log));
    workloads
}

fn workloads(n: usize, log: &[u8]) -> Vec<Workload> {
    let mut workloads = judges::of_tables(n);
    workloads.extend(judges::of_types(n as u16 / 3));
    workloads.extend(writers(n, log));
    workloads.extend(removals::refused_workloads(n as u16 / 2));
    workloads
}

/// Removals alone; the refused ones take no part in the table of growth.
fn removals(n: usize, log: &[u8]) -> Vec<Workload> {
    let mut workloads = removals::workloads(n as u16 / 2, log);
    workloads.extend(removals::refused_workloads(n as u16 / 2));
    workloads
}

fn compare(workloads: &[Workload], turns: usize) {
    for workload in workloads {
        comparing::compare(workload, turns);
    }
}

/// `all` and `growing` give workloads for a number of records.
fn types(all: impl Fn(usize) -> Vec<Workload>, growing: impl Fn(usize) -> Vec<Workload>) {
    let largest = all(8192);
    compare(&all(150), 20_000);
    compare(&largest, 10);
    timing::report(&largest);
    println!();
    growth::report(|kib| growing(128 * kib));
    println!();
}

fn tag_bus(log: &[u8]) {
    let largest = tag_bus::workloads(8192, log);
    for (workloads, turns) in [(&tag_bus::workloads(100, log), 20_000), (&largest, 10)] {
        for workload in workloads {
            tag_bus::compare(workload, turns);
        }
    }
    tag_bus::report(&largest);
    println!();
}

fn folds(log: &[u8]) {
    let largest = folds::rows(8192, log);
    let refused = folds::refused_workloads(8192 / 3);
    for (rows, turns) in [(&folds::rows(300, log), 20_000), (&largest, 10)] {
        for row in rows {
            folds::compare(row, turns);
        }
    }
    compare(&folds::refused_workloads(100), 20_000);
    compare(&refused, 10);
    folds::report(&largest);
    println!();
    timing::report(&refused);
    println!();
    growth::report(|kib| folds::growing(128 * kib / 3));
    println!();
}

fn texts(log: &[u8], book: &[u8]) {
    let log = std::str::from_utf8(log).expect("a text in UTF-8");
    let texts = readings::workloads(log, book);
    for text in &texts {
        readings::compare(text, 32);
    }
    readings::report(&texts);
}

fn main() {
    let arguments: Vec<String> = std::env::args().skip(1).collect();
    let file = |i: usize| std::fs::read(&arguments[i]).expect("a file that can be read");
    let log = file(0);
    match arguments.get(3).map(String::as_str) {
        Some("texts") => texts(&file(1), &file(2)),
        Some("removals") => types(
            |n| removals(n, &log),
            |n| removals::workloads(n as u16 / 2, &log),
        ),
        Some("tagbus") => tag_bus(&log),
        Some("folds") => folds(&log),
        _ => {
            types(|n| workloads(n, &log), |n| writers(n, &log));
            tag_bus(&log);
            folds(&log);
            texts(&file(1), &file(2));
        }
    }
}
