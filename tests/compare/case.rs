//! One random case: compares its calls, counts their answers, and ends the run at the first difference.

use crate::calls::{Call, Outcome};
use crate::library;
use crate::random::Random;
use crate::tally::Tally;

pub struct Case<'a> {
    pub seed: u64,
    pub index: u64,
    pub random: Random,
    pub tally: &'a mut Tally,
}

impl<'a> Case<'a> {
    pub fn new(seed: u64, index: u64, tally: &'a mut Tally) -> Case<'a> {
        Case {
            seed,
            index,
            random: Random::new(seed, index),
            tally,
        }
    }

    /// The outcome of a call, which the library and the reference must agree on.
    pub fn call(&mut self, call: Call) -> Outcome {
        let expected = call.expected();
        match library::run(&call, &mut self.random) {
            Ok(found) if found == expected => {}
            Ok(found) => self.fail(&format!(
                "{}expected{}found{}",
                show_call(&call),
                show_outcome(&expected),
                show_outcome(&found)
            )),
            Err(what) => self.fail(&format!("{}{what}\n", show_call(&call))),
        }
        self.tally.add(call.number(), expected.number);
        expected
    }

    pub fn fail(&self, what: &str) -> ! {
        print!("case {} of seed {}\n{what}", self.index, self.seed);
        std::process::exit(1);
    }
}

pub fn hex(bytes: &[u8]) -> String {
    bytes.iter().map(|byte| format!("{byte:02x}")).collect()
}

fn show_call(call: &Call) -> String {
    let inputs = match *call {
        Call::JudgeTable { table } => format!("table {}\n", hex(table)),
        Call::Infer {
            table,
            equivalence,
            arena,
            work,
        } => format!(
            "table {}\nequivalence {equivalence}, arena {arena}, working buffer {work}\n",
            hex(table)
        ),
        Call::InferDefault { table, arena, work } => {
            format!(
                "table {}\narena {arena}, working buffer {work}\n",
                hex(table)
            )
        }
        Call::JudgeType { bytes, equivalence } => {
            format!("type {}\nequivalence {equivalence}\n", hex(bytes))
        }
        Call::Merge {
            first,
            second,
            equivalence,
            arena,
        } => format!(
            "first {}\nsecond {}\nequivalence {equivalence}, arena {arena}\n",
            hex(first),
            hex(second)
        ),
        Call::ReadText { text, book, table } => {
            format!("text {}\nbook {}\ntable {table}\n", hex(text), hex(book))
        }
        Call::Remove {
            whole,
            part,
            equivalence,
            arena,
        } => format!(
            "whole {}\npart {}\nequivalence {equivalence}, arena {arena}\n",
            hex(whole),
            hex(part)
        ),
        Call::InferTagBus {
            table,
            arena,
            work,
            entries,
        } => format!(
            "table {}\narena {arena}, working buffer {work}, entries {entries}\n",
            hex(table)
        ),
        Call::Fold { bytes, arena, work } => {
            format!(
                "type {}\narena {arena}, working buffer {work}\n",
                hex(bytes)
            )
        }
    };
    format!("call {}\n{inputs}", call.number())
}

fn show_outcome(outcome: &Outcome) -> String {
    format!(
        " {} {} {}\narena {}\nworking buffer {}\nentries {}\n",
        outcome.number,
        outcome.place,
        outcome.count,
        hex(&outcome.arena),
        hex(&outcome.work),
        hex(&outcome.entries)
    )
}
