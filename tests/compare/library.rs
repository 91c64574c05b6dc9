//! Runs a call in the library, in buffers with random bytes in and around them, and looks at what it must leave alone.

use crate::calls::{Call, Outcome};
use crate::random::Random;
use ct::raw::{self, Answer};
use ct::{Equivalence, Refusal};
use std::hint::black_box;
use std::ops::Range;

const GUARD: usize = 16;

/// The two forms of a call on two types.
type Safe = fn(&[u8], &[u8], Equivalence, &mut [u8]) -> Result<usize, Refusal>;
type Raw = fn(&[u8], &[u8], u64, &mut [u8]) -> Answer;

/// Bytes that are lent for a call, at any alignment, with guards before and behind them.
struct Lent {
    bytes: Vec<u8>,
    before: Vec<u8>,
    start: usize,
    end: usize,
}

impl Lent {
    fn random(random: &mut Random, length: usize) -> Lent {
        let start = GUARD + random.below(GUARD);
        let end = start + length;
        let bytes = random.bytes(end + GUARD);
        Lent {
            before: bytes.clone(),
            bytes,
            start,
            end,
        }
    }

    fn holding(random: &mut Random, content: &[u8]) -> Lent {
        let mut lent = Lent::random(random, content.len());
        lent.bytes[lent.start..lent.end].copy_from_slice(content);
        lent.before.copy_from_slice(&lent.bytes);
        lent
    }

    fn content(&self) -> &[u8] {
        &self.bytes[self.start..self.end]
    }

    fn content_mut(&mut self) -> &mut [u8] {
        &mut self.bytes[self.start..self.end]
    }

    /// An input must have kept its bytes; the black box keeps the compiler from taking that for granted.
    fn kept(&self) -> Result<(), &'static str> {
        if *black_box(&self.bytes) == self.before {
            return Ok(());
        }
        Err("an input has changed")
    }

    /// What the call left in a buffer, if it wrote there only.
    fn written(self) -> Result<Vec<u8>, &'static str> {
        let (start, end) = (self.start, self.end);
        if self.bytes[..start] != self.before[..start] || self.bytes[end..] != self.before[end..] {
            return Err("bytes beside a buffer have changed");
        }
        Ok(self.content().to_vec())
    }
}

pub fn run(call: &Call, random: &mut Random) -> Result<Outcome, &'static str> {
    match *call {
        Call::JudgeTable { table } => judge_table(table, random),
        Call::Infer {
            table,
            equivalence,
            arena,
            work,
        } => infer(table, Some(equivalence), [arena, work], random),
        Call::InferDefault { table, arena, work } => infer(table, None, [arena, work], random),
        Call::JudgeType { bytes, equivalence } => judge_type(bytes, equivalence, random),
        Call::Merge {
            first,
            second,
            equivalence,
            arena,
        } => {
            let call = (ct::merge as Safe, raw::merge as Raw);
            combine(call, [first, second], equivalence, arena, random)
        }
        Call::ReadText { text, book, table } => read_text([text, book], table, random),
        Call::Remove {
            whole,
            part,
            equivalence,
            arena,
        } => {
            let call = (ct::remove as Safe, raw::remove as Raw);
            combine(call, [whole, part], equivalence, arena, random)
        }
        Call::InferTagBus {
            table,
            arena,
            work,
            entries,
        } => infer_tag_bus(table, [arena, work, entries], random),
        Call::Fold { bytes, arena, work } => fold(bytes, [arena, work], random),
    }
}

fn judge_table(table: &[u8], random: &mut Random) -> Result<Outcome, &'static str> {
    let table = Lent::holding(random, table);
    let answer = if random.one_in(2) {
        answer(ct::judge_table(table.content()))
    } else {
        raw::judge_table(table.content())
    };
    table.kept()?;
    Ok(outcome(answer, Vec::new(), Vec::new()))
}

/// Call 2, or call 3 where no equivalence is given.
fn infer(
    table: &[u8],
    equivalence: Option<u64>,
    lengths: [usize; 2],
    random: &mut Random,
) -> Result<Outcome, &'static str> {
    let table = Lent::holding(random, table);
    let [mut arena, mut work] = lengths.map(|length| Lent::random(random, length));
    let (t, a, w) = (table.content(), arena.content_mut(), work.content_mut());
    let safe = equivalence.and_then(|number| safe(number, random));
    let answer = match (equivalence, safe) {
        (None, _) if random.one_in(2) => answer(ct::infer_default(t, a, w)),
        (None, _) => raw::infer_default(t, a, w),
        (_, Some(safe)) => answer(ct::infer(t, safe, a, w)),
        (Some(number), None) => raw::infer(t, number, a, w),
    };
    table.kept()?;
    Ok(outcome(answer, arena.written()?, work.written()?))
}

fn infer_tag_bus(
    table: &[u8],
    lengths: [usize; 3],
    random: &mut Random,
) -> Result<Outcome, &'static str> {
    let table = Lent::holding(random, table);
    let [mut arena, mut work, mut entries] = lengths.map(|length| Lent::random(random, length));
    let (t, a, w) = (table.content(), arena.content_mut(), work.content_mut());
    let e = entries.content_mut();
    let answer = if random.one_in(2) {
        answer(ct::infer_tag_bus(t, a, w, e))
    } else {
        raw::infer_tag_bus(t, a, w, e)
    };
    table.kept()?;
    Ok(Outcome {
        entries: entries.written()?,
        ..outcome(answer, arena.written()?, work.written()?)
    })
}

fn fold(bytes: &[u8], lengths: [usize; 2], random: &mut Random) -> Result<Outcome, &'static str> {
    let bytes = Lent::holding(random, bytes);
    let [mut arena, mut work] = lengths.map(|length| Lent::random(random, length));
    let (b, a, w) = (bytes.content(), arena.content_mut(), work.content_mut());
    let answer = if random.one_in(2) {
        answer(ct::fold(b, a, w))
    } else {
        raw::fold(b, a, w)
    };
    bytes.kept()?;
    Ok(outcome(answer, arena.written()?, work.written()?))
}

fn judge_type(
    bytes: &[u8],
    equivalence: u64,
    random: &mut Random,
) -> Result<Outcome, &'static str> {
    let bytes = Lent::holding(random, bytes);
    let answer = match safe(equivalence, random) {
        Some(safe) => answer(ct::judge_type(bytes.content(), safe)),
        None => raw::judge_type(bytes.content(), equivalence),
    };
    bytes.kept()?;
    Ok(outcome(answer, Vec::new(), Vec::new()))
}

/// A second type that is a part of the first slice, or that slice again, is lent as that.
fn combine(
    call: (Safe, Raw),
    types: [&[u8]; 2],
    equivalence: u64,
    arena: usize,
    random: &mut Random,
) -> Result<Outcome, &'static str> {
    let [first, second] = types.map(|bytes| Lent::holding(random, bytes));
    let mut arena = Lent::random(random, arena);
    let f = first.content();
    let s = match within(types[0], types[1]) {
        Some(place) => &f[place],
        None => second.content(),
    };
    let a = arena.content_mut();
    let answer = match safe(equivalence, random) {
        Some(safe) => answer(call.0(f, s, safe, a)),
        None => call.1(f, s, equivalence, a),
    };
    first.kept()?;
    second.kept()?;
    Ok(outcome(answer, arena.written()?, Vec::new()))
}

/// Where in a slice another one lies.
fn within(outer: &[u8], inner: &[u8]) -> Option<Range<usize>> {
    let start = (inner.as_ptr() as usize).checked_sub(outer.as_ptr() as usize)?;
    let end = start + inner.len();
    (end <= outer.len()).then_some(start..end)
}

fn read_text(
    inputs: [&[u8]; 2],
    table: usize,
    random: &mut Random,
) -> Result<Outcome, &'static str> {
    let [text, book] = inputs.map(|bytes| Lent::holding(random, bytes));
    let mut table = Lent::random(random, table);
    let (t, b, into) = (text.content(), book.content(), table.content_mut());
    let answer = if random.one_in(2) {
        answer(ct::read_text(t, b, into))
    } else {
        raw::read_text(t, b, into)
    };
    text.kept()?;
    book.kept()?;
    Ok(outcome(answer, table.written()?, Vec::new()))
}

/// The equivalence for the safe form of a call, which is used half of the time.
fn safe(number: u64, random: &mut Random) -> Option<Equivalence> {
    match number {
        0 if random.one_in(2) => Some(Equivalence::Kind),
        1 if random.one_in(2) => Some(Equivalence::Label),
        _ => None,
    }
}

fn answer(result: Result<usize, Refusal>) -> Answer {
    let refusal = result.err();
    Answer {
        number: refusal.map_or(0, Refusal::number),
        place: refusal.map_or(0, Refusal::place) as u64,
        count: result.unwrap_or(0) as u64,
    }
}

fn outcome(answer: Answer, arena: Vec<u8>, work: Vec<u8>) -> Outcome {
    Outcome {
        number: answer.number,
        place: answer.place,
        count: answer.count,
        arena,
        work,
        entries: Vec::new(),
    }
}
