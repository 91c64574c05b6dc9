//! Random inputs of a reader of JSON text: texts with every form of the grammar, books and lengths of tables, all of them good or bad.

use crate::books;
use crate::random::Random;
use crate::text_damage::damage;
use crate::value::{LONGEST, SIZE};
use crate::writer::Writer;

/// `table` is a length.
pub struct Inputs {
    pub text: Vec<u8>,
    pub book: Vec<u8>,
    pub table: usize,
}

pub fn inputs(random: &mut Random) -> Inputs {
    let keys = books::keys(random);
    let mut writer = Writer::new(&keys, random);
    writer.messages();
    let (mut text, values) = (writer.text, writer.values);
    if random.one_in(500) {
        text.resize(LONGEST + random.below(2), b' ');
    }
    if random.one_in(2) {
        damage(&mut text, random);
    }
    let mut book = books::written(&keys);
    if random.one_in(12) {
        books::spoil(&mut book, random);
    }
    let table = table_length(values, random);
    Inputs { text, book, table }
}

/// The length of a table about so many values.
fn table_length(values: usize, random: &mut Random) -> usize {
    let exact = SIZE * values.min(LONGEST / SIZE);
    match random.below(20) {
        0..=7 => exact,
        8..=9 => exact.saturating_sub(SIZE),
        10 => SIZE * random.below(values + 1),
        11 => 0,
        12 => exact + random.below(SIZE),
        13 => LONGEST + random.pick(&[0, 0, 0, 1, SIZE]),
        14..=15 => LONGEST,
        _ => exact + SIZE * random.below(8),
    }
}
