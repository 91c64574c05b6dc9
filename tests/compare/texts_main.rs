//! Prints random texts with the answers of the reader in this folder, for `tests/texts.py`; the benchmark's plain reader must give the
//! same ones, and an accepted table must be one that call 1 accepts.
//!
//! Arguments: the number of texts and the seed. Before them it answers the inputs that it is given, a line each: text and book in
//! hexadecimal digits and the table's length, with commas between.

mod book;
mod books;
mod json;
#[path = "../../bench/plain_reader.rs"]
mod plain_reader;
#[path = "../../bench/plain_tokens.rs"]
mod plain_tokens;
mod random;
mod text_damage;
mod texts;
mod tokens;
mod value;
mod words;
mod writer;

use json::Read;
use random::Random;
use std::io::{read_to_string, stdin, stdout, BufWriter, Write};
use texts::Inputs;

fn hex(bytes: &[u8]) -> String {
    bytes.iter().map(|byte| format!("{byte:02x}")).collect()
}

fn unhex(digits: &str) -> Vec<u8> {
    let pairs = (0..digits.len()).step_by(2);
    let byte = |i| u8::from_str_radix(&digits[i..i + 2], 16).expect("hexadecimal digits");
    pairs.map(byte).collect()
}

fn given(line: &str) -> Inputs {
    let parts: Vec<&str> = line.split(',').collect();
    Inputs {
        text: unhex(parts[0]),
        book: unhex(parts[1]),
        table: parts[2].parse().expect("a length"),
    }
}

/// The plain reader's answer, in a table with something in it beforehand.
fn plain(inputs: &Inputs) -> Read {
    let mut table = vec![0xa5; inputs.table];
    let answer = plain_reader::read(&inputs.text, &inputs.book, &mut table);
    let (number, place) = answer.err().unwrap_or((0, 0));
    Read {
        number,
        place: place as u64,
        count: answer.unwrap_or(0) as u64,
        table,
    }
}

/// Inputs and answer; of the table what stands before its last zeros, and their number.
fn line(inputs: &Inputs) -> String {
    let Inputs { text, book, table } = inputs;
    let read = json::read(text, book, *table);
    assert!(read == plain(inputs), "another answer: {}", hex(text));
    let written = &read.table[..value::SIZE * read.count as usize];
    assert!(value::read(written).is_ok(), "no table: {}", hex(text));
    let used = read.table.iter().rposition(|byte| *byte != 0);
    let used = used.map_or(0, |last| last + 1);
    format!(
        "{},{},{table},{},{},{},{},{}",
        hex(text),
        hex(book),
        read.number,
        read.place,
        read.count,
        hex(&read.table[..used]),
        read.table.len() - used
    )
}

fn main() {
    let mut numbers = std::env::args().skip(1).map(|argument| {
        let number = argument.parse::<u64>();
        number.unwrap_or_else(|_| panic!("{argument} is no number"))
    });
    let texts = numbers.next().unwrap_or(50_000);
    let seed = numbers.next().unwrap_or(1);
    // All of it before the first answer, so that whoever gives them can do so before reading.
    let lines = read_to_string(stdin()).expect("lines of inputs");
    let given = lines.lines().map(given);
    let made = (0..texts).map(|index| texts::inputs(&mut Random::new(seed, index)));
    let mut out = BufWriter::new(stdout().lock());
    for inputs in given.chain(made) {
        // Nobody reads on once a difference is found.
        if writeln!(out, "{}", line(&inputs)).is_err() {
            return;
        }
    }
}
