//! Compares the library with a separately written implementation of documents 01 and 02, on random cases and on tables, texts and types
//! that are tried once each. Every second case has a text beside the other calls.
//!
//! Arguments: the number of cases, the seed, and the first case's number (to see one case again).

mod arrays;
mod book;
mod books;
mod calls;
mod case;
mod counted;
mod crowded;
mod damage;
mod extremes;
mod folds;
mod former_order;
mod full_records;
mod json;
mod key_lists;
mod lengths;
mod library;
mod long_arrays;
mod messages;
mod other_sizes;
mod parts;
mod profile;
mod random;
mod removals;
mod runs;
mod single;
mod small_arrays;
mod small_tables;
mod small_types;
mod tag_bus;
mod tally;
mod text_damage;
mod texts;
mod tokens;
mod type_reader;
mod types;
mod value;
mod ways;
mod words;
mod writer;

use case::Case;
use tally::Tally;

fn main() {
    let mut numbers = std::env::args().skip(1).map(|argument| {
        let number = argument.parse::<u64>();
        number.unwrap_or_else(|_| panic!("{argument} is no number"))
    });
    let cases = numbers.next().unwrap_or(100_000);
    let seed = numbers.next().unwrap_or(1);
    let first = numbers.next().unwrap_or(0);
    let mut tally = Tally::default();
    for index in first..first + cases {
        run(&mut Case::new(seed, index, &mut tally));
    }
    tally.print();
    let missing = tally.missing();
    if !missing.is_empty() {
        println!("no difference, but these numbers never occurred: {missing:?}");
        std::process::exit(1);
    }
    println!("{cases} cases of seed {seed}: no difference");
    let mut once = Tally::default();
    let mut case = Case::new(seed, 0, &mut once);
    full_records::compare(&mut case);
    extremes::compare(&mut case);
    key_lists::compare(&mut case);
    small_arrays::compare(&mut case);
    long_arrays::compare(&mut case);
    small_types::compare(&mut case);
    small_tables::compare(&mut case);
    println!("{} calls tried once each: no difference", once.calls());
}

fn run(case: &mut Case) {
    match case.random.below(24) {
        0..=2 => single::table(case),
        3..=4 => single::one_type(case),
        5..=7 => single::two_types(case),
        8 => ways::ways(case),
        9 => ways::merges(case),
        10 => ways::made_by_kind(case),
        11 => removals::apart(case),
        12..=13 => tag_bus::table(case),
        14 => folds::table(case),
        15 => folds::merges(case),
        16..=17 => folds::one_type(case),
        18 => former_order::stored(case),
        19 => removals::former_defaults(case),
        20 => other_sizes::types(case),
        _ => removals::whole_and_part(case),
    }
    if case.index % 2 == 0 {
        single::text(case);
    }
}
