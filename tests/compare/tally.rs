//! Counts how often each call and each way answered each number. A number that can occur must.

/// The rows of ways over tables, of merge trees over types, of merges taken apart, of merges of types under kind, of tables' types that are
/// folded, of folds with merges, of folds that have no room, and of calls on types in the former order of key lists, where 8 and 9 refuse
/// that order and any other number says that both orders agree; of former default types, from which parts are removed, and of types with
/// records of the other size; a call's row has its number.
pub const WAY: usize = 10;
pub const MERGES: usize = 11;
pub const APART: usize = 12;
pub const BY_KIND: usize = 13;
pub const FOLDED: usize = 14;
pub const FOLDED_MERGES: usize = 15;
pub const FOLD_FULL: usize = 16;
pub const FORMER_JUDGED: usize = 17;
pub const FORMER_MERGED: usize = 18;
pub const FORMER_REMOVED: usize = 19;
pub const FORMER_FOLDED: usize = 20;
pub const FORMER_DEFAULT: usize = 21;
pub const BARE_ELSEWHERE: usize = 22;
pub const NOT_BARE: usize = 23;

/// One more than the largest number that a call answers.
const NUMBERS: usize = 18;

const ROWS: [(&str, &[u64]); 23] = [
    ("1 judge a table", &[0, 1, 3, 4, 5, 6, 7, 15]),
    ("2 infer", &[0, 1, 2, 3, 4, 5, 6, 7, 11, 15]),
    ("3 infer, default", &[0, 1, 3, 4, 5, 6, 7, 11, 15]),
    ("4 judge a type", &[0, 1, 2, 8]),
    ("5 merge", &[0, 1, 2, 8, 9, 10, 11]),
    ("6 read a text", &[0, 1, 6, 7, 11, 12, 13, 14, 15]),
    ("7 remove", &[0, 1, 2, 8, 9, 11, 16]),
    ("8 infer, tag bus", &[0, 1, 3, 4, 5, 6, 7, 11, 17]),
    ("9 fold", &[0, 1, 8, 10, 11]),
    ("ways", &[0, 11]),
    ("merge trees", &[0, 10, 11]),
    ("merges apart", &[0, 1, 11]),
    ("kind types merged", &[0, 8, 9]),
    ("tables folded", &[0, 1, 11]),
    ("merges folded", &[0, 10, 11]),
    ("folds, no room", &[10, 11]),
    ("former order, 4", &[0, 8]),
    ("former order, 5", &[0, 8, 9]),
    ("former order, 7", &[0, 8, 9]),
    ("former order, 9", &[0, 8]),
    ("former defaults", &[0, 8]),
    ("16 bytes at 4, 5, 9", &[1, 8, 9]),
    ("24 bytes at 7", &[1, 8, 9]),
];

#[derive(Default)]
pub struct Tally([[u64; NUMBERS]; ROWS.len()]);

impl Tally {
    pub fn add(&mut self, row: usize, number: u64) {
        self.0[row - 1][number as usize] += 1;
    }

    /// How many calls were made; the rows behind theirs say again what some of them answered.
    pub fn calls(&self) -> u64 {
        self.0[..WAY - 1].iter().flatten().sum()
    }

    pub fn print(&self) {
        let columns: String = (0..NUMBERS).map(|number| format!("{number:>8}")).collect();
        println!("{:<20}{columns}", "");
        for ((name, _), counts) in ROWS.iter().zip(&self.0) {
            let columns: String = counts.iter().map(|count| format!("{count:>8}")).collect();
            println!("{name:<20}{columns}");
        }
    }

    /// The rows and numbers that can occur and never did.
    pub fn missing(&self) -> Vec<(&str, u64)> {
        let mut missing = Vec::new();
        for ((name, numbers), counts) in ROWS.iter().zip(&self.0) {
            let never = numbers
                .iter()
                .filter(|number| counts[**number as usize] == 0);
            missing.extend(never.map(|number| (*name, *number)));
        }
        missing
    }
}
