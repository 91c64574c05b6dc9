//! Every run of some items, for the small tables and types.

/// Runs that have so many records in all; `items` gives the items that have a number of records.
pub fn runs(records: usize, items: &dyn Fn(usize) -> Vec<Vec<u8>>) -> Vec<Vec<u8>> {
    if records == 0 {
        return vec![Vec::new()];
    }
    let mut all = Vec::new();
    for first in 1..=records {
        let rests = runs(records - first, items);
        for item in items(first) {
            all.extend(rests.iter().map(|rest| [&item[..], rest].concat()));
        }
    }
    all
}
