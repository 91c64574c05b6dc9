//! How the time of a call grows with its inputs, from 1 KiB to 64 KiB.

use crate::pair::Workload;
use std::time::Duration;

const TIME: Duration = Duration::from_millis(120);
const DOUBLINGS: u32 = 6;

fn line(call: &str, workload: &str, cells: impl Iterator<Item = String>) {
    let cells: String = cells.map(|cell| format!("{cell:>10}")).collect();
    println!("{call:<20}{workload:<28}{cells}");
}

/// Two lines for each of the workloads, which `of_kib` gives for a size.
pub fn report(of_kib: impl Fn(usize) -> Vec<Workload>) {
    let sizes = (0..=DOUBLINGS).map(|i| 1 << i);
    let heads = sizes.clone().map(|kib| format!("{kib} KiB"));
    line("call", "microseconds of ct", heads);
    let columns: Vec<_> = sizes.map(of_kib).collect();
    for (i, Workload { pair, name, .. }) in columns[0].iter().enumerate() {
        let times: Vec<_> = columns.iter().map(|c| c[i].measure(TIME)).collect();
        let microseconds = times.iter().map(|t| format!("{:.1}", t.proved / 1e3));
        line(pair.name, name, microseconds);
        let ratios = times.iter().map(|t| format!("{:.2}", t.ratio));
        line("", "  ct/Rust", ratios);
    }
    println!("The arena is the largest throughout.");
}
