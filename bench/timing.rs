//! Times a call of the library and the same call in plain Rust, in rounds that alternate so that noise meets both.

use crate::pair::{Buffers, Call, Inputs, Pair, Workload};
use std::hint::black_box;
use std::time::{Duration, Instant};

extern "C" {
    /// Microseconds that the processor has spent on this process: other programs are not in them.
    fn clock() -> i64;
}

/// For how long each workload is measured.
pub const TIME: Duration = Duration::from_millis(800);
const SAMPLE: Duration = Duration::from_micros(500);
const FEWEST_ROUNDS: usize = 9;

/// Nanoseconds per call, and the first by the second. Each is a median over rounds: the machine's speed changes between rounds
/// more than within one, so the ratio is taken round by round.
pub struct Times {
    pub proved: f64,
    pub plain: f64,
    pub ratio: f64,
}

fn nanoseconds() -> f64 {
    // It takes no argument and touches nothing of ours.
    1e3 * unsafe { clock() } as f64
}

/// A turn is a call on each of the inputs.
fn time(call: Call, inputs: &[Inputs], buffers: &mut Buffers, turns: u32) -> f64 {
    let start = nanoseconds();
    for _ in 0..turns {
        for one in inputs {
            black_box(call(black_box(one), black_box(buffers)));
        }
    }
    (nanoseconds() - start) / f64::from(turns) / inputs.len() as f64
}

fn median(samples: impl Iterator<Item = f64>) -> f64 {
    let mut samples: Vec<f64> = samples.collect();
    samples.sort_by(f64::total_cmp);
    samples[samples.len() / 2]
}

/// How many turns of n calls a sample has, by the shortest of three runs of one; the clock shows no less than a microsecond.
fn turns(n: usize, mut run: impl FnMut() -> f64) -> u32 {
    let once = n as f64 * run().min(run()).min(run()).max(1e3);
    (SAMPLE.as_nanos() as f64 / once).max(1.0) as u32
}

/// Takes rounds for a time, with these lengths of the arena, which is that of the working buffer too, and of the entries.
pub fn measure(pair: &Pair, inputs: &[Inputs], lengths: [usize; 2], time_for: Duration) -> Times {
    let mut buffers = Buffers {
        arena: vec![0; lengths[0]],
        work: vec![0; lengths[0]],
        entries: vec![0; lengths[1]],
    };
    let mut run = |call, turns| time(call, inputs, &mut buffers, turns);
    let (proved, plain) = (pair.proved, pair.plain);
    let n = inputs.len();
    let turns = (turns(n, || run(proved, 1)), turns(n, || run(plain, 1)));
    let start = Instant::now();
    let mut rounds = Vec::new();
    while rounds.len() < FEWEST_ROUNDS || start.elapsed() < time_for {
        if rounds.len() % 2 == 0 {
            let of_proved = run(proved, turns.0);
            rounds.push((of_proved, run(plain, turns.1)));
        } else {
            let of_plain = run(plain, turns.1);
            rounds.push((run(proved, turns.0), of_plain));
        }
    }
    Times {
        proved: median(rounds.iter().map(|r| r.0)),
        plain: median(rounds.iter().map(|r| r.1)),
        ratio: median(rounds.iter().map(|r| r.0 / r.1)),
    }
}

impl Workload {
    pub fn measure(&self, time_for: Duration) -> Times {
        let inputs = std::slice::from_ref(&self.inputs);
        measure(self.pair, inputs, [self.room, self.entries], time_for)
    }
}

/// One table of all the workloads.
pub fn report(workloads: &[Workload]) {
    println!(
        "{:<20}{:<28}records  ct ns/record  Rust ns/record  ct/Rust     ct ms   Rust ms",
        "call", "workload"
    );
    for workload in workloads {
        let records = workload.records() as f64;
        let Times {
            proved,
            plain,
            ratio,
        } = workload.measure(TIME);
        println!(
            "{:<20}{:<28}{records:>7}{:>14.2}{:>16.2}{ratio:>9.2}{:>10.3}{:>10.3}",
            workload.pair.name,
            workload.name,
            proved / records,
            plain / records,
            proved / 1e6,
            plain / 1e6
        );
    }
}
