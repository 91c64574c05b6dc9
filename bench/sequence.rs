//! A fixed sequence of numbers, so that every run has the same workloads and the same damage.

pub struct Sequence(u64);

impl Sequence {
    pub fn new() -> Self {
        Sequence(1)
    }

    /// The next number, below n.
    pub fn below(&mut self, n: usize) -> usize {
        self.0 = self
            .0
            .wrapping_mul(6364136223846793005)
            .wrapping_add(1442695040888963407);
        (self.0 >> 33) as usize % n
    }
}

/// The same items in a mixed order.
pub fn shuffled<T>(items: impl IntoIterator<Item = T>, sequence: &mut Sequence) -> Vec<T> {
    let mut items: Vec<T> = items.into_iter().collect();
    for i in (1..items.len()).rev() {
        items.swap(i, sequence.below(i + 1));
    }
    items
}
