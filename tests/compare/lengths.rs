//! The shortest and the longest of some arrays: joined, judged beside the counts of a type, and drawn for such counts.

use crate::random::Random;

/// No array of a type is longer.
pub const MOST_ELEMENTS: u64 = 8_192;

#[derive(Clone, Copy, Debug, PartialEq, Eq, PartialOrd, Ord)]
pub struct Lengths {
    pub shortest: u32,
    pub longest: u32,
}

impl Lengths {
    /// What records have that are no arrays.
    pub const NONE: Lengths = Lengths {
        shortest: 0,
        longest: 0,
    };

    /// Of arrays with these numbers of elements; none if there are no arrays.
    pub fn of(elements: &[usize]) -> Option<Lengths> {
        Some(Lengths {
            shortest: *elements.iter().min()? as u32,
            longest: *elements.iter().max()? as u32,
        })
    }

    pub fn join(self, other: Lengths) -> Lengths {
        Lengths {
            shortest: self.shortest.min(other.shortest),
            longest: self.longest.max(other.longest),
        }
    }

    pub fn bytes(self) -> [u8; 8] {
        let both = u64::from(self.longest) << 32 | u64::from(self.shortest);
        both.to_le_bytes()
    }

    /// Whether a well-formed type may have them where so many arrays have so many elements in all. In 128 bits no product wraps.
    pub fn allowed(self, arrays: u64, elements: u128) -> bool {
        let (shortest, longest) = (u128::from(self.shortest), u128::from(self.longest));
        let Some(others) = u128::from(arrays).checked_sub(1) else {
            return false;
        };
        shortest <= longest
            && longest <= u128::from(MOST_ELEMENTS)
            && longest + others * shortest <= elements
            && elements <= shortest + others * longest
    }

    /// Lengths that so many arrays with so many elements may have, often at an end of what is allowed; some that they may not have
    /// if none are allowed.
    pub fn drawn(arrays: u64, elements: u64, random: &mut Random) -> Lengths {
        let most = u128::from(MOST_ELEMENTS);
        let (n, m) = (u128::from(arrays), u128::from(elements));
        if n < 2 || m > most * n {
            let only = m.min(most) as u32;
            return Lengths {
                shortest: only,
                longest: only,
            };
        }
        let shortest = between(m.saturating_sub(most * (n - 1)), m / n, random);
        let least = shortest.max((m - shortest).div_ceil(n - 1));
        let longest = between(least, most.min(m - (n - 1) * shortest), random);
        Lengths {
            shortest: shortest as u32,
            longest: longest as u32,
        }
    }
}

/// A number from the least to the most, both at most the longest array.
fn between(least: u128, most: u128, random: &mut Random) -> u128 {
    match random.below(4) {
        0 => least,
        1 => most,
        _ => least + random.below((most - least + 1) as usize) as u128,
    }
}
