//! Lengths at borders, each tried once: arrays that fill a table or need a second byte for their length, types with numbers whose
//! products pass 32 or 64 bits, and every bit of a length in every kind of record.

use crate::calls::Call;
use crate::case::Case;
use crate::lengths::{Lengths, MOST_ELEMENTS};
use crate::messages::leaf;
use crate::profile::{profile, LIMIT};
use crate::single::EQUIVALENCES;
use crate::small_arrays::Arrays;
use crate::types::{self, LARGEST, SIZE};
use crate::value::{self, Value, ARRAY, LONGEST, RECORD};

/// Elements of arrays, of which two may fill a table.
const ELEMENTS: [usize; 11] = [0, 1, 2, 254, 255, 256, 257, 4_095, 4_096, 8_190, 8_191];

/// As many arrays as can have the most elements that a union may have.
const FULL: u64 = LIMIT / MOST_ELEMENTS;

const COUNTS: [u64; 17] = [
    1,
    2,
    3,
    FULL - 1,
    FULL,
    FULL + 1,
    1 << 31,
    1 << 32,
    (1 << 32) + 1,
    (1 << 33) + 1,
    (1 << 34) + 1,
    LIMIT - 1,
    LIMIT,
    LIMIT + 1,
    (1 << 51) + 1,
    1 << 63,
    u64::MAX,
];

const LENGTHS: [u32; 12] = [
    0,
    1,
    2,
    8_190,
    8_191,
    8_192,
    8_193,
    65_535,
    65_536,
    1 << 30,
    1 << 31,
    u32::MAX,
];

pub fn compare(case: &mut Case) {
    for first in ELEMENTS {
        for second in ELEMENTS {
            long(case, [first, second]);
        }
    }
    for count in COUNTS {
        for shortest in LENGTHS {
            for longest in LENGTHS {
                let lengths = Lengths { shortest, longest };
                numbers(case, count, lengths);
            }
        }
    }
    every_bit(case);
}

/// Two arrays in one table, if there is room, and in two.
fn long(case: &mut Case, elements: [usize; 2]) {
    let arrays = elements.map(|n| Value {
        kind: ARRAY,
        key: 0,
        inner: (0..n).map(|_| leaf(0, &mut case.random)).collect(),
    });
    for equivalence in EQUIVALENCES.map(|one| one as u64) {
        let table = value::write(&arrays);
        if table.len() <= LONGEST {
            infer(case, &table, equivalence);
        }
        let [first, second] = arrays.each_ref().map(|array| {
            let table = value::write(std::slice::from_ref(array));
            infer(case, &table, equivalence)
        });
        case.call(Call::Merge {
            first: &first,
            second: &second,
            equivalence,
            arena: LARGEST,
        });
    }
}

/// The type that is inferred.
fn infer(case: &mut Case, table: &[u8], equivalence: u64) -> Vec<u8> {
    let inferred = case.call(Call::Infer {
        table,
        equivalence,
        arena: LARGEST,
        work: LARGEST,
    });
    inferred.arena[..SIZE * inferred.count as usize].to_vec()
}

/// The elements are about both borders, and about what a product gives that loses its high bits.
fn numbers(case: &mut Case, count: u64, lengths: Lengths) {
    let (shortest, longest) = (u64::from(lengths.shortest), u64::from(lengths.longest));
    let least = longest.wrapping_add((count - 1).wrapping_mul(shortest));
    let most = shortest.wrapping_add((count - 1).wrapping_mul(longest));
    let mut all = vec![0, 1, FULL, LIMIT];
    for border in [least, most] {
        let narrow = u64::from(border as u32);
        for number in [border, narrow] {
            all.extend([number.wrapping_sub(1), number, number.wrapping_add(1)]);
        }
    }
    all.sort();
    all.dedup();
    for elements in all {
        let arrays = Arrays {
            count,
            elements,
            lengths,
        };
        as_every_type(case, &arrays.bytes());
    }
}

/// As the only type, as one that is folded, and as the first and the second that are merged.
fn as_every_type(case: &mut Case, bytes: &[u8]) {
    for equivalence in EQUIVALENCES.map(|one| one as u64) {
        case.call(Call::JudgeType { bytes, equivalence });
        for [first, second] in [[bytes, &[]], [&[], bytes], [bytes, bytes]] {
            case.call(Call::Merge {
                first,
                second,
                equivalence,
                arena: bytes.len(),
            });
        }
    }
    case.call(Call::Fold {
        bytes,
        arena: bytes.len(),
        work: bytes.len(),
    });
}

/// Changes each bit of each length in a type with every kind of record.
fn every_bit(case: &mut Case) {
    let value = |kind, key, inner| Value { kind, key, inner };
    let leaves = |key| (1..=RECORD).map(move |kind| value(kind, key, Vec::new()));
    let of_field = value(RECORD, 0, vec![value(ARRAY, 7, leaves(0).collect())]);
    let mut messages: Vec<Value> = leaves(0).chain([of_field]).collect();
    messages.push(value(ARRAY, 0, leaves(0).collect()));
    messages.push(value(ARRAY, 0, Vec::new()));
    for equivalence in EQUIVALENCES {
        let bytes = types::write(&profile(&messages, equivalence));
        for record in 0..bytes.len() / SIZE {
            for bit in 0..64 {
                let mut changed = bytes.clone();
                changed[SIZE * record + 16 + bit / 8] ^= 1 << (bit % 8);
                as_every_type(case, &changed);
            }
        }
    }
}
