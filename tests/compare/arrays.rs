//! Random messages with arrays of several lengths at one place, the empty one among them. Equal messages stand beside each other, and so do
//! equal elements: a call may count those at once.

use crate::messages::leaf;
use crate::random::Random;
use crate::value::{Value, ARRAY, RECORD};

/// What is alike in some messages: the keys around their arrays, or 0 for an array around them, and the kinds of the elements.
struct Form {
    around: Vec<u16>,
    kinds: Vec<u8>,
    lengths: Vec<usize>,
}

impl Form {
    fn random(keys: &[u16], random: &mut Random) -> Form {
        let step = |random: &mut Random| random.pick(&[0, keys[0], keys[1]]);
        let kinds = [1, 3, RECORD, ARRAY];
        Form {
            around: (0..random.below(3)).map(|_| step(random)).collect(),
            kinds: (0..random.up_to(2)).map(|_| random.pick(&kinds)).collect(),
            lengths: (0..random.up_to(3)).map(|_| length(random)).collect(),
        }
    }

    fn message(&self, random: &mut Random) -> Value {
        let array = self.array(random);
        self.around.iter().fold(array, |inner, key| match key {
            0 => self.with_others(inner, random),
            _ => inside(RECORD, vec![Value { key: *key, ..inner }]),
        })
    }

    /// Its elements are equal or of any of the kinds; an array among them has a length of its own.
    fn array(&self, random: &mut Random) -> Value {
        let length = random.pick(&self.lengths);
        let equal = random.one_in(2);
        let first = self.element(random);
        let elements = (0..length).map(|_| match equal {
            true => first.clone(),
            false => self.element(random),
        });
        inside(ARRAY, elements.collect())
    }

    fn element(&self, random: &mut Random) -> Value {
        let kind = random.pick(&self.kinds);
        let length = random.pick(&self.lengths);
        let nulls = if kind == ARRAY { length.min(4) } else { 0 };
        inside(kind, vec![inside(1, Vec::new()); nulls])
    }

    /// An array around this value, with others like it or equal to it, or with anything.
    fn with_others(&self, inner: Value, random: &mut Random) -> Value {
        let mut elements = vec![inner; 1 + random.below(3)];
        for _ in 0..random.below(3) {
            let other = match random.below(3) {
                0 => leaf(0, random),
                _ => self.array(random),
            };
            elements.insert(random.below(elements.len() + 1), other);
        }
        inside(ARRAY, elements)
    }
}

/// Mostly short ones; few so long that a byte does not hold their length.
fn length(random: &mut Random) -> usize {
    match random.below(60) {
        0 => random.pick(&[255, 256, 257, 300]),
        1..=15 => 0,
        16..=30 => 1,
        _ => random.below(10),
    }
}

fn inside(kind: u8, inner: Vec<Value>) -> Value {
    Value {
        kind,
        key: 0,
        inner,
    }
}

/// Messages of one form, each as often as it happens.
pub fn with_arrays(keys: &[u16], random: &mut Random) -> Vec<Value> {
    let form = Form::random(keys, random);
    let mut messages = Vec::new();
    for _ in 0..random.up_to(5) {
        let times = random.pick(&[1, 1, 2, 3, 9]);
        let message = form.message(random);
        messages.extend(vec![message; times]);
    }
    messages
}
