//! Writes random messages as JSON text, with white space wherever the grammar has it.

use crate::random::Random;
use crate::value::{DEEPEST, LONGEST, MOST_FIELDS, SIZE};
use crate::words;

/// Writes messages. `left` is how many more values to write, or some more; `slips` lets it write keys that a record can't have.
pub struct Writer<'a> {
    keys: &'a [Vec<u8>],
    spelled: Vec<&'a [u8]>,
    pub text: Vec<u8>,
    pub values: usize,
    left: usize,
    deepest: usize,
    /// White space stands in one place of so many where there need be none.
    spaces: usize,
    slips: bool,
    random: &'a mut Random,
}

impl<'a> Writer<'a> {
    /// Most texts are short, a few fill a table or are as long as can be.
    pub fn new(keys: &'a [Vec<u8>], random: &'a mut Random) -> Writer<'a> {
        let left = match random.below(1000) {
            0..=1 => random.below(9_000),
            2..=29 => random.below(300),
            _ => random.below(12),
        };
        let spelled = keys.iter().filter(|key| words::is_plain(key));
        Writer {
            keys,
            spelled: spelled.map(Vec::as_slice).collect(),
            text: Vec::new(),
            values: 0,
            left,
            deepest: random.pick(&[1, 2, 3, 4, 6, 12]),
            spaces: random.pick(&[1, 3, 100]),
            slips: random.one_in(4),
            random,
        }
    }

    pub fn messages(&mut self) {
        self.space();
        while self.left > 0 {
            self.value(1);
            self.end();
        }
        match self.random.below(1000) {
            0..=79 => self.near_deepest(),
            80..=84 => self.tower(),
            85..=86 => self.flat(),
            87..=91 => self.wide(),
            _ if self.keys.len() > 100 && self.random.one_in(2) => self.wide(),
            _ => return,
        }
        self.end();
    }

    /// The white space behind a message.
    fn end(&mut self) {
        self.text.push(self.random.pick(b" \t\n\r"));
        self.space();
    }

    fn space(&mut self) {
        while self.random.one_in(self.spaces + 1) {
            self.text.push(self.random.pick(b" \t\n\r"));
        }
    }

    fn byte(&mut self, byte: u8) {
        self.text.push(byte);
        self.space();
    }

    fn value(&mut self, depth: usize) {
        self.values += 1;
        self.left = self.left.saturating_sub(1);
        let most = self.most(depth);
        match self.random.below(4) {
            0 => self.record(most, depth),
            1 => self.array(most, depth),
            _ => words::scalar(&mut self.text, self.random),
        }
    }

    /// The most fields or elements of a value here.
    fn most(&self, depth: usize) -> usize {
        if depth >= self.deepest || self.text.len() > LONGEST - 2_000 {
            return 0;
        }
        self.left.min(5)
    }

    fn array(&mut self, most: usize, depth: usize) {
        self.byte(b'[');
        for i in 0..self.random.below(most + 1) {
            self.comma(i);
            self.value(depth + 1);
            self.space();
        }
        self.text.push(b']');
    }

    fn comma(&mut self, before: usize) {
        if before > 0 {
            self.byte(b',');
        }
    }

    fn record(&mut self, most: usize, depth: usize) {
        let most = most.min(self.spelled.len() + usize::from(self.slips));
        let mut before = Vec::new();
        self.byte(b'{');
        for i in 0..self.random.below(most + 1) {
            self.comma(i);
            self.key(&mut before);
            self.value(depth + 1);
            self.space();
        }
        self.text.push(b'}');
    }

    /// A key with its colon, mostly one that is not among those before.
    fn key(&mut self, before: &mut Vec<&'a [u8]>) {
        let all_used = before.len() >= self.spelled.len();
        if all_used || self.slips && self.random.one_in(5) {
            self.wrong_key(before);
        } else {
            let key = self.other_key(before);
            before.push(key);
            words::quoted(&mut self.text, key);
        }
        self.space();
        self.byte(b':');
    }

    fn other_key(&mut self, before: &[&'a [u8]]) -> &'a [u8] {
        loop {
            let key = self.random.pick(&self.spelled);
            if !before.contains(&key) {
                return key;
            }
        }
    }

    /// A key that is repeated, escaped, unlisted, or in the book though no text can spell it.
    fn wrong_key(&mut self, before: &[&[u8]]) {
        let key = match self.keys {
            [] => Vec::new(),
            keys => self.random.pick(keys),
        };
        match self.random.below(6) {
            0..=1 if !before.is_empty() => {
                let key = self.random.pick(before);
                words::quoted(&mut self.text, key);
            }
            2 => words::escaped(&mut self.text, &key, self.random),
            3 => words::quoted(&mut self.text, &[&key[..], b"a"].concat()),
            4 => words::quoted(&mut self.text, &key[..key.len().saturating_sub(1)]),
            5 => words::string(&mut self.text, self.random),
            _ => words::quoted(&mut self.text, &key),
        }
    }

    /// A value at depth 31, 32 or 33.
    fn near_deepest(&mut self) {
        let deepest = DEEPEST - 1 + self.random.below(3);
        self.chain(1, deepest, Writer::leaf);
    }

    /// A value at a depth that is mostly far too great.
    fn tower(&mut self) {
        let deepest = self.random.below(900);
        self.chain(1, deepest, Writer::leaf);
    }

    /// A value with nothing inside it.
    fn leaf(&mut self, _: usize) {
        self.value(usize::MAX);
    }

    /// A value inside a value down to this depth, where the last is written.
    fn chain(&mut self, depth: usize, deepest: usize, last: fn(&mut Self, usize)) {
        if depth >= deepest {
            return last(self, depth);
        }
        self.values += 1;
        let in_array = self.spelled.is_empty() || self.random.one_in(2);
        if in_array {
            self.byte(b'[');
        } else {
            self.byte(b'{');
            self.key(&mut Vec::new());
        }
        self.chain(depth + 1, deepest, last);
        self.space();
        self.text.push(if in_array { b']' } else { b'}' });
    }

    /// About as many short messages as a table holds.
    fn flat(&mut self) {
        let others = LONGEST / SIZE - 2 + self.random.below(4);
        self.text.extend(b"0 ".repeat(others));
        self.text.push(b'0');
        self.values += others + 1;
    }

    /// A record with many keys, inside some values.
    fn wide(&mut self) {
        let depth = self.random.pick(&[1, 1, 2, 3, DEEPEST - 1, DEEPEST]);
        self.chain(1, depth, Writer::wide_record);
    }

    /// A record with about as many keys as one may have, or with every key, and sometimes with a wrong one behind them.
    fn wide_record(&mut self, depth: usize) {
        let mut keys = self.spelled.clone();
        self.random.shuffle(&mut keys);
        let near = MOST_FIELDS - 1 + self.random.below(3);
        keys.truncate(self.random.pick(&[near, near, near, keys.len()]));
        self.values += 1;
        self.byte(b'{');
        for (i, key) in keys.iter().enumerate() {
            self.comma(i);
            words::quoted(&mut self.text, key);
            self.byte(b':');
            self.wide_value(depth + 1);
        }
        if self.random.one_in(3) {
            self.comma(keys.len());
            self.wrong_key(&keys);
            self.byte(b':');
            self.wide_value(depth + 1);
        }
        self.text.push(b'}');
    }

    /// Mostly a short one, sometimes with content, which now and then is as wide.
    fn wide_value(&mut self, depth: usize) {
        match self.random.below(1000) {
            0 if self.text.len() < LONGEST / 2 => self.wide_record(depth),
            1..=20 => {
                self.left = 9;
                self.value(depth);
            }
            _ => {
                self.values += 1;
                self.text.push(b'0');
            }
        }
        self.space();
    }
}
