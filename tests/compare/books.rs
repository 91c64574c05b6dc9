//! Random key books, good and bad.

use crate::book::SIZE;
use crate::random::Random;
use crate::value::LONGEST;

/// As many keys as the longest book has.
const MOST: usize = LONGEST / SIZE;

/// The keys of a good book.
pub fn keys(random: &mut Random) -> Vec<Vec<u8>> {
    let mut keys = match random.below(1000) {
        0..=2 => many(MOST, random),
        3..=29 => many(300, random),
        30..=79 => Vec::new(),
        80..=199 => vec![key(random)],
        200..=349 => ladder(random),
        350..=449 => twins(random),
        450..=599 => odd(random),
        _ => (0..random.up_to(9)).map(|_| key(random)).collect(),
    };
    keys.sort();
    keys.dedup();
    keys
}

fn key(random: &mut Random) -> Vec<u8> {
    let length = random.pick(&[1, 1, 2, 3, 8, SIZE - 1, SIZE]);
    let letters = ["a", "b", "~", "lane", "{", "\u{7f}", "é", "\u{ffff}", "𝄞"];
    let mut key = Vec::new();
    while key.len() < length {
        key.extend(random.pick(&letters).bytes());
    }
    if key.len() > SIZE {
        return vec![b'a'; SIZE];
    }
    key
}

/// Short keys with a number, so that a text can hold all of them.
fn many(most: usize, random: &mut Random) -> Vec<Vec<u8>> {
    let first = random.below(9_000);
    let keys = first..first + most;
    keys.map(|n| format!("k{n}").into_bytes()).collect()
}

/// Keys that begin each other.
fn ladder(random: &mut Random) -> Vec<Vec<u8>> {
    let longest = random.bytes(SIZE);
    let longest: Vec<u8> = longest.iter().map(|byte| b'a' + byte % 2).collect();
    let some = (1..=SIZE).filter(|_| random.one_in(3));
    some.map(|length| longest[..length].to_vec()).collect()
}

/// Keys as long as can be that differ in the last byte, with the one that begins them all.
fn twins(random: &mut Random) -> Vec<Vec<u8>> {
    let begin = vec![random.pick(b"az~"); SIZE - 1];
    let with = |last: &u8| [&begin[..], &[*last]].concat();
    let mut keys: Vec<Vec<u8>> = b"!az~\x7f".iter().map(with).collect();
    keys.push(begin);
    keys
}

/// Keys that no text can spell, and some that it can.
fn odd(random: &mut Random) -> Vec<Vec<u8>> {
    let fixed = [
        &b"a"[..],
        b"\\u0061",
        b"a\\n",
        b"\\",
        b"\"",
        b"a\"",
        b"\n",
        b"\x01",
        b"\x80",
        b"\xc3",
        b"\xed\xa0\x80",
        b"\xff\xff",
    ];
    let mut keys: Vec<Vec<u8>> = fixed.iter().map(|key| key.to_vec()).collect();
    keys.retain(|_| random.one_in(2));
    let any = random.bytes(4);
    keys.push(any.iter().map(|byte| (*byte).max(1)).collect());
    keys
}

/// The bytes of a book.
pub fn written(keys: &[Vec<u8>]) -> Vec<u8> {
    let mut book = Vec::new();
    for (i, key) in keys.iter().enumerate() {
        book.extend(key);
        book.resize(SIZE * (i + 1), 0);
    }
    book
}

/// Changes a book, which mostly makes it a bad one.
pub fn spoil(book: &mut Vec<u8>, random: &mut Random) {
    if book.is_empty() {
        let length = random.pick(&[1, SIZE - 1, SIZE, SIZE + 1]);
        *book = random.bytes(length);
    }
    let at = SIZE * random.below(book.len().div_ceil(SIZE));
    let end = (at + SIZE).min(book.len());
    match random.below(9) {
        0 => book.truncate(book.len() - 1),
        1 => book.push(b'z'),
        2 => book[at..end].fill(0),
        3 => book[at + random.below(end - at)] = 0,
        4 => book[end - 1] = b'a',
        5 => book.extend_from_within(at..end),
        6 => book.rotate_left(at),
        7 => book[at + random.below(end - at)] = random.next() as u8,
        _ => book.resize(LONGEST + random.pick(&[0, 1, SIZE]), b'z'),
    }
}
