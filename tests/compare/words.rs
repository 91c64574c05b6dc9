//! Random strings, numbers and literals of JSON.

use crate::random::Random;

/// Characters at the borders of each row of RFC 3629's table, and some that have a meaning outside strings.
const CHARACTERS: &str =
    "\u{7f}\u{80}\u{7ff}\u{800}\u{fff}\u{1000}\u{cfff}\u{d000}\u{d7ff}\u{e000}\u{feff}\u{ffff}\
    \u{10000}\u{3ffff}\u{40000}\u{fffff}\u{100000}\u{10ffff} /'{}[]:,";

/// Escapes, with surrogates in pairs, alone and in the wrong order.
const ESCAPES: &str = r#"\" \\ \/ \b \f \n \r \t \u0000 \u0022 \uD834\udd1E \ud800 \uDBFF\n \uDC00 \udfff\ud800 \ud83d\u0041"#;

/// Whether bytes can stand between quotes as they are.
pub fn is_plain(bytes: &[u8]) -> bool {
    let text = std::str::from_utf8(bytes);
    text.is_ok_and(|text| !text.contains(|c| c < ' ' || c == '"' || c == '\\'))
}

/// One of some items.
pub fn one<T: Clone>(items: impl Iterator<Item = T>, random: &mut Random) -> T {
    random.pick(&items.collect::<Vec<T>>())
}

pub fn scalar(text: &mut Vec<u8>, random: &mut Random) {
    match random.below(6) {
        0 => text.extend(b"null"),
        1 => text.extend(b"true"),
        2 => text.extend(b"false"),
        3..=4 => number(text, random),
        _ => string(text, random),
    }
}

fn number(text: &mut Vec<u8>, random: &mut Random) {
    if random.one_in(3) {
        text.push(b'-');
    }
    if random.one_in(3) {
        text.push(b'0');
    } else {
        text.push(random.pick(b"123456789"));
        digits(text, 0, random);
    }
    if random.one_in(3) {
        text.push(b'.');
        digits(text, 1, random);
    }
    if random.one_in(3) {
        text.push(random.pick(b"eE"));
        text.extend(random.pick(&["", "+", "-"]).bytes());
        digits(text, 1, random);
    }
}

fn digits(text: &mut Vec<u8>, fewest: usize, random: &mut Random) {
    let most = random.pick(&[1, 2, 3, 40]);
    for _ in 0..fewest + random.below(most) {
        text.push(random.pick(b"0123456789"));
    }
}

pub fn string(text: &mut Vec<u8>, random: &mut Random) {
    let most = random.pick(&[1, 3, 6, 40]);
    text.push(b'"');
    for _ in 0..random.below(most) {
        character(text, random);
    }
    text.push(b'"');
}

fn character(text: &mut Vec<u8>, random: &mut Random) {
    match random.below(9) {
        0 => text.extend(one(ESCAPES.split(' '), random).bytes()),
        1 => unicode(text, random.next() as u16, random),
        2..=3 => put(text, one(CHARACTERS.chars(), random)),
        4 => put(text, any(random)),
        _ => text.push(random.pick(b"abz019")),
    }
}

fn put(text: &mut Vec<u8>, character: char) {
    text.extend(character.to_string().bytes());
}

/// A character that needs no escape, of any width.
fn any(random: &mut Random) -> char {
    let bits = random.pick(&[7, 11, 16, 21]);
    let code = random.below(1 << bits) as u32;
    let character = char::from_u32(code).unwrap_or('x');
    if is_plain(character.to_string().as_bytes()) {
        return character;
    }
    '~'
}

/// Four hexadecimal digits of either case, behind the letter that announces them.
fn unicode(text: &mut Vec<u8>, unit: u16, random: &mut Random) {
    let lower = format!("\\u{unit:04x}");
    let mixed = lower.chars().enumerate().map(|(i, letter)| match i {
        2.. if random.one_in(2) => letter.to_ascii_uppercase(),
        _ => letter,
    });
    text.extend(mixed.collect::<String>().bytes());
}

pub fn quoted(text: &mut Vec<u8>, bytes: &[u8]) {
    text.push(b'"');
    text.extend(bytes);
    text.push(b'"');
}

/// The same string with one of its characters, or one more, spelled by an escape.
pub fn escaped(text: &mut Vec<u8>, bytes: &[u8], random: &mut Random) {
    let at = random.below(bytes.len() + 1);
    let (before, rest) = bytes.split_at(at);
    text.push(b'"');
    text.extend(before);
    let first = rest.first().copied().unwrap_or(b'a');
    unicode(text, u16::from(first), random);
    text.extend(rest.get(1..).unwrap_or_default());
    text.push(b'"');
}
