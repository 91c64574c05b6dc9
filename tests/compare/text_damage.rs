//! Damages texts.

use crate::random::Random;
use crate::words::one;

/// Pieces of text, some of which stand in no text, with white space between them.
const PIECES: &str = r#"0 01 - -0 1. 1.5 1e 1E+ 1e5 +1 .5 e 0x1 null nul nulx true tru True false fals NaN Infinity
    {} { } [] [ ] , : " "" "":0 \ \u12 \u12g4 \x \U0041 ' // a"#;

/// Control characters, a byte-order mark, a space that is no white space, and broken UTF-8.
const BYTES: [u32; 17] = [
    0x00, 0x1f, 0x7f, 0x0b, 0x0c, 0xefbbbf, 0xc2a0, 0xc2, 0xc181, 0xf5, 0xff, 0xe080, 0xe09fbf,
    0xeda080, 0xf080, 0xf08fbfbf, 0xf4908080,
];

/// One to three changes.
pub fn damage(text: &mut Vec<u8>, random: &mut Random) {
    for _ in 0..random.pick(&[1, 1, 1, 2, 3]) {
        change(text, random);
    }
}

fn change(text: &mut Vec<u8>, random: &mut Random) {
    let at = random.below(text.len() + 1);
    match random.below(9) {
        0 => text.truncate(at),
        1 => {
            text.truncate(at);
            text.extend(piece(random));
        }
        2..=3 => drop(text.splice(at..at, piece(random))),
        4 if at < text.len() => text[at] = random.next() as u8,
        5 if at < text.len() => drop(text.remove(at)),
        6 => drop(text.splice(at.saturating_sub(1)..at, piece(random))),
        7 => text.truncate(text.trim_ascii_end().len()),
        _ => repeat(text, at, random),
    }
}

fn piece(random: &mut Random) -> Vec<u8> {
    match random.below(3) {
        0 => random.bytes(1),
        1 => {
            let bytes = random.pick(&BYTES).to_be_bytes();
            let zeros = bytes[..3].iter().take_while(|byte| **byte == 0).count();
            bytes[zeros..].to_vec()
        }
        _ => one(PIECES.split_ascii_whitespace(), random).into(),
    }
}

/// Some bytes from here once more at the end.
fn repeat(text: &mut Vec<u8>, at: usize, random: &mut Random) {
    let end = text.len().min(at + random.below(40));
    text.extend_from_within(at..end);
}
