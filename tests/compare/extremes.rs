//! Texts that a reader may stumble over, each tried once: tokens and nesting as long as a text can be, which must not take long
//! either, every short string, odd keys, and one text with every form of the grammar, cut and damaged at every byte.

use crate::books;
use crate::calls::Call;
use crate::case::Case;
use crate::json;
use crate::value::{DEEPEST, LONGEST, MOST_FIELDS};
use ct::raw;
use std::hint::black_box;
use std::time::{Duration, Instant};

/// The messages have every form of the grammar, with keys of the small book.
const EVERY_FORM: &str = concat!(
    "\r\n\t {\"a\" : [ -0 , 10.25e+3,0.5E-7\t, 1e9 ] ,\"ab\":{\"é\":\"",
    r#"\"\\\/\b\f\n\r\t\u00aF\ud834\uDD1E\ud800"#,
    " \u{7f}é€\u{d7ff}𝄞\"},\"é\":{ }}\n[true, false,null,[\r],\"\"]\ttrue\rnull 7 \"x\"\n"
);

/// What stands before, between and behind as many repetitions as make the longest text.
const LONG: [[&str; 3]; 35] = [
    ["", "[", ""],
    ["", "{", ""],
    ["", "\"", ""],
    ["", "\\", ""],
    ["", "1", ""],
    ["", "-", ""],
    ["", " ", ""],
    ["", "\u{80}", ""],
    ["", "1", " "],
    ["-", "9", " "],
    ["0.", "0", ""],
    ["0.", "0", " "],
    ["1e", "9", ""],
    ["1E-", "9", " "],
    ["\"", "\\", ""],
    ["\"", "\\\\", "\" "],
    ["\"", "\\\"", ""],
    ["\"", "\\ud800", "\" "],
    ["\"", "a", ""],
    ["\"", "a", "\" "],
    ["\"", "é", "\" "],
    ["\"", "€", "\" "],
    ["\"", "𝄞", "\" "],
    ["{\"", "a", "\":0} "],
    ["{\"", "\\n", "\":0} "],
    ["{", " ", "} "],
    ["{\"a\":", "{\"a\":", ""],
    ["", "[]", ""],
    ["", "[] ", ""],
    ["", "null ", ""],
    ["[", "0,", "0] "],
    ["[", "[],", "0] "],
    ["{\"a\":0", ",\"b\":0", "} "],
    ["", "{\"a\":0} ", ""],
    ["", "{\"a\":{\"b\":{}},\"b\":[]}\n", ""],
];

/// Far more than a reader needs that looks at each byte a few times (0.2 ms), and far less than one whose time grows with the square.
const MOST_TIME: Duration = Duration::from_millis(10);

struct Books {
    small: Vec<u8>,
    large: Vec<u8>,
}

pub fn compare(case: &mut Case) {
    let many = (0..2_045).map(|n| format!("k{n:04}"));
    let with_many = ["a", "ab", "b"].map(String::from).into_iter().chain(many);
    let books = Books {
        small: book(["a", "ab", "b", "é"].map(String::from)),
        large: book(with_many),
    };
    long(case, &books);
    short_strings(case, &books.small);
    keys(case);
    every_form(case, &books.small);
}

fn book(keys: impl IntoIterator<Item = String>) -> Vec<u8> {
    let keys: Vec<Vec<u8>> = keys.into_iter().map(String::into_bytes).collect();
    books::written(&keys)
}

/// Each of the long texts, the deepest nesting and the widest record again and again, and what is one byte too long.
fn long(case: &mut Case, books: &Books) {
    let deepest = format!("{}{}\n", "[".repeat(DEEPEST), "]".repeat(DEEPEST));
    let fields: Vec<String> = (0..2_045).map(|n| format!("\"k{n:04}\":0")).collect();
    let widest = format!("{{{}}}\n", fields.join(","));
    let fullest = fields.chunks(MOST_FIELDS);
    let fullest: String = fullest.map(|f| format!("{{{}}}\n", f.join(","))).collect();
    let messages = [["", &deepest, ""], ["", &widest, ""], ["", &fullest, ""]];
    for text in LONG.into_iter().chain(messages).map(repeated) {
        for book in [&books.small, &books.large, &Vec::new()] {
            read(case, &text, book, LONGEST);
            in_time(case, &text, book);
        }
    }
    for byte in *b"[\" 1" {
        read(case, &[byte; LONGEST + 1], &books.small, LONGEST);
    }
}

fn repeated([start, piece, end]: [&str; 3]) -> Vec<u8> {
    let room = LONGEST - start.len() - end.len();
    [start, &piece.repeat(room / piece.len()), end]
        .concat()
        .into_bytes()
}

fn read(case: &mut Case, text: &[u8], book: &[u8], table: usize) {
    case.call(Call::ReadText { text, book, table });
}

/// The shortest of three times counts, since the machine may have other things to do.
fn in_time(case: &Case, text: &[u8], book: &[u8]) {
    let mut table = vec![0; LONGEST];
    let mut time = || {
        let start = Instant::now();
        black_box(raw::read_text(text, book, black_box(&mut table)));
        start.elapsed()
    };
    let shortest = time().min(time()).min(time());
    if shortest > MOST_TIME {
        let beginning = String::from_utf8_lossy(&text[..40]);
        case.fail(&format!("{shortest:?} for {beginning}..\n"));
    }
}

/// Every byte as a text, and every string of one and of two bytes.
fn short_strings(case: &mut Case, book: &[u8]) {
    for first in 0..=255 {
        read(case, &[first], book, 8);
        read(case, &[first, b' '], book, 8);
        read(case, &[b'"', first, b'"', b'\n'], book, 8);
        for second in 0..=255 {
            read(case, &[b'"', first, second, b'"', b'\n'], book, 8);
        }
    }
}

/// Keys of every length, and keys that are spelled with an escape though the book has their very bytes.
fn keys(case: &mut Case) {
    let escapes = [r"\n", r"\u0061", r"a\t"];
    let lengths = (0..=33).map(|n| "a".repeat(n));
    let keys: Vec<String> = escapes
        .map(String::from)
        .into_iter()
        .chain(lengths)
        .collect();
    let mut listed = keys.clone();
    listed.retain(|key| (1..=32).contains(&key.len()));
    listed.sort();
    let book = book(listed);
    for key in keys {
        read(case, format!("{{\"{key}\":0}} ").as_bytes(), &book, 16);
    }
}

/// Cuts the text at every byte, leaves out each, and puts every byte before and in the place of each.
fn every_form(case: &mut Case, book: &[u8]) {
    let text = EVERY_FORM.as_bytes();
    assert!(json::read(text, book, 512).number == 0, "it is a text");
    for place in 0..=text.len() {
        read(case, &text[..place], book, 512);
    }
    for place in 0..text.len() {
        let (before, from) = text.split_at(place);
        read(case, &[before, &from[1..]].concat(), book, 512);
        for byte in 0..=255 {
            read(case, &[before, &[byte], from].concat(), book, 512);
            read(case, &[before, &[byte], &from[1..]].concat(), book, 512);
        }
    }
}
