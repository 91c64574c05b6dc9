//! Texts for the workloads of the reader, each with its key book. All of them are accepted with the longest table. A workload has several
//! texts, since a log is read once: one that is read again and again favours what the processor remembers of it.

use crate::sequence::{shuffled, Sequence};

const LONGEST: usize = 65_536;
const MOST_VALUES: usize = 8_192;
const MOST_KEYS: usize = 2_048;
const MOST_FIELDS: usize = 256;
const DEEPEST: usize = 32;

/// How many texts a workload has.
pub const TEXTS: usize = 16;

pub struct Texts {
    pub name: &'static str,
    pub texts: Vec<Vec<u8>>,
    pub book: Vec<u8>,
}

/// The first of some messages, with a line feed behind each, as many as a text can hold.
fn lines(messages: impl IntoIterator<Item = String>) -> Vec<u8> {
    let mut text = Vec::new();
    for message in messages {
        if text.len() + message.len() + 1 > LONGEST {
            break;
        }
        text.extend(message.bytes());
        text.push(b'\n');
    }
    text
}

fn book_of(keys: &[String]) -> Vec<u8> {
    let record = |key: &String| {
        let mut record = key.clone().into_bytes();
        record.resize(32, 0);
        record
    };
    keys.iter().flat_map(record).collect()
}

/// A message in lines with indents, as tools print it for people. Its strings have no quotes in them.
fn pretty(message: &str) -> String {
    let mut out = String::new();
    let mut depth = 0;
    let mut quoted = false;
    for letter in message.chars() {
        quoted ^= letter == '"';
        if quoted {
            out.push(letter);
            continue;
        }
        match letter {
            '{' | '[' => {
                depth += 1;
                out.push(letter);
                indent(&mut out, depth);
            }
            '}' | ']' => {
                depth -= 1;
                indent(&mut out, depth);
                out.push(letter);
            }
            ',' => {
                out.push(letter);
                indent(&mut out, depth);
            }
            ':' => out.push_str(": "),
            _ => out.push(letter),
        }
    }
    out
}

fn indent(out: &mut String, depth: usize) {
    out.push('\n');
    out.push_str(&"  ".repeat(depth));
}

/// Strings of so many letters from an alphabet.
fn strings(alphabet: &str, length: usize, sequence: &mut Sequence) -> Vec<u8> {
    let letters: Vec<&str> = alphabet.split(' ').collect();
    let mut string = || -> String {
        let mut letter = || letters[sequence.below(letters.len())];
        (0..length).map(|_| letter()).collect()
    };
    lines((0..).map(|_| format!("\"{}\"", string())))
}

/// Arrays of ten numbers of several forms, of eight letters or more with what follows them.
fn numbers(sequence: &mut Sequence) -> Vec<u8> {
    let mut number = || {
        let n = 1_000_000 + sequence.below(9_000_000);
        match n % 4 {
            0 => format!("{n}"),
            1 => format!("-{n}"),
            2 => format!("{}.{:03}", n / 1000, n % 1000),
            _ => format!("{}.{:03}e-{}", n / 1000, n % 1000, n % 17),
        }
    };
    let mut row = || (0..10).map(|_| number()).collect::<Vec<_>>().join(",");
    lines((0..).map(|_| format!("[{}]", row())))
}

/// A value inside a value, down to the greatest depth, until the table or the text is full.
fn nested(open: &str, close: &str) -> Vec<u8> {
    let message = open.repeat(DEEPEST - 1) + "[]" + &close.repeat(DEEPEST - 1);
    lines(vec![message; MOST_VALUES / DEEPEST])
}

/// The keys of the longest book, in ascending order.
fn many_keys() -> Vec<String> {
    let key = |n: usize| format!("zone-{:02}/counter-{:04}", n / 64, n % 64);
    (0..MOST_KEYS).map(key).collect()
}

fn record(keys: &[String]) -> String {
    let fields: Vec<String> = keys.iter().map(|key| format!("\"{key}\":17")).collect();
    format!("{{{}}}", fields.join(","))
}

/// A workload whose texts are made one after another from one sequence of numbers.
fn workload(
    name: &'static str,
    book: &[u8],
    mut text: impl FnMut(&mut Sequence) -> Vec<u8>,
) -> Texts {
    let mut sequence = Sequence::new();
    Texts {
        name,
        texts: (0..TEXTS).map(|_| text(&mut sequence)).collect(),
        book: book.to_vec(),
    }
}

/// A workload of texts from a long log, each of which begins where the one before ends.
fn logs(name: &'static str, log: &str, book: &[u8], form: impl Fn(&str) -> String) -> Texts {
    let mut rest = log.lines().peekable();
    workload(name, book, |_| {
        assert!(rest.peek().is_some(), "the log is too short");
        let mut length = 0;
        let next = std::iter::from_fn(|| {
            let message = rest.next_if(|line| length + form(line).len() < LONGEST)?;
            length += form(message).len() + 1;
            Some(form(message))
        });
        lines(next)
    })
}

/// Texts of a log with its book, and made ones.
pub fn workloads(log: &str, book: &[u8]) -> Vec<Texts> {
    let latin = "a b c d e f g h i j k l m n o p q r s t u v w x y z";
    let wide = "a b c d é ß ж λ 中 文 字 € 𝄞 🚚";
    let escapes = r#"a b \" \\ \/ \b \f \n \r \t \u00e9 \uD834\udd1e"#;
    let keys = many_keys();
    let many = book_of(&keys);
    let mixed = |sequence: &mut Sequence| shuffled(keys.clone(), sequence);
    let small = |sequence: &mut Sequence| lines(mixed(sequence).chunks(3).cycle().map(record));
    vec![
        logs("log", log, book, str::to_string),
        logs("log, pretty", log, book, pretty),
        workload("strings of 100 letters", b"", |s| strings(latin, 100, s)),
        workload("one string", b"", |s| strings(latin, LONGEST - 3, s)),
        workload("strings, UTF-8", b"", |s| strings(wide, 100, s)),
        workload("strings, escapes", b"", |s| strings(escapes, 100, s)),
        workload("numbers", b"", numbers),
        workload("nested arrays", b"", |_| nested("[", "]")),
        workload("nested records", book, |_| nested("{\"lane\":", "}")),
        workload("records of 256 keys", &many, |s| {
            lines(mixed(s).chunks(MOST_FIELDS).map(record))
        }),
        workload("small records, 2,048 keys", &many, small),
    ]
}
