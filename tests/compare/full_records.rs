//! Records with as many fields as one may have, and with one less or more, each tried once as a table and as a text: at several depths, in
//! arrays and in fields, with other faults of the last field, with content in the fields before it, and in tables that they fill.

use crate::books;
use crate::calls::Call;
use crate::case::Case;
use crate::types;
use crate::value::{self, Value, ARRAY, DEEPEST, LONGEST, MOST_FIELDS, RECORD, SIZE};

const NULL: u8 = 1;
const FIELDS: [usize; 4] = [
    MOST_FIELDS - 1,
    MOST_FIELDS,
    MOST_FIELDS + 1,
    MOST_FIELDS + 2,
];
const DEPTHS: [usize; 6] = [1, 2, 3, DEEPEST - 2, DEEPEST - 1, DEEPEST];

/// Records for the last field, with no fault, with one and with two. The key of most is new, that of the others 0 or the first field's.
const LAST: [[u8; SIZE]; 12] = [
    [6, 0, 255, 255, 1, 0, 0, 0],
    [0, 0, 255, 255, 1, 0, 0, 0],
    [7, 0, 255, 255, 1, 0, 0, 0],
    [1, 1, 255, 255, 1, 0, 0, 0],
    [1, 0, 255, 255, 0, 0, 0, 0],
    [1, 0, 255, 255, 2, 0, 0, 0],
    [5, 0, 255, 255, 2, 0, 0, 0],
    [1, 0, 0, 0, 1, 0, 0, 0],
    [1, 0, 1, 0, 1, 0, 0, 0],
    [7, 0, 1, 0, 1, 0, 0, 0],
    [1, 0, 1, 0, 0, 0, 0, 0],
    [1, 0, 0, 0, 2, 0, 0, 0],
];

/// Last keys: new, unlisted, escaped though listed, and two that came before.
const LAST_KEYS: [&str; 5] = ["zz", "zy", "z\\u007a", "k000", "k253"];

/// What stands behind the last key: the end of the text, a fault, or what ends the record.
const ENDS: [&str; 4] = ["", "\"", "\"x", "\":0}"];
const BRACKETS: [[&str; 2]; 2] = [["[", "]"], ["{\"k000\":", "}"]];

pub fn compare(case: &mut Case) {
    for depth in DEPTHS {
        for fields in FIELDS {
            for kind in [RECORD, ARRAY] {
                last_fields(case, kind, depth, fields);
            }
            for brackets in BRACKETS {
                last_keys(case, brackets, depth, fields);
            }
        }
    }
    for fields in FIELDS {
        contents(case, fields);
        filled(case, fields);
    }
}

fn value(kind: u8, key: u16, inner: Vec<Value>) -> Value {
    Value { kind, key, inner }
}

/// A record with nulls at keys from 1 on.
fn record(key: u16, fields: usize) -> Value {
    let nulls = (1..).take(fields).map(|key| value(NULL, key, Vec::new()));
    value(RECORD, key, nulls.collect())
}

/// A message of values of this kind around a record at this depth.
fn around(kind: u8, depth: usize, fields: usize) -> Value {
    let key = u16::from(kind == RECORD);
    if depth == 1 {
        return record(0, fields);
    }
    let inside = (2..depth).fold(record(key, fields), |inner, _| {
        value(kind, key, vec![inner])
    });
    value(kind, 0, vec![inside])
}

fn last_fields(case: &mut Case, kind: u8, depth: usize, fields: usize) {
    let mut table = value::write(&[around(kind, depth, fields)]);
    judge_and_infer(case, &table);
    for last in LAST {
        table.splice(table.len() - SIZE.., last);
        judge_and_infer(case, &table);
    }
}

/// Field after field with an element, a field, or such a record inside it.
fn contents(case: &mut Case, fields: usize) {
    let null = |key| vec![value(NULL, key, Vec::new())];
    let mut with_content = record(0, fields);
    for field in &mut with_content.inner {
        (field.kind, field.inner) = match field.key % 3 {
            0 => (ARRAY, null(0)),
            1 => (RECORD, null(1)),
            _ => (NULL, Vec::new()),
        };
    }
    judge_and_infer(case, &value::write(std::slice::from_ref(&with_content)));
    for at in [0, 100, fields - 1] {
        for inner in FIELDS {
            let mut outer = with_content.clone();
            outer.inner[at] = record(1 + at as u16, inner);
            judge_and_infer(case, &value::write(&[outer]));
        }
    }
    let many = || vec![value(NULL, 0, Vec::new()); fields];
    judge_and_infer(case, &value::write(&many()));
    judge_and_infer(case, &value::write(&[value(ARRAY, 0, many())]));
}

/// As many records as a table holds, with the same keys or each with its own, and one record behind a full one.
fn filled(case: &mut Case, fields: usize) {
    let most = LONGEST / SIZE;
    let same = vec![record(0, fields); most / (1 + fields)];
    judge_and_infer(case, &value::write(&same));
    judge_and_infer(case, &value::write(&[value(ARRAY, 0, same.clone())]));
    let mut own = same;
    let all = own.iter_mut().flat_map(|record| &mut record.inner);
    all.zip(1..).for_each(|(field, key)| field.key = key);
    judge_and_infer(case, &value::write(&own));
    let two = [record(0, MOST_FIELDS), record(0, fields)];
    judge_and_infer(case, &value::write(&two));
}

/// With room for every type, and with none: a fault comes before that.
fn judge_and_infer(case: &mut Case, table: &[u8]) {
    case.call(Call::JudgeTable { table });
    for arena in [0, types::LARGEST] {
        for equivalence in [0, 1] {
            case.call(Call::Infer {
                table,
                equivalence,
                arena,
                work: arena,
            });
        }
    }
}

/// Texts with a record at this depth, in tables of about as many records as there are values.
fn last_keys(case: &mut Case, brackets: [&str; 2], depth: usize, fields: usize) {
    let keys = || (0..fields - 1).map(|n| format!("k{n:03}"));
    let listed = keys().chain(["zz".to_string()]).map(String::into_bytes);
    let book = books::written(&listed.collect::<Vec<Vec<u8>>>());
    let before: String = keys().map(|key| format!("\"{key}\":0,")).collect();
    let [opening, closing] = brackets.map(|bracket| bracket.repeat(depth - 1));
    let values = depth + fields;
    for key in LAST_KEYS {
        for end in ENDS {
            let mut text = format!("{opening}{{{before}\"{key}{end}");
            if end.ends_with('}') {
                text += &format!("{closing} ");
            }
            for table in [values - 2, values - 1, values, LONGEST / SIZE] {
                case.call(Call::ReadText {
                    text: text.as_bytes(),
                    book: &book,
                    table: SIZE * table,
                });
            }
        }
    }
}
