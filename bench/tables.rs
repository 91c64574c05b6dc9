//! Tables for the workloads.

use crate::front::front;
use crate::sequence::{shuffled, Sequence};
use crate::validator::{header, MAX_FIELDS, SIZE};

const NULL: u8 = 1;
const NUMBER: u8 = 3;
const STRING: u8 = 4;
const RECORD: u8 = 5;
const ARRAY: u8 = 6;

fn put(table: &mut Vec<u8>, kind: u8, key: u16, span: u32) {
    table.extend([kind, 0]);
    table.extend(key.to_le_bytes());
    table.extend(span.to_le_bytes());
}

/// An array with this content.
fn array(content: &[u8]) -> Vec<u8> {
    let mut array = Vec::new();
    put(&mut array, ARRAY, 0, 1 + (content.len() / SIZE) as u32);
    array.extend(content);
    array
}

/// The first of some values, as many as n records can hold.
fn filled(n: usize, values: impl IntoIterator<Item = Vec<u8>>) -> Vec<u8> {
    let mut table = Vec::new();
    for value in values {
        if table.len() + value.len() > SIZE * n {
            break;
        }
        table.extend(value);
    }
    table
}

/// n scalars.
pub fn flat(n: usize) -> Vec<u8> {
    let mut table = Vec::new();
    for i in 0..n {
        put(&mut table, 1 + (i % 4) as u8, 0, 1);
    }
    table
}

/// n messages of arrays in arrays, to depth 32.
pub fn nested(n: usize) -> Vec<u8> {
    let mut message = Vec::new();
    for depth in 0..32 {
        put(&mut message, ARRAY, 0, 32 - depth);
    }
    message.repeat(n)
}

/// A message of ten fields, one of them a small array; `kind` gives the kinds of the others.
fn message(mut kind: impl FnMut(u16) -> u8) -> Vec<u8> {
    let mut message = Vec::new();
    put(&mut message, RECORD, 0, 13);
    for key in 1..=9 {
        put(&mut message, kind(key), key, 1);
    }
    put(&mut message, ARRAY, 10, 3);
    put(&mut message, NUMBER, 0, 1);
    put(&mut message, NUMBER, 0, 1);
    message
}

/// n equal messages of ten fields.
pub fn messages(n: usize) -> Vec<u8> {
    message(|key| 1 + (key % 4) as u8).repeat(n)
}

fn null_or_string(sequence: &mut Sequence) -> u8 {
    [NULL, STRING][sequence.below(2)]
}

/// n messages of ten fields that are now a null, now a string.
pub fn varied(n: usize) -> Vec<u8> {
    let mut sequence = Sequence::new();
    let mut kind = |_| null_or_string(&mut sequence);
    (0..n).flat_map(|_| message(&mut kind)).collect()
}

/// n messages of four arrays with four numbers each.
pub fn matrices(n: usize) -> Vec<u8> {
    let mut row = Vec::new();
    put(&mut row, ARRAY, 0, 5);
    for _ in 0..4 {
        put(&mut row, NUMBER, 0, 1);
    }
    let mut message = Vec::new();
    put(&mut message, ARRAY, 0, 21);
    message.extend(row.repeat(4));
    message.repeat(n)
}

/// A message with a value at each key that holds no other; `kind` gives their kinds.
fn with_kinds(keys: impl IntoIterator<Item = u16>, mut kind: impl FnMut() -> u8) -> Vec<u8> {
    let mut fields = Vec::new();
    let mut span = 1;
    for key in keys {
        put(&mut fields, kind(), key, 1);
        span += 1;
    }
    let mut message = Vec::new();
    put(&mut message, RECORD, 0, span);
    [message, fields].concat()
}

/// A message with a number at each key.
fn with_keys(keys: impl IntoIterator<Item = u16>) -> Vec<u8> {
    with_kinds(keys, || NUMBER)
}

/// Messages with as many fields as a record may have, whose keys are multiples of `step`. The last one takes what is left of n records.
pub fn wide(n: usize, step: u16) -> Vec<u8> {
    let mut table = Vec::new();
    while table.len() < SIZE * n {
        let room = n - table.len() / SIZE - 1;
        let fields = MAX_FIELDS.min(room) as u16;
        table.extend(with_keys((1..=fields).map(|i| step * i)));
    }
    table
}

/// Messages with the same keys, as many as are asked for, in orders that `order` gives. The fields are now a null, now a string: equal
/// messages would be added at once.
pub fn same_keys(n: usize, fields: usize, mut order: impl FnMut(Vec<u16>) -> Vec<u16>) -> Vec<u8> {
    let fields = fields.min(n / 4 - 1) as u16;
    let mut sequence = Sequence::new();
    let message = || {
        let keys = order((1..=fields).collect());
        with_kinds(keys, || null_or_string(&mut sequence))
    };
    filled(n, std::iter::repeat_with(message))
}

/// Six lists of descending keys, in all as many as fit a type of n / 3 records. For the largest table a list has nearly as many as a record
/// may.
fn key_lists(n: usize) -> Vec<Vec<u16>> {
    let keys: Vec<u16> = (1..=(n / 6 - 4) as u16).rev().collect();
    let lists = keys.chunks(keys.len().div_ceil(6));
    lists.map(<[u16]>::to_vec).collect()
}

/// Messages with these lists by turns, each time in another order.
pub fn many_keys(n: usize) -> Vec<u8> {
    let mut sequence = Sequence::new();
    let message = |keys| with_keys(shuffled(keys, &mut sequence));
    filled(n, key_lists(n).into_iter().cycle().map(message))
}

/// An array of records with these lists, and then with the largest keys again and again. As keys descend, each is searched for from the
/// smallest on. Two of them change places every other time: equal neighbours would be added at once.
pub fn far_keys(n: usize) -> Vec<u8> {
    let lists = key_lists(n);
    let again = (0..).map(|turn| {
        let mut keys = lists[0].clone();
        keys.swap(turn % 2, 1);
        keys
    });
    let all = lists.iter().cloned().chain(again);
    // Empty arrays: a field with a scalar is found faster.
    array(&filled(n - 1, all.map(|keys| with_kinds(keys, || ARRAY))))
}

/// n messages of ten fields with fifty different lists of so many keys and two more, in a mixed order; `kind` gives the kinds of the
/// fields.
fn fifty(n: usize, keys: u16, mut kind: impl FnMut() -> u8) -> Vec<u8> {
    let shape = |i: usize| {
        let start = 7 * (i % 50) as u16;
        let keys = (0..8).map(move |j| 3 + (start + 5 * j) % keys);
        with_kinds((1..=2).chain(keys), &mut kind)
    };
    shuffled(0..n, &mut Sequence::new())
        .into_iter()
        .flat_map(shape)
        .collect()
}

/// Such messages with numbers.
pub fn fifty_shapes(n: usize, keys: u16) -> Vec<u8> {
    fifty(n, keys, || NUMBER)
}

/// Such messages whose fields are now a null, now a string.
pub fn fifty_varied(n: usize, keys: u16) -> Vec<u8> {
    let mut sequence = Sequence::new();
    fifty(n, keys, || null_or_string(&mut sequence))
}

/// Messages with arrays of none to nine numbers in four fields, in the last of them inside another array.
pub fn mixed_arrays(n: usize) -> Vec<u8> {
    let mut sequence = Sequence::new();
    let mut numbers = || array(&flat_numbers(sequence.below(10)));
    let message = || {
        let mut fields: Vec<Vec<u8>> = (0..3).map(|_| numbers()).collect();
        fields.push(array(&[numbers(), numbers()].concat()));
        record(fields)
    };
    filled(n, std::iter::repeat_with(message))
}

fn flat_numbers(n: usize) -> Vec<u8> {
    let mut numbers = Vec::new();
    for _ in 0..n {
        put(&mut numbers, NUMBER, 0, 1);
    }
    numbers
}

/// A record with these values at the keys from 1 on.
fn record(values: Vec<Vec<u8>>) -> Vec<u8> {
    let mut fields = Vec::new();
    for (value, key) in values.into_iter().zip(1u16..) {
        let at = fields.len();
        fields.extend(value);
        fields[at + 2..at + 4].copy_from_slice(&key.to_le_bytes());
    }
    let mut record = Vec::new();
    put(&mut record, RECORD, 0, 1 + (fields.len() / SIZE) as u32);
    record.extend(fields);
    record
}

/// Messages with lists of one to sixteen keys, six of each length with first keys of their own, in a mixed order. The fields are now a
/// null, now a string.
pub fn mixed_lengths(n: usize) -> Vec<u8> {
    let mut sequence = Sequence::new();
    let message = || {
        let first = 1 + 3 * sequence.below(6) as u16;
        let length = 1 + sequence.below(16) as u16;
        with_kinds(first..first + length, || null_or_string(&mut sequence))
    };
    filled(n, std::iter::repeat_with(message))
}

/// Messages with each of these lists of keys, so many times each, in a mixed order.
fn shapes<const N: usize>(lists: impl Iterator<Item = [u16; N]> + Clone, times: usize) -> Vec<u8> {
    let all = std::iter::repeat_n(lists, times).flatten();
    shuffled(all, &mut Sequence::new())
        .into_iter()
        .flat_map(with_keys)
        .collect()
}

/// Messages of one field with n different keys, so many times each.
pub fn one_field_shapes(n: u16, times: usize) -> Vec<u8> {
    shapes((1..=n).map(|key| [key]), times)
}

/// Messages of two fields with different pairs of keys up to 64, five times each. They fit a type of n / 3 records.
pub fn two_field_shapes(n: usize) -> Vec<u8> {
    let pairs = (1..=64).flat_map(|key| (1..key).map(move |other| [key, other]));
    shapes(pairs.take(n / 15), 5)
}

/// An array of arrays: the first has records of one field with the keys up to the last, each other one only the record with the last key
/// or the last but one. In each array the search begins with the smallest key.
pub fn far_shapes(n: usize, last: u16) -> Vec<u8> {
    let all: Vec<u8> = (1..=last).rev().flat_map(|key| with_keys([key])).collect();
    let again = [last - 1, last].map(|key| with_keys([key]));
    let contents = std::iter::once(all).chain(again.into_iter().cycle());
    array(&filled(n - 1, contents.map(|content| array(&content))))
}

/// The first messages of a log, up to n records.
pub fn first_messages(log: &[u8], n: usize) -> Vec<u8> {
    let mut records = 0;
    while 8 * records < log.len() {
        let next = records + header(log, records).span;
        if n < next {
            break;
        }
        records = next;
    }
    log[..8 * records].to_vec()
}

/// One value at each place of a type whose counts are all 1, which is then the table's type under label.
pub fn one_each(bytes: &[u8]) -> Vec<u8> {
    let mut table = Vec::new();
    put_union(&mut table, bytes, 0);
    table
}

/// The values of a union, with this key.
fn put_union(table: &mut Vec<u8>, mut union: &[u8], key: u16) {
    while !union.is_empty() {
        let addend = front(union);
        let at = table.len();
        put(table, addend.header.kind, key, 1);
        match addend.header.kind {
            RECORD => put_fields(table, addend.inside),
            _ => put_union(table, addend.inside, 0),
        }
        let span = ((table.len() - at) / SIZE) as u32;
        table[at + 4..at + 8].copy_from_slice(&span.to_le_bytes());
        union = addend.rest;
    }
}

fn put_fields(table: &mut Vec<u8>, mut fields: &[u8]) {
    while !fields.is_empty() {
        let field = front(fields);
        put_union(table, field.inside, field.header.key);
        fields = field.rest;
    }
}
