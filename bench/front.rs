//! The first addend or field of a run of type records, and the order of two, for the plain merge and fold. Inlined, as a function with one
//! caller is: none pays for the others.

use crate::type_validator::{header, order_of_lists, Header, RECORD, SIZE};
use std::cmp::Ordering;

/// The first addend or field of a run that is not empty: its record, all of it, what stands inside it, and what follows it.
pub struct Front<'a> {
    pub header: Header,
    pub all: &'a [u8],
    pub inside: &'a [u8],
    pub rest: &'a [u8],
}

#[inline]
pub fn front(run: &[u8]) -> Front<'_> {
    let header = header(run);
    let (all, rest) = run.split_at(SIZE * header.span);
    Front {
        header,
        all,
        inside: &all[SIZE..],
        rest,
    }
}

#[inline]
pub fn order(x: &Front, y: &Front, label: bool) -> Ordering {
    let key = |f: &Front| (f.header.kind, f.header.key);
    let order = key(x).cmp(&key(y));
    if order.is_eq() && label && x.header.kind == RECORD {
        return order_of_lists(x.inside, y.inside);
    }
    order
}
