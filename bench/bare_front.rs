//! The first addend or field of a run of 16-byte type records, and the order of two, for the plain removal.

use crate::bare_validator::{bare_header, order_of_lists, BareHeader, BARE, RECORD};
use std::cmp::Ordering;

/// The first addend or field of a run that is not empty: its record, all of it, what stands inside it, and what follows it.
pub struct BareFront<'a> {
    pub header: BareHeader,
    pub all: &'a [u8],
    pub inside: &'a [u8],
    pub rest: &'a [u8],
}

#[inline]
pub fn bare_front(run: &[u8]) -> BareFront<'_> {
    let header = bare_header(run);
    let (all, rest) = run.split_at(BARE * header.span);
    BareFront {
        header,
        all,
        inside: &all[BARE..],
        rest,
    }
}

#[inline]
pub fn bare_order(x: &BareFront, y: &BareFront, label: bool) -> Ordering {
    let key = |f: &BareFront| (f.header.kind, f.header.key);
    let order = key(x).cmp(&key(y));
    if order.is_eq() && label && x.header.kind == RECORD {
        return order_of_lists(x.inside, y.inside);
    }
    order
}
