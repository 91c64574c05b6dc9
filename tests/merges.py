"""Trials of call 5 by documents 01 and 02, written without the crates: reads both types as maps from places to tallies, adds these, prints.

A place is a tuple of classes and of fields, so that places in order are the rows of a type in order.
"""
import zlib
from collections import Counter
from itertools import chain
from typing import NamedTuple

from counting_types import DEFAULT, EITHER_ORDER, EVERY_KIND, FIELD, FORMER_DEFAULT, FORMER_ORDER, FORMER_SAME_KEYS, KNOWN, LABEL, LARGEST
from counting_types import LIMIT, MOST_ELEMENTS, MOST_RECORDS, NINE_BY_KIND, NINE_BY_LABEL, NINE_IN_FORMER_ORDER, NO_KEYS, RECORD, UNKNOWN
from counting_types import array, arrays, arrays_around, boolean, field, null, number, record, string
from counting_types import bytes_of, changed, front, judge, key_list, lists, nested, room, split, wide, with_keys
from type_records import PLAIN, WITH_LENGTHS, Row

ZEROS = [Row(0, 0, 0, 0, 0)]


class Tally(NamedTuple):
    """How many values have a place; if they are arrays, the shortest and the longest of their lengths."""

    count: int
    shortest: int = 0
    longest: int = 0


def tallied(found):
    """The tally of each place, from any number for the same one."""
    tallies = {}
    for place, tally in found:
        other = tallies.get(place, tally._replace(count=0))
        lengths = min(tally.shortest, other.shortest), max(tally.longest, other.longest)
        tallies[place] = Tally(tally.count + other.count, *lengths)
    return tallies


def keys_of(row, inner, equivalence):
    """The key list that is part of a class."""
    if row.kind == RECORD and equivalence == LABEL:
        return key_list([field.key for field, _ in split(inner)])
    return NO_KEYS


def places(rows, equivalence, around=()):
    """The places of a well-formed type, each with its tally."""
    for row, inner in split(rows):
        place = (*around, (row.kind, row.key, keys_of(row, inner, equivalence)))
        yield place, Tally(row.count, row.shortest, row.longest)
        yield from places(inner, equivalence, place)


def largest_total(tallies):
    totals = Counter()
    for place, tally in tallies.items():
        if place[-1][0] != FIELD:
            totals[place[:-1]] += tally.count
    return max(totals.values(), default=0)


def span_at(in_order, i):
    """How many places from place i on are inside it, itself included."""
    end = i + 1
    while end < len(in_order) and len(in_order[end]) > len(in_order[i]):
        end += 1
    return end - i


def rows_of(tallies):
    in_order = sorted(tallies)
    return [Row(p[-1][0], 0, p[-1][1], span_at(in_order, i), *tallies[p]) for i, p in enumerate(in_order)]


def refusal_of(first, second, equivalence, arena, layout):
    """The refusal number for the lengths, the equivalence and the two types, 0 if nothing is wrong with them."""
    verdicts = [judge(data, equivalence, layout)[0] for data in (first, second)]
    if 1 in verdicts or layout.refuses(arena):
        return 1
    if 2 in verdicts:
        return 2
    if 8 in verdicts:
        return 8 + verdicts.index(8)
    return 0


def fitted(rows, arena, layout=WITH_LENGTHS):
    """Refusal number, and the rows that an arena has room for."""
    return (11, []) if layout.room(len(rows)) > arena else (0, rows)


def merge(first, second, equivalence, arena, layout=WITH_LENGTHS):
    """Refusal number, and the rows of the merged type, none if it is refused."""
    refusal = refusal_of(first, second, equivalence, arena, layout)
    if refusal:
        return refusal, []
    tallies = tallied(chain(*(places(layout.rows_in(data), equivalence) for data in (first, second))))
    if largest_total(tallies) > LIMIT:
        return 10, []
    return fitted(rows_of(tallies), arena, layout)


def row_text(row):
    """A row as lines have it: its lengths are left out where both are 0."""
    numbers = [row.kind, row.key, row.span, row.count, row.shortest, row.longest]
    return " ".join(map(str, numbers if row.shortest or row.longest else numbers[:4]))


def written(rows, layout=WITH_LENGTHS):
    """The rows of a type as a line shows them, a long type by its checksum."""
    if not rows:
        return ""
    if len(rows) > 64:
        return f": adler32 {zlib.adler32(layout.bytes_of(rows))}"
    return ": " + "; ".join(map(row_text, rows))


def pairs(trials, layout=WITH_LENGTHS):
    """Each trial as name, first and second type, and arena length, which is the largest where a trial names none."""
    for name, first, second, *arena in trials:
        yield name, layout.bytes_of(first), layout.bytes_of(second), *(arena or [layout.largest])


def both_ways(name, other_name, first, second):
    yield name, first, second
    yield other_name, second, first


def scalars(*kinds):
    """Addends whose counts are their kinds."""
    return [row for row in EVERY_KIND if row.kind in kinds]


def empty_types():
    yield from both_ways("null-with-empty", "empty-with-null", null(), [])
    yield from both_ways("every-kind-with-empty", "empty-with-every-kind", EVERY_KIND, [])
    yield from both_ways("nine-by-kind-with-empty", "empty-with-nine-by-kind", NINE_BY_KIND, [])
    yield from both_ways("nine-by-label-with-empty", "empty-with-nine-by-label", NINE_BY_LABEL, [])
    yield "both-empty", [], []


def unions():
    rest = null() + record(field(1, null(2)), count=2) + array(number(4), count=3)
    yield "null-2-and-3", null(2), null(3)
    yield "every-kind-and-every-kind", EVERY_KIND, EVERY_KIND
    yield from both_ways("kinds-135-246", "kinds-246-135", scalars(1, 3, 5), scalars(2, 4, 6))
    yield from both_ways("kinds-12-34", "kinds-34-12", scalars(1, 2), scalars(3, 4))
    yield from both_ways("kinds-1236-2", "kinds-2-1236", scalars(1, 2, 3, 6), scalars(2))
    yield from both_ways("kinds-146-14", "kinds-14-146", scalars(1, 4, 6), scalars(1, 4))
    yield from both_ways("rest-with-content", "content-with-rest", rest, null())


def contents():
    inner = array(number(), array(null()), count=2)
    yield from both_ways("empty-array-and-content", "content-and-empty-array", array(), array(number(1000)))
    yield from both_ways("contents-136-24", "contents-24-136", array(scalars(1, 3, 6)), array(scalars(2, 4), count=7))
    yield from both_ways("contents-123-1", "contents-1-123", array(scalars(1, 2, 3)), array(scalars(1)))
    yield from both_ways("contents-in-contents", "contents-in-contents-2", inner, array(string(), array(boolean()), count=3))
    yield "content-is-cumulative", array(number(5), count=2), array(number(7), count=3)


def fields():
    yield "field-counts-add", record(field(1, null(2)), count=3), record(field(1, boolean()), count=4)
    yield "field-in-all", record(field(1, null(2)), count=2), record(field(1, boolean(4)), count=4)
    yield from both_ways("fields-135-246", "fields-246-135", with_keys(1, 3, 5), with_keys(2, 4, 6))
    yield from both_ways("fields-123-1", "fields-1-123", with_keys(1, 2, 3), with_keys(1))
    yield from both_ways("fields-123-3", "fields-3-123", with_keys(1, 2, 3), with_keys(3))
    yield from both_ways("fields-255-256", "fields-256-255", with_keys(255), with_keys(256))
    yield from both_ways("no-fields-and-fields", "fields-and-no-fields", record(), with_keys(1))
    odd, even = record(field(1, scalars(1, 3, 6), count=10), count=10), record(field(1, scalars(2, 4), count=6), count=6)
    yield from both_ways("values-136-24", "values-24-136", odd, even)
    yield "records-in-fields", record(field(1, with_keys(2))), record(field(1, with_keys(1, 3)), field(2, null()))
    yield "records-in-arrays-in-fields", record(field(1, array(with_keys(1)))), record(field(1, array(with_keys(2))))


def key_lists():
    yield from both_ways("lists-1-2-and-12", "lists-12-and-1-2", lists([1], [2]), lists([1, 2]))
    yield from both_ways("lists-12-and-1", "lists-1-and-12", lists([1, 2]), lists([1]))
    yield from both_ways("lists-2-and-13", "lists-13-and-2", lists([2]), lists([1, 3]))
    yield from both_ways("lists-12-and-13", "lists-13-and-12", lists([1, 2]), lists([1, 3]))
    yield from both_ways("lists-3-12-and-1-2-123", "lists-1-2-123-and-3-12", lists([3], [1, 2]), lists([1], [2], [1, 2, 3]))
    yield from both_ways("lists-1-2-3-and-1", "lists-1-and-1-2-3", lists([1], [2], [3]), lists([1]))
    yield from both_ways("lists-1-2-3-and-3", "lists-3-and-1-2-3", lists([1], [2], [3]), lists([3]))
    yield "lists-1-2-12-and-1-2-12", lists([1], [2], [1, 2]), lists([1], [2], [1, 2])
    yield from both_ways("lists-and-array", "array-and-lists", null() + lists([1], [2]), lists([1, 2]) + array())
    yield "lists-in-array", array(lists([1], [2])), array(lists([1], [1, 2]))
    yield "lists-in-field", record(field(1, with_keys(9))), record(field(1, with_keys(8)))


def list_lengths():
    """Lists of several lengths, also with keys that compare in another way as bytes."""
    first, second = lists([], [3], [1, 9], [2, 3, 4]), lists([1], [5], [2, 3], [1, 2, 8])
    yield from both_ways("lengths-0-to-3", "lengths-0-to-3-turned", first, second)
    first, second = lists([2], [1, 3], [1, 2, 3]), lists([1], [1, 3], [2, 3], [1, 2, 3])
    yield "lengths-with-same-lists", first, second
    yield from both_ways("lists-8-9-and-12-123", "lists-12-123-and-8-9", lists([8], [9]), lists([1, 2], [1, 2, 3]))
    yield "lengths-of-255-and-256", lists([256], [1, 255]), lists([255], [1, 256])
    first, second = lists([2], [1, 3]), lists([3], [1, 2])
    yield "lengths-in-array", array(first), array(second)
    yield "lengths-in-field", record(field(5, first, count=2), count=2), record(field(5, second, count=2), count=2)
    yield "lengths-at-31", nested(31, lists([1, 3])), nested(31, lists([2]))
    yield from both_ways("255-keys-and-256", "256-keys-and-255", with_keys(*range(2, 257)), with_keys(*range(1, 257)))
    yield "256-keys-and-other-last", with_keys(*range(1, 256), 257), with_keys(*range(1, 257))


def former_order():
    """A type in the former order is refused, unless both orders agree."""
    yield "former-order-first", FORMER_ORDER, lists([2])
    yield "former-order-second", lists([2]), FORMER_ORDER
    yield "former-order-both", FORMER_ORDER, FORMER_ORDER
    yield "former-order-in-array-first", array(FORMER_ORDER), array()
    yield "nine-in-former-order-and-nine", NINE_IN_FORMER_ORDER, NINE_BY_LABEL
    yield "nine-and-nine-in-former-order", NINE_BY_LABEL, NINE_IN_FORMER_ORDER
    yield "either-order-first", EITHER_ORDER, lists([2])
    yield "either-order-second", lists([2]), EITHER_ORDER
    yield "either-order-both", EITHER_ORDER, EITHER_ORDER


def totals():
    one, many, most = null(), null(LIMIT - 1), null(LIMIT)
    yield from both_ways("total-10^15", "total-10^15-turned", many, one)
    yield from both_ways("total-10^15+1", "total-10^15+1-turned", most, one)
    yield "total-of-two-kinds", many, boolean()
    yield "total-of-two-kinds-above", most, boolean()
    yield "total-above-in-rest-of-first", one + number(LIMIT - 1), boolean()
    yield "total-above-in-rest-of-second", many, boolean() + number()
    yield "total-2*10^15", most, most
    yield "total-10^15-in-array", arrays_around(many), array(one)
    yield "total-10^15+1-in-array", arrays_around(most), array(one)
    yield "total-10^15+1-in-rest-of-content", arrays_around(many), array(boolean(), number())
    yield "total-10^15-in-field", record(field(1, many), count=LIMIT - 1), record(field(1, one))
    yield "total-10^15+1-in-field", record(field(1, most), count=LIMIT), record(field(1, one))
    yield "total-10^15+1-in-array-in-field", with_arrays(1, most), with_arrays(1, one)
    yield "total-10^15+1-in-last-field", with_arrays(2, most), with_arrays(2, one)
    yield "two-fields-of-10^15", two_fields(LIMIT - 1), two_fields(1)
    yield "array-of-10^15+1", array(null(), count=LIMIT), array(null())


def with_arrays(last, content):
    """Records with arrays around a union in their last field, and nulls in those before it."""
    values = arrays_around(content)
    count = values[0].count
    return record(*(field(key, null(count)) for key in range(1, last)), field(last, values), count=count)


def two_fields(count):
    return record(field(1, null(count)), field(2, null(count)), count=count)


def malformed():
    yield "zeros-first", ZEROS, null()
    yield "zeros-second", null(), ZEROS
    yield "zeros-both", ZEROS, ZEROS
    yield "zero-record-behind-first", null() + ZEROS, null()
    yield "zero-record-behind-second", null(), null() + ZEROS
    yield "by-kind-and-by-label", NINE_BY_KIND, NINE_BY_LABEL
    yield "by-label-and-by-kind", NINE_BY_LABEL, NINE_BY_KIND
    yield "above-total-second", null(), null(LIMIT + 1)
    yield "second-before-total", null(LIMIT), null() + boolean(0)
    yield "second-before-room", null(), boolean() + null(), 0
    yield "first-before-room", boolean() + null(), null(), 0


def array_lengths():
    """Lengths apart, within each other, overlapping, touching and equal; of one kind of elements or two; with bytes that compare otherwise."""
    pairs = {
        "2-and-5": (arrays(1, 2, 2, 2), arrays(1, 5, 5, 5)),
        "1-to-4-and-2-to-3": (arrays(2, 5, 1, 4), arrays(2, 5, 2, 3)),
        "0-to-3-and-2-to-7": (arrays(3, 4, 0, 3), arrays(3, 12, 2, 7)),
        "1-to-2-and-2-to-9": (arrays(2, 3, 1, 2), arrays(3, 14, 2, 9)),
        "0-and-0-to-4": (arrays(2, 0, 0, 0), arrays(2, 4, 0, 4)),
        "0-and-8192": (array(), array(number(MOST_ELEMENTS))),
        "255-and-256": (array(number(255)), array(number(256))),
        "511-and-768": (array(number(511)), array(number(768))),
        "two-kinds": (array(null(4), count=2), array(boolean(9), count=3)),
    }
    for name, pair in pairs.items():
        yield from both_ways(f"array-lengths-{name}", f"array-lengths-{name}-turned", *pair)
    yield "array-lengths-equal", arrays(3, 6, 1, 4), arrays(3, 8, 1, 4)
    many, one = arrays(LIMIT - 1, LIMIT - 1, 1, 1), arrays(1, 1, 1, 1)
    yield from both_ways("array-lengths-10^15-1-arrays-and-1", "array-lengths-1-array-and-10^15-1", many, one)
    yield "array-lengths-10^15-arrays-of-0-and-8192", array(count=LIMIT - 1), arrays(1, MOST_ELEMENTS, MOST_ELEMENTS, MOST_ELEMENTS)
    yield "array-lengths-2-and-5-then-3", arrays(2, 7, 2, 5), arrays(1, 3, 3, 3)
    yield "array-lengths-2-then-5-and-3", arrays(1, 2, 2, 2), arrays(2, 8, 3, 5)


def lengths_inside():
    """Arrays in fields and in arrays, and such as one of the types lacks."""
    few, more = arrays(2, 3, 1, 2), arrays(2, 9, 4, 5)
    yield "array-lengths-in-field", record(field(1, few), count=2), record(field(1, more), count=2)
    yield "array-lengths-in-two-lists", record(field(1, few), count=2), record(field(1, more), field(2, null(2)), count=2)
    yield "array-lengths-in-two-fields", record(field(1, few), count=2), record(field(2, more), count=2)
    yield "array-lengths-in-array", array(few), array(more, count=2)
    yield "array-lengths-in-array-beside-others", array(null(), few), array(few, count=2)
    yield "array-lengths-at-32", nested(31, arrays(1, 3, 3, 3)), nested(31, array())
    yield from both_ways("array-lengths-in-rest", "array-lengths-in-rest-turned", null() + few, boolean())
    yield from both_ways("array-lengths-in-rest-of-content", "array-lengths-in-rest-of-content-turned", array(null(), few), array(null()))
    first, second = record(field(1, few), count=2), record(field(2, more), count=2)
    yield "array-lengths-of-first-list-only", first + second, record(field(1, more), count=2)


def wrong_lengths():
    right, wrong, too_long = arrays(1, 5, 5, 5), arrays(1, 5, 4, 5), arrays(1, 8193, 8193, 8193)
    yield "wrong-lengths-first", wrong, right
    yield "wrong-lengths-second", right, wrong
    yield "wrong-lengths-both", wrong, wrong
    yield "wrong-lengths-in-field-second", record(field(1, right)), record(field(1, wrong))
    yield "wrong-lengths-that-merge-right", arrays(1, 2, 2, 3), arrays(1, 3, 2, 3)
    yield "too-long-first", too_long, right
    yield "too-long-second", right, too_long
    yield "length-of-null-first", changed(null(), 0, longest=1), right
    yield "length-of-null-second", null(), changed(null(), 0, shortest=1)
    yield "wrong-lengths-second-before-total", null(LIMIT), null() + wrong
    yield "wrong-lengths-first-before-room", wrong, right, 0
    yield "wrong-lengths-second-before-room", right, wrong, 0


def plain_types():
    """Types stored before records had lengths, as the first and as the second."""
    two, three = null() + boolean(), null() + boolean() + number()
    for name, rows in ("null", null()), ("two", two), ("three", three), ("nine-by-label", NINE_BY_LABEL):
        yield f"plain-{name}-first", PLAIN.bytes_of(rows), bytes_of(null()), LARGEST
        yield f"plain-{name}-second", bytes_of(null()), PLAIN.bytes_of(rows), LARGEST
    yield "plain-three-both", PLAIN.bytes_of(three), PLAIN.bytes_of(three), LARGEST


def defaults():
    yield from both_ways("former-default-and-same-keys", "same-keys-and-former-default", FORMER_DEFAULT, FORMER_SAME_KEYS)
    yield "same-keys-twice", FORMER_SAME_KEYS, FORMER_SAME_KEYS
    yield from both_ways("former-default-and-default", "default-and-former-default", FORMER_DEFAULT, DEFAULT)
    yield from both_ways("same-keys-and-default", "default-and-same-keys", FORMER_SAME_KEYS, DEFAULT)
    yield "default-twice", DEFAULT, DEFAULT


def same_twice():
    """The first type is also the second."""
    yield "nine-by-kind", NINE_BY_KIND
    yield "nine-by-label", NINE_BY_LABEL
    yield "empty", []
    yield "half-of-10^15", null(LIMIT // 2)
    yield "above-half-of-10^15", null(LIMIT // 2 + 1)
    yield "zeros", ZEROS
    yield "wide", wide(MOST_RECORDS)


def arenas():
    yield "both-empty-arena-0", [], [], 0
    yield "null-arena-0", null(), [], 0
    yield "null-arena-24", [], null(), room(1)
    for arena in map(room, (0, 6, 7, 8)):
        yield f"by-kind-arena-{arena}", NINE_BY_KIND, NINE_BY_KIND, arena
    for arena in map(room, (0, 11, 12, 13)):
        yield f"by-label-arena-{arena}", NINE_BY_LABEL, NINE_BY_LABEL, arena
    for arena in map(room, (1, 2, 3)):
        yield f"two-kinds-arena-{arena}", null(), boolean(), arena
    yield "total-before-room", null(LIMIT), null(), 0
    yield "total-before-room-at-the-end", arrays_around(null(LIMIT)), null() + array(boolean()), room(2)
    for arena in 1, 8, 12, 16, 23, 25, 65519, 65521, 65535, 65536, 65537, 65544:
        yield f"arena-{arena}", null(), null(), arena


def in_fields(depth, inner):
    """Records around rows at a depth."""
    for _ in range(depth - 1):
        inner = record(field(1, inner))
    return inner


def depths():
    yield "nulls-at-32", nested(32, null()), nested(32, null())
    yield "null-and-boolean-at-32", nested(32, null()), nested(32, boolean())
    yield "arrays-at-32", nested(32, array()), nested(32, array())
    yield "records-at-32", nested(32, record()), nested(32, record())
    yield "fields-at-31", nested(31, with_keys(1)), nested(31, with_keys(2))
    yield from both_ways("arrays-32-and-1", "arrays-1-and-32", nested(32, null()), array())
    yield "total-above-at-32", nested(32, null(LIMIT)), nested(32, null())
    yield from both_ways("arrays-33-first", "arrays-33-second", nested(33, null()), nested(32, null()))
    yield "in-fields-at-32", in_fields(32, null()), in_fields(32, boolean())


def odd_and_even(count, other_count):
    """Two ascending runs of keys that interleave."""
    return range(1, 2 * count, 2), range(2, 2 * other_count + 1, 2)


def wide_around(union):
    """A record with nulls in 1,361 fields, and in the last one four arrays around a union."""
    return record(*(field(key, null()) for key in range(1, 1362)), field(1362, nested(5, union)))


def largest():
    odd, even = odd_and_even(682, 682)
    yield "interleaved", with_keys(*odd), with_keys(*even)
    yield "interleaved-arena-65496", with_keys(*odd), with_keys(*even), 65496
    yield "interleaved-arena-65472", with_keys(*odd), with_keys(*even), 65472
    odd, even = odd_and_even(683, 682)
    yield "interleaved-too-many", with_keys(*odd), with_keys(*even)
    odd, even = odd_and_even(455, 454)
    yield "lists-interleaved", lists(*([k] for k in odd)) + array(null(), boolean()), lists(*([k] for k in even))
    yield "lists-interleaved-too-many", lists(*([k] for k in odd)) + array(null(), boolean(), number()), lists(*([k] for k in even))
    widest, other = wide(MOST_RECORDS), wide(MOST_RECORDS, MOST_RECORDS // 2)
    yield "wide-with-null", widest, null()
    yield "null-with-wide", null(), widest
    yield "wide-with-empty", widest, []
    yield "wide-and-wide", widest, widest
    yield "wide-and-wide-arena-65496", widest, widest, 65496
    yield "wide-and-other-wide", widest, other
    yield "total-before-room-wide", wide_around(null()), wide_around(null(LIMIT)), room(1)


def given_lengths():
    """Types that are cut, or have zeros behind them."""
    one = bytes_of(null())
    for length in 1, 8, 12, 16, 23, 25, 32, 65519, 65521, 65536, 65544:
        yield f"first-{length}", front(null(), length), one, LARGEST
        yield f"second-{length}", one, front(null(), length), LARGEST
    yield "whole-arena-first", front(null(), LARGEST), one, LARGEST
    yield "whole-arena-second", one, front(null(), LARGEST), LARGEST
    yield "whole-arena-both", front(null(), LARGEST), front(null(), LARGEST), LARGEST
    yield "whole-arena-of-nine", front(NINE_BY_KIND, LARGEST), bytes_of(NINE_BY_KIND), LARGEST


def unknown():
    one, zeros = bytes_of(null()), bytes_of(ZEROS)
    yield "two-nulls", one, one, LARGEST
    yield "both-empty", b"", b"", 0
    yield "zeros-first", zeros, one, LARGEST
    yield "zeros-second", one, zeros, LARGEST
    yield "zeros-both", zeros, zeros, LARGEST
    yield "total-10^15+1", bytes_of(null(LIMIT)), one, LARGEST
    yield "arena-0", one, one, 0
    yield "arena-25", one, one, 25
    yield "arena-65536", one, one, 65536
    yield "arena-65544", one, one, 65544
    yield "first-25", front(null(), 25), one, LARGEST
    yield "second-25", one, front(null(), 25), LARGEST
    yield "second-25-zeros-first", zeros, front(null(), 25), LARGEST
    yield "wrong-lengths-first", bytes_of(arrays(1, 5, 4, 5)), one, LARGEST


def known():
    """Names, both types and arena lengths, in the order of crates/trials."""
    groups = empty_types, unions, contents, fields, key_lists, list_lengths, former_order, array_lengths, lengths_inside, totals
    for group in (*groups, malformed, wrong_lengths, defaults):
        yield from pairs(group())
    yield from plain_types()
    yield from pairs((f"{name}-twice", rows, rows) for name, rows in same_twice())
    for group in arenas, depths, largest:
        yield from pairs(group())
    yield from given_lengths()


def report(call, trials, equivalences, layout=WITH_LENGTHS):
    """What a call on two types answers. The 0 before the rows is the number of bytes behind the type that are not zero."""
    for name, first, second, arena in trials:
        for suffix, equivalence in equivalences.items():
            refusal, rows = call(first, second, equivalence, arena)
            print(f"{name}/{suffix} {refusal} 0 {len(rows)} 0{written(rows, layout)}")


if __name__ == "__main__":
    report(merge, known(), KNOWN)
    report(merge, unknown(), UNKNOWN)
