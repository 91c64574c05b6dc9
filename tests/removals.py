"""Trials of call 7 by document 02, written without the crates: subtracts the counts of places, and takes what is left only if it is well
formed and, merged with the part, gives the whole. All types are plain, without lengths of arrays.
"""
from collections import Counter

import merges
from counting_types import DEFAULT, EITHER_ORDER, EVERY_KIND, FORMER_DEFAULT, FORMER_ORDER, FORMER_SAME_KEYS, KNOWN, LIMIT
from counting_types import MOST_RECORDS, NINE_BY_KIND, NINE_BY_LABEL, NINE_IN_FORMER_ORDER, UNKNOWN
from counting_types import array, boolean, field, null, number, record, string
from counting_types import changed, digits, lists, nested, spelled, wide as wide_of, with_keys
from merges import ZEROS, Tally, fitted, in_fields, merge, odd_and_even, places, refusal_of, rows_of, scalars
from type_records import PLAIN, WITH_LENGTHS

LARGEST = PLAIN.largest
bytes_of, rows_in, front = PLAIN.bytes_of, PLAIN.rows_in, PLAIN.front

# What each of document 01's three messages gives.
BOTH_KEYS = record(field(1, number()), field(2, array(number(2))))
NULL_LANE = record(field(1, null()))
NO_WEIGHTS = record(field(2, array()))


def counts_of(data, equivalence):
    return Counter({place: tally.count for place, tally in places(rows_in(data), equivalence)})


def rest_of(whole, part, equivalence):
    """The rows of the type that merged with the part gives the whole, or None. Counts add at each place, so no other rows can."""
    counts = counts_of(whole, equivalence)
    counts.subtract(counts_of(part, equivalence))
    rows = rows_of({place: Tally(count) for place, count in (+counts).items()})
    gives_whole = merge(bytes_of(rows), part, equivalence, LARGEST, PLAIN) == (0, rows_in(whole))
    return rows if gives_whole else None


def remove(whole, part, equivalence, arena):
    """Refusal number, and the rows of the type that is left, none if it is refused."""
    refusal = refusal_of(whole, part, equivalence, arena, PLAIN)
    if refusal:
        return refusal, []
    rows = rest_of(whole, part, equivalence)
    if rows is None:
        return 16, []
    return fitted(rows, arena, PLAIN)


def wide(last_key=None):
    """A record of as many rows as a type can have."""
    return wide_of(LARGEST // PLAIN.size, last_key)


def times(rows, n):
    """The type of so many times the same messages."""
    return [row._replace(count=n * row.count) for row in rows]


def counted(of_record, fields):
    """Records with nulls at some keys, as many as are given for each."""
    return record(*(field(key, null(count)) for key, count in fields.items()), count=of_record)


def nothing_and_all():
    """The empty part, all of the whole, and more than all."""
    yield "both-empty", [], []
    named = {"null": null(), "every-kind": EVERY_KIND, "nine-by-kind": NINE_BY_KIND, "nine-by-label": NINE_BY_LABEL}
    for name, rows in named.items():
        yield f"{name}-less-empty", rows, []
        yield f"empty-less-{name}", [], rows
        yield f"{name}-less-all", rows, rows
        yield f"{name}-twice-less-once", times(rows, 2), rows
        yield f"{name}-less-twice", rows, times(rows, 2)


def unions():
    rest = null() + record(field(1, null(2)), count=2) + array(number(4), count=3)
    yield "null-5-less-2", null(5), null(2)
    yield "null-2-less-3", null(2), null(3)
    for kinds in (1,), (6,), (1, 2), (5, 6), (2, 4), (1, 3, 5), (2, 4, 6), (2, 3, 4, 5, 6):
        yield f"kinds-less-{digits(kinds)}", EVERY_KIND, scalars(*kinds)
    for kinds in (1,), (3,), (6,), (1, 2), (2, 3), (2, 4, 5, 6):
        yield f"kinds-245-less-{digits(kinds)}", scalars(2, 4, 5), scalars(*kinds)
    yield "first-count-too-high", EVERY_KIND, null(2)
    yield "middle-count-too-high", EVERY_KIND, null() + number(4) + array()
    yield "last-count-too-high", EVERY_KIND, scalars(1, 2, 3, 4, 5) + array(count=7)
    yield "rest-with-content", rest, null()
    yield "record-goes", rest, rest[1:4]
    yield "array-goes", rest, rest[4:]
    yield "content-less-one-each", rest, record(field(1, null())) + array(number())


def contents():
    """An array that goes leaves none of its content."""
    yield "array-1-of-5-less-1-of-3", array(number(5)), array(number(3))
    for arrays, elements in (1, 3), (1, 5), (1, 6), (2, 3), (2, 5), (3, 5):
        yield f"arrays-2-of-5-less-{arrays}-of-{elements}", array(number(5), count=2), array(number(elements), count=arrays)
    yield "array-1-of-5-less-empty-array", array(number(5)), array()
    yield "arrays-2-of-5-less-empty-array", array(number(5), count=2), array()
    yield "empty-arrays-3-less-2", array(count=3), array(count=2)
    yield "empty-arrays-2-less-3", array(count=2), array(count=3)
    yield "empty-array-less-array-of-null", array(), array(null())
    yield "empty-arrays-2-less-array-of-null", array(count=2), array(null())
    for kinds in (2,), (1, 3), (1, 6), (3, 6), (1, 3, 6):
        yield f"contents-136-less-{digits(kinds)}", array(scalars(1, 3, 6), count=2), array(scalars(*kinds))
    yield "contents-12-left-2", array(scalars(1, 2)), array(scalars(1))
    yield "contents-12-left-1", array(scalars(1, 2)), array(scalars(2))
    yield "null-and-array-1-of-5-less-1-of-3", null() + array(number(5)), null() + array(number(3))


def inner_contents():
    """The same one array further in."""
    part = array(array(number(3)))
    yield "inner-content-lessened", array(array(number(5), count=2), count=3), part
    yield "inner-content-left", array(array(number(5)), count=3), part
    yield "inner-array-left", array(array(number(5), count=2)), part
    yield "inner-array-goes", array(array(number(3)), count=2), part
    yield "inner-content-too-high", array(array(number(2), count=2), count=2), part
    yield "inner-content-missing", array(array(null(), count=2), count=2), part
    yield "inner-array-missing", array(number(), count=2), part
    yield "inner-empty-array-left", array(array(count=2)), array(array())
    yield "inner-record-left", array(record(count=2)), array(record())


def fields():
    yield "first-field-goes", counted(3, {1: 1, 2: 2, 3: 1}), counted(1, {1: 1})
    yield "middle-field-goes", counted(3, {1: 2, 2: 1, 3: 1}), counted(1, {2: 1})
    yield "last-field-goes", counted(3, {1: 2, 2: 2, 3: 1}), counted(1, {3: 1})
    yield "all-fields-go", counted(3, {1: 1, 2: 1}), counted(1, {1: 1, 2: 1})
    yield "fields-lessened", counted(5, {1: 3, 2: 4, 3: 5}), counted(2, {1: 1, 2: 2, 3: 2})
    for keys in (1,), (3,), (5,), (1, 2), (2, 3), (2, 4, 5):
        yield f"fields-24-less-{digits(keys)}", counted(3, {2: 2, 4: 2}), with_keys(*keys)
    yield "field-too-high", counted(5, {1: 2}), counted(3, {1: 3})
    yield "record-too-high", counted(2, {1: 1}), counted(3, {1: 1})
    yield "keys-255-256-65535-less-255", counted(2, {255: 1, 256: 1, 65535: 1}), with_keys(255)
    yield "keys-255-256-65535-less-256", counted(2, {255: 1, 256: 1, 65535: 1}), with_keys(256)
    yield "keys-255-256-65535-less-65535", counted(2, {255: 1, 256: 1, 65535: 1}), with_keys(65535)
    yield "no-fields-3-less-2", record(count=3), record(count=2)
    yield "no-fields-2-less-3", record(count=2), record(count=3)
    yield "no-fields-less-field", record(count=2), with_keys(1)


def values():
    """Unions of fields. Every record has each field, so that the types are well formed under label too."""
    of_two = record(field(1, null(2), boolean(3)), count=5)
    yield "value-goes", of_two, record(field(1, boolean(3)), count=3)
    yield "values-lessened", of_two, record(field(1, null(), boolean()), count=2)
    yield "value-missing", of_two, record(field(1, number()))
    yield "value-too-high", of_two, record(field(1, null(3)), count=3)
    inner = record(field(1, with_keys(2)), field(3, null()))
    yield "records-in-fields", times(inner, 3), inner
    yield "inner-field-missing", times(inner, 3), record(field(1, with_keys(4)), field(3, null()))
    yield "inner-value-missing", times(inner, 3), record(field(1, record(field(2, string()))), field(3, null()))
    arrays = record(field(1, null(), array(number(5))), field(2, null(2)), count=2)
    yield "array-in-field-goes", arrays, record(field(1, array(number(5))), field(2, null()))
    yield "array-in-field-left", arrays, record(field(1, array(number(3))), field(2, null()))
    yield "array-in-field-too-high", arrays, record(field(1, array(number(6))), field(2, null()))
    yield "array-in-field-stays", arrays, record(field(1, null()), field(2, null()))
    yield "array-in-only-field-left", record(field(1, array(number(5)))), record(field(1, array(number(3))))


# Under kind a field's difference may come up to that of its record, and no further. The part may have the field, only keys behind it, only
# keys before it, or no field.
BESIDE_RECORDS = {
    "field-lessened-to-record": (counted(3, {1: 3}), counted(2, {1: 2})),
    "field-lessened-above-record": (counted(3, {1: 3}), counted(2, {1: 1})),
    "field-lessened-above-no-record": (counted(2, {1: 2}), counted(2, {1: 1})),
    "field-kept-at-record": (counted(3, {1: 1, 2: 2}), counted(2, {2: 2})),
    "field-kept-above-record": (counted(3, {1: 2, 2: 2}), counted(2, {2: 2})),
    "field-kept-above-no-record": (counted(2, {1: 1, 2: 1}), counted(2, {2: 1})),
    "field-behind-at-record": (counted(3, {1: 2, 2: 1}), counted(2, {1: 2})),
    "field-behind-above-record": (counted(3, {1: 2, 2: 2}), counted(2, {1: 2})),
    "field-behind-above-no-record": (counted(2, {1: 1, 2: 1}), counted(2, {1: 1})),
    "second-field-behind-above-record": (counted(3, {1: 2, 2: 1, 3: 2}), counted(2, {1: 2})),
    "only-field-at-record": (counted(3, {1: 1}), counted(2, {})),
    "only-field-above-record": (counted(3, {1: 2}), counted(2, {})),
    "only-field-above-no-record": (counted(2, {1: 1}), counted(2, {})),
}


def fields_beside_records():
    for name, (whole, part) in BESIDE_RECORDS.items():
        yield name, whole, part
        yield f"{name}-in-array", array(whole, count=2), array(part)
        yield f"{name}-in-field", record(field(9, whole), count=5), record(field(9, part), count=2)


def key_lists():
    """Under kind a union of several records is malformed."""
    whole = times(lists([1], [2], [1, 2], [1, 3]), 3)
    for keys in ([1],), ([1, 2],), ([2],), ([1], [2]), ([1, 2], [1, 3]), ([1], [2], [1, 2], [1, 3]):
        yield f"lists-1-2-12-13-less-{spelled(keys)}", whole, lists(*keys)
    for keys in ([],), ([1, 2, 3],), ([1, 4],), ([3],), ([1], [1, 2, 3]), ([3], [1, 2]):
        yield f"lists-1-2-12-13-less-{spelled(keys)}", whole, lists(*keys)
    yield "lists-first-goes", whole, times(lists([1]), 3)
    yield "lists-middle-go", whole, times(lists([2], [1, 2]), 3)
    yield "lists-last-goes", whole, times(lists([1, 3]), 3)
    yield "lists-count-too-high", whole, times(lists([1, 2]), 4)
    yield "lists-among-others", null(2) + whole + array(count=2), lists([1, 2]) + array()
    yield "lists-in-array", array(whole), array(lists([2]))
    yield "lists-in-arrays", array(whole, count=2), array(lists([2]))
    yield "lists-in-field", times(record(field(5, with_keys(9))), 2) + with_keys(6), record(field(5, with_keys(9)))


def list_lengths():
    """Lists of several lengths. Those that the part lacks stay, those that the whole lacks are refused."""
    whole = times(lists([], [3], [5], [1, 9], [2, 4], [1, 2, 3]), 2)
    for keys in ([3], [2, 4]), ([], [1, 2, 3]), ([4],), ([1, 2, 3, 4],):
        yield f"lengths-0-to-3-less-{spelled(keys)}", whole, lists(*keys)
    yield "lengths-0-to-3-last-of-1-and-first-of-2-go", whole, times(lists([5], [1, 9]), 2)
    yield "lengths-in-arrays", array(whole, count=2), array(lists([5], [1, 9]))
    yield "lengths-of-255-and-256", lists([255], [256], [1, 255], [1, 256]), lists([256], [1, 255])


def former_order():
    """A type in the former order is refused, unless both orders agree."""
    in_order = lists([2], [1, 3])
    yield "former-order-whole", FORMER_ORDER, lists([2])
    yield "former-order-part", in_order, FORMER_ORDER
    yield "former-order-both", FORMER_ORDER, FORMER_ORDER
    yield "former-order-in-array-part", array(in_order), array(FORMER_ORDER)
    yield "nine-in-former-order-less-nine", NINE_IN_FORMER_ORDER, NINE_BY_LABEL
    yield "nine-less-nine-in-former-order", NINE_BY_LABEL, NINE_IN_FORMER_ORDER
    yield "either-order-whole", EITHER_ORDER, lists([1])
    yield "either-order-part", lists([1], [2], [2, 3]), EITHER_ORDER
    yield "either-order-both", EITHER_ORDER, EITHER_ORDER


def one_list():
    """Records of one key list, or of none."""
    yield "list-12-less-1", with_keys(1, 2), with_keys(1)
    yield "lists-12-12-less-1", times(with_keys(1, 2), 2), with_keys(1)
    yield "list-1-less-12", with_keys(1), with_keys(1, 2)
    yield "lists-12-5-less-2", times(with_keys(1, 2), 5), times(with_keys(1, 2), 2)
    yield "lists-12-2-less-5", times(with_keys(1, 2), 2), times(with_keys(1, 2), 5)
    yield "list-1-less-none", with_keys(1), record()
    yield "lists-none-1-less-none", record(count=2) + with_keys(1), record()
    yield "lists-none-1-less-1", record(count=2) + with_keys(1), with_keys(1)


def single_messages():
    """What one message gives, or two: those of document 01's example, and others."""
    messages = {
        "both-keys": BOTH_KEYS,
        "null-lane": NULL_LANE,
        "no-weights": NO_WEIGHTS,
        "null-lane-and-weights": record(field(1, null()), field(2, array(number(2)))),
        "two-weights": record(field(2, array(number(2)))),
        "three-weights": record(field(2, array(number(3)))),
        "null-weight": record(field(2, array(null()))),
        "string-lane": record(field(1, string())),
        "third-key": with_keys(3),
        "no-keys": record(),
        "null": null(),
        "all-but-no-weights-by-kind": record(field(1, null(), number()), field(2, array(number(2))), count=2),
        "all-but-no-weights-by-label": NULL_LANE + BOTH_KEYS,
        "two-of-one-weight-by-kind": record(field(2, array(number(1), count=2)), count=2),
    }
    for name, part in messages.items():
        yield f"nine-by-kind-less-{name}", NINE_BY_KIND, part
        yield f"nine-by-label-less-{name}", NINE_BY_LABEL, part


def totals():
    one, many, most = null(), null(LIMIT - 1), null(LIMIT)
    yield "10^15-less-1", most, one
    yield "10^15-less-10^15-1", most, many
    yield "10^15-less-10^15", most, most
    yield "10^15-1-less-10^15", many, most
    yield "1-less-10^15", one, most
    yield "10^15-of-two-kinds", many + boolean(), one
    yield "10^15-in-arrays", array(most, count=LIMIT), array(one)
    yield "10^15-left-in-array", array(most), array(many)
    yield "10^15-in-fields", record(field(1, most), count=LIMIT), record(field(1, one))
    yield "10^15-in-fields-less-10^15-1", record(field(1, most), count=LIMIT), record(field(1, many), count=LIMIT - 1)
    yield "10^15-above-record", record(field(1, most), count=LIMIT), record(count=LIMIT - 1)
    yield "10^15+1-whole", null(LIMIT + 1), one
    yield "10^15+1-part", most, null(LIMIT + 1)


def malformed():
    """The whole is judged before the part, and both before what is left."""
    yield "zeros-whole", ZEROS, null()
    yield "zeros-part", null(), ZEROS
    yield "zeros-both", ZEROS, ZEROS
    yield "zeros-whole-empty-part", ZEROS, []
    yield "zeros-part-empty-whole", [], ZEROS
    yield "zero-record-behind-whole", null() + ZEROS, null()
    yield "zero-record-behind-part", null(), null() + ZEROS
    yield "count-0-part", null(), null(0)
    yield "by-kind-less-by-label", NINE_BY_KIND, NINE_BY_LABEL
    yield "by-label-less-by-kind", NINE_BY_LABEL, NINE_BY_KIND
    yield "whole-before-part", boolean() + null(), null() + null()
    yield "whole-before-rest", boolean() + null(), number()
    yield "part-before-rest", null(), number() + boolean()
    yield "whole-before-room", boolean() + null(), [], 0
    yield "part-before-room", null(2), boolean() + null(), 0
    yield "rest-before-room", null(2), boolean(), 0
    yield "rest-before-room-at-the-end", EVERY_KIND, array(count=7), 16
    yield "content-left-before-room", null() + array(number(5)), array(number(3)), 0
    yield "field-above-record-before-room", counted(3, {1: 3}), counted(2, {1: 1}), 0


def same_slice():
    """The whole is also the part."""
    yield "nine-by-kind", NINE_BY_KIND
    yield "nine-by-label", NINE_BY_LABEL
    yield "empty", []
    yield "10^15", null(LIMIT)
    yield "zeros", ZEROS
    yield "wide", wide()


def arenas():
    """The records of what is left decide, not those of the whole."""
    yield "both-empty-arena-0", [], [], 0
    yield "null-less-all-arena-0", null(), null(), 0
    yield "nine-by-kind-less-all-arena-0", NINE_BY_KIND, NINE_BY_KIND, 0
    yield "nine-by-label-less-all-arena-0", NINE_BY_LABEL, NINE_BY_LABEL, 0
    for arena in 0, 16, 32:
        yield f"null-less-empty-arena-{arena}", null(), [], arena
        yield f"null-left-arena-{arena}", EVERY_KIND, scalars(2, 3, 4, 5, 6), arena
    for arena in 0, 64, 80, 96:
        yield f"both-keys-go-arena-{arena}", NINE_BY_KIND, BOTH_KEYS, arena
    for arena in 0, 32, 48, 64:
        yield f"no-weights-left-arena-{arena}", NINE_BY_LABEL, NULL_LANE + BOTH_KEYS, arena
    for arena in 80, 96, 112:
        yield f"by-kind-twice-less-once-arena-{arena}", times(NINE_BY_KIND, 2), NINE_BY_KIND, arena
    for arena in 176, 192, 208:
        yield f"by-label-twice-less-once-arena-{arena}", times(NINE_BY_LABEL, 2), NINE_BY_LABEL, arena
    for arena in 1, 8, 15, 17, 65535, 65537, 65552:
        yield f"arena-{arena}", null(2), null(), arena
    yield "arena-17-less-all", null(), null(), 17
    yield "arena-17-zeros-whole", ZEROS, null(), 17
    yield "arena-17-zeros-part", null(), ZEROS, 17
    yield "arena-17-missing", null(), boolean(), 17


def depths():
    at_31 = nested(31, counted(3, {1: 3}))
    yield "nulls-at-32-less-all", nested(32, null()), nested(32, null())
    yield "nulls-at-32-twice-less-once", times(nested(32, null()), 2), nested(32, null())
    yield "null-at-32-left", nested(32, null(2)), nested(32, null())
    yield "null-at-32-missing", times(nested(32, boolean()), 2), nested(32, null())
    yield "null-at-32-too-high", times(nested(32, null()), 2), nested(32, null(3))
    yield "array-at-32-left", nested(32, array(count=2)), nested(32, array())
    yield "record-at-32-less-one", times(nested(32, record()), 2), nested(32, record())
    yield "field-at-31-to-record", times(at_31, 2), nested(31, counted(4, {1: 4}))
    yield "field-at-31-above-record", times(at_31, 2), nested(31, counted(4, {1: 3}))
    yield "arrays-32-less-array", nested(32, null()), array()
    yield "arrays-2-to-32-less-array", changed(nested(32, null()), 0, count=2), array()
    yield "array-less-arrays-32", array(count=2), nested(32, null())
    yield "in-fields-at-32-twice-less-once", times(in_fields(32, null()), 2), in_fields(32, null())
    yield "in-fields-at-32-missing", times(in_fields(32, null()), 2), in_fields(32, boolean())
    yield "in-fields-at-32-too-high", times(in_fields(32, null()), 2), times(in_fields(32, null()), 3)
    yield "arrays-33-whole", nested(33, null()), nested(32, null())
    yield "arrays-33-part", nested(32, null()), nested(33, null())


def largest():
    two_wide = changed(wide(), 0, count=2)
    yield "wide-less-all", wide(), wide()
    yield "wide-less-all-arena-0", wide(), wide(), 0
    yield "wide-less-empty", wide(), []
    yield "wide-less-empty-arena-65520", wide(), [], 65520
    yield "wide-less-other-wide", wide(), wide(2048)
    yield "wide-left-at-the-end", wide()[:-1] + null(2), wide()
    yield "wide-left-at-the-end-arena-0", wide()[:-1] + null(2), wide(), 0
    yield "wide-2-less-record", two_wide, record()
    yield "wide-2-less-record-arena-65520", two_wide, record(), 65520
    yield "wide-2-less-wide", two_wide, wide()
    yield "wide-2-less-wide-arena-16", two_wide, wide(), 16
    yield "wide-2-less-wide-arena-0", two_wide, wide(), 0
    yield "record-less-wide", record(count=2), wide()
    yield "null-less-wide", null(), wide()


def interleaved():
    """Keys that alternate between part and rest: in one record under kind, in a record each under label."""
    odd, even = odd_and_even(1024, 1023)
    in_two = changed(with_keys(*range(1, 2048)), 0, count=2)
    yield "keys-less-odd", in_two, with_keys(*odd)
    yield "keys-less-even", in_two, with_keys(*even)
    yield "keys-less-even-arena-32784", in_two, with_keys(*even), 32784
    yield "keys-less-even-arena-32768", in_two, with_keys(*even), 32768
    yield "odd-keys-less-even", changed(with_keys(*odd), 0, count=2), with_keys(*even)
    odd, even = odd_and_even(683, 682)
    each = lists(*([key] for key in range(1, 1366))) + array()
    yield "lists-less-odd", each, lists(*([key] for key in odd))
    yield "lists-less-even", each, lists(*([key] for key in even))
    yield "lists-less-even-arena-32800", each, lists(*([key] for key in even)), 32800
    yield "lists-less-even-arena-32784", each, lists(*([key] for key in even)), 32784
    yield "lists-less-all", each, each
    yield "lists-less-one-more", each, with_keys(1366)


def given_lengths():
    """Types that are cut, or have zeros behind them."""
    one, two = bytes_of(null()), bytes_of(null(2))
    for length in 1, 8, 15, 17, 24, 65535, 65537, 65552:
        yield f"whole-{length}", front(null(2), length), one, LARGEST
        yield f"part-{length}", two, front(null(), length), LARGEST
    yield "whole-17-arena-0", front(null(2), 17), one, 0
    yield "part-17-zeros-whole", bytes_of(ZEROS), front(null(), 17), LARGEST
    yield "whole-17-zeros-part", front(null(), 17), bytes_of(ZEROS), LARGEST
    yield "part-17-missing", one, front(boolean(), 17), LARGEST
    yield "whole-arena-whole", front(null(), LARGEST), one, LARGEST
    yield "whole-arena-part", one, front(null(), LARGEST), LARGEST
    yield "whole-arena-both", front(null(), LARGEST), front(null(), LARGEST), LARGEST
    yield "whole-arena-of-nine", front(NINE_BY_KIND, LARGEST), bytes_of(NO_WEIGHTS), LARGEST


def defaults():
    """Types stored by the default call before records had lengths: as it was first, under kind, and as it was then, under label."""
    yield "former-default-less-one", FORMER_DEFAULT, record(field(1, number()))
    yield "former-default-less-other", FORMER_DEFAULT, record(field(1, number()), field(2, null()))
    yield "former-default-same-keys-less-one", FORMER_SAME_KEYS, record(field(1, number()), field(2, string()))
    yield "default-less-one", DEFAULT, record(field(1, string()))
    yield "default-less-other", DEFAULT, record(field(1, number()), field(2, null()))
    yield "default-less-former-default", DEFAULT, FORMER_DEFAULT


def with_lengths():
    """Types with lengths. An allowed length have those with an even number of records."""
    stored = {
        "null": null(),
        "two": null() + boolean(),
        "three": null() + boolean() + number(),
        "array": array(null()),
        "array-of-two": array(null(), boolean()),
        "nine-by-label": NINE_BY_LABEL,
        "largest": wide_of(MOST_RECORDS),
    }
    for name, rows in stored.items():
        data = WITH_LENGTHS.bytes_of(rows)
        yield f"with-lengths-{name}-whole", data, bytes_of(null()), LARGEST
        yield f"with-lengths-{name}-part", bytes_of(null()), data, LARGEST
    yield "with-lengths-two-both", WITH_LENGTHS.bytes_of(null() + boolean()), WITH_LENGTHS.bytes_of(null() + boolean()), LARGEST


def unknown():
    one, two, zeros = bytes_of(null()), bytes_of(null(2)), bytes_of(ZEROS)
    yield "two-less-one", two, one, LARGEST
    yield "one-less-two", one, two, LARGEST
    yield "both-empty", b"", b"", 0
    yield "less-empty-arena-0", one, b"", 0
    yield "zeros-whole", zeros, one, LARGEST
    yield "zeros-part", one, zeros, LARGEST
    yield "zeros-both", zeros, zeros, LARGEST
    yield "arena-17", two, one, 17
    yield "arena-65552", two, one, 65552
    yield "whole-17", front(null(2), 17), one, LARGEST
    yield "whole-65552", front(null(2), 65552), one, LARGEST
    yield "part-17", two, front(null(), 17), LARGEST
    yield "part-65552", two, front(null(), 65552), LARGEST
    yield "part-17-zeros-whole", zeros, front(null(), 17), LARGEST


def pairs(trials):
    return merges.pairs(trials, PLAIN)


def known():
    """Names, whole and part, and arena lengths, in the order of crates/trials."""
    groups = nothing_and_all, unions, contents, inner_contents, fields, values, fields_beside_records, key_lists, list_lengths, former_order
    for group in (*groups, one_list, single_messages, totals, malformed, defaults):
        yield from pairs(group())
    yield from pairs((f"{name}-same", rows, rows) for name, rows in same_slice())
    for group in arenas, depths, largest, interleaved:
        yield from pairs(group())
    yield from given_lengths()
    yield from with_lengths()


if __name__ == "__main__":
    merges.report(remove, known(), KNOWN, PLAIN)
    merges.report(remove, unknown(), UNKNOWN, PLAIN)
