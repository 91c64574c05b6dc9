"""Trials of call 9 by document 02, written without the crates: reads a type under label as the map of merges.py from places to tallies,
adds the tallies of places that differ in key lists alone, writes that map, prints a line.
"""
import sys
from itertools import combinations, islice

import merges
from counting_types import DEFAULT, EVERY_KIND, FORMER_DEFAULT, FORMER_ORDER, FORMER_SAME_KEYS, LABEL, LARGEST, LIMIT
from counting_types import MOST_ELEMENTS, MOST_RECORDS, NINE_BY_KIND, NINE_BY_LABEL, NINE_IN_FORMER_ORDER, NO_KEYS
from counting_types import array, arrays, arrays_around, boolean, field, null, number, record, string
from counting_types import bytes_of, changed, front, joined, judge, lists, nested, room, rows_in, spelled, total, wide, with_keys
from drawn_types import drawn, half_of_limit, of_table, to_limit
from merges import ZEROS, fitted, largest_total, places, row_text, rows_of, scalars, tallied, written
from removals import times
from type_records import PLAIN, WITH_LENGTHS


def without_key_lists(place):
    return tuple((kind, key, NO_KEYS) for kind, key, _ in place)


def tallies_by_kind(rows):
    """The tallies of a type under label, at the places under kind."""
    return tallied((without_key_lists(place), tally) for place, tally in places(rows, LABEL))


def fold(data, arena, work):
    """Refusal number, and the rows of the folded type, none if it is refused."""
    refusal, _, _ = judge(data, LABEL)
    if refusal == 1 or WITH_LENGTHS.refuses(arena) or work != arena:
        return 1, []
    if refusal:
        return refusal, []
    tallies = tallies_by_kind(rows_in(data))
    if largest_total(tallies) > LIMIT:
        return 10, []
    return fitted(rows_of(tallies), arena)


def holding(key, union, *further):
    """Records with a union in the field of a key, and nulls at further keys."""
    count = total(union)
    return record(field(key, union, count=count), *(field(k, null(count)) for k in further), count=count)


def together(first, second):
    """Two unions at one place under kind: in field 1 of records with the key lists (1) and (1, 2)."""
    return holding(1, first) + holding(1, second, 2)


def weighted(*key_lists):
    """Records with these key lists, counted 1, 2, 4 and so on, so that a sum tells its parts."""
    return joined(times(with_keys(*keys), 2**i) for i, keys in enumerate(key_lists))


def subsets(keys):
    """All key lists of some keys, in order."""
    return [one for length in range(len(keys) + 1) for one in combinations(keys, length)]


THREE_LISTS = weighted([1], [2], [1, 2])
OTHER_LISTS = weighted([], [3], [1, 3])


def document():
    yield "empty", []
    yield "empty-arena-0", [], 0
    yield "nine-by-label", NINE_BY_LABEL
    for arena in map(room, (0, 1, 6, 7, 8, 11, 12, 13)):
        yield f"nine-by-label-arena-{arena}", NINE_BY_LABEL, arena
    yield "nine-by-kind", NINE_BY_KIND
    yield "nine-by-kind-arena-0", NINE_BY_KIND, 0
    yield "default", DEFAULT
    yield "former-default", FORMER_DEFAULT
    yield "former-default-same-keys", FORMER_SAME_KEYS


def as_they_are():
    """No union has two records."""
    yield "null", null()
    yield "null-10^15", null(LIMIT)
    yield "scalars", scalars(1, 2, 3, 4)
    yield "arrays", null(9) + array(null(2), number(3), array(string(7), count=4), count=5)
    yield "empty-array", array()
    yield "empty-record", record()
    yield "one-list-in-each-union", null() + record(field(1, with_keys(2)), field(2, array(with_keys(1)))) + array(with_keys(3))
    for arena in map(room, (0, 5, 6, 7)):
        yield f"every-kind-arena-{arena}", EVERY_KIND, arena
    for arena in map(room, (0, 6, 7, 8)):
        yield f"one-list-arena-{arena}", times(with_keys(1, 2, 3), 5), arena


def key_lists():
    """New fields go before those that stand there, between them and behind them."""
    pairs = ([], [1]), ([1], [2]), ([1], [1, 2]), ([2], [1, 2]), ([1, 2], [1, 3]), ([2], [1, 3]), ([1, 3], [2, 3]), ([1, 4], [2, 3])
    longer = ([1, 2], [3, 4]), ([2], [1, 2, 3]), ([2, 4], [1, 3, 5]), ([1, 6], [2, 3, 4, 5]), ([1, 2, 4], [1, 2, 3, 4])
    several = ([], [1], [1, 2]), ([2], [3], [1, 4]), ([5], [1, 9], [2, 8], [3, 7], [4, 6]), ([6], [1, 4], [2, 5], [1, 2, 3])
    for keys in (*pairs, *longer, *several):
        yield f"lists-{spelled(keys)}", weighted(*keys)
    yield "lists-255-and-256", weighted([255], [256])
    yield "lists-256-and-1-65535", weighted([256], [1, 65535])
    yield "lists-of-1-to-3", weighted(*subsets([1, 2, 3]))
    yield "lists-of-1-to-5", weighted(*subsets([1, 2, 3, 4, 5]))
    yield "lists-among-others", null(3) + THREE_LISTS + array(boolean(5), count=2)


def list_lengths():
    """A longer list may have smaller keys. The former order and the present one agree on the last pair."""
    for keys in ([9], [1, 2]), ([9], [7, 8], [4, 5, 6], [1, 2, 3, 9]), ([], [3], [5], [1, 4], [2, 3], [1, 2, 3]), ([1], [2, 3]):
        yield f"lengths-{spelled(keys)}", weighted(*keys)
    yield "lengths-in-fields-of-two-lengths", holding(5, weighted([9], [1, 2])) + holding(5, weighted([2], [1, 3]), 6)
    yield "lengths-with-field-before", holding(5, THREE_LISTS) + record(field(1, array(OTHER_LISTS)), field(5, with_keys(4)))
    yield "lengths-at-31", nested(31, weighted([2], [1, 3]))


def one_place():
    """Addends and fields of one place under kind, in any order of arrival."""
    for group in merges.unions, merges.contents, merges.fields, merges.key_lists:
        for name, first, second in group():
            yield f"together-{name}", together(first, second)
    yield "together-fields-5-3-1", holding(1, with_keys(5)) + holding(1, with_keys(3), 2) + holding(1, with_keys(1), 3)
    yield "together-fields-19-5", together(with_keys(1, 9), with_keys(5))


def array_lengths():
    """Arrays in two key lists, with the lengths of merges.py, and in three; arrays whose elements are folded keep their lengths."""
    for name, first, second in merges.array_lengths():
        if "10^15" not in name:
            yield f"together-{name}", together(first, second)
    few, more = arrays(2, 3, 1, 2), arrays(2, 9, 4, 5)
    yield "array-lengths-of-three-lists", holding(1, more) + holding(1, few, 2) + holding(1, array(count=3), 3)
    yield "array-lengths-in-arrays-of-two-lists", together(array(few), array(more, count=2))
    yield "array-lengths-in-array", array(together(few, more), lengths=(4, 4))
    yield "array-lengths-of-folded-elements", arrays_of_lists(3, 1, 5)
    yield "array-lengths-of-folded-elements-of-two-lists", together(arrays_of_lists(3, 1, 5), arrays_of_lists(2, 0, 7))
    turned = record(field(1, more), field(2, few), field(3, null(2)), count=2)
    yield "array-lengths-in-two-fields", record(field(1, few), field(2, more), count=2) + turned
    yield "array-lengths-at-32", nested(29, together(array(few), array(more, count=2)))
    one, others = arrays(1, 1, 1, 1), arrays(LIMIT - 1, LIMIT - 1, 1, 1)
    yield "array-lengths-of-10^15-arrays", together(one, others)


def arrays_of_lists(count, shortest, longest):
    return array(THREE_LISTS, count=count, lengths=(shortest, longest))


def inside():
    """Unions in fields and in contents of arrays are folded too."""
    yield "in-array", array(THREE_LISTS)
    yield "in-arrays-3", array(null(), THREE_LISTS, array(), count=3)
    yield "in-arrays-in-arrays", array(array(THREE_LISTS, count=2), count=3)
    yield "in-field", holding(3, THREE_LISTS)
    yield "in-field-among-fields", holding(3, THREE_LISTS, 4, 5)
    yield "in-array-in-field", record(field(3, array(THREE_LISTS)))
    yield "in-field-in-array", array(holding(3, THREE_LISTS))
    yield "in-array-in-field-in-array", array(record(field(3, array(THREE_LISTS))))
    yield "in-fields-of-two-lists", together(THREE_LISTS, OTHER_LISTS)
    yield "in-arrays-of-two-lists", together(array(THREE_LISTS), array(OTHER_LISTS, count=2))
    yield "in-arrays-in-arrays-of-two-lists", together(array(array(OTHER_LISTS)), array(null(), array(THREE_LISTS)))
    yield "in-arrays-of-two-lists-in-array", array(together(array(OTHER_LISTS), array(THREE_LISTS)))
    yield "in-record-and-array", record(field(1, array(THREE_LISTS)), field(2, with_keys(1))) + array(OTHER_LISTS)
    yield "in-second-field", record(field(1, array(OTHER_LISTS)), field(2, array(THREE_LISTS)))
    yield "not-in-another-field", record(field(2, with_keys(1))) + record(field(1, with_keys(1)), field(2, with_keys(2)))


def levels():
    """Several key lists at each level."""
    plain = with_arrays = null()
    for level in range(1, 4):
        plain = together(plain, plain)
        with_arrays = record() + together(array(with_arrays, count=2), with_arrays)
        yield f"levels-{level}", plain
        yield f"levels-{level}-with-arrays", with_arrays
    yield "levels-4", together(plain, plain)


def large_counts():
    """Sums that carry from each byte of a count to the next, and totals up to the limit."""
    for bits in 8, 16, 24, 32, 40, 48:
        yield f"carry-2^{bits}", times(with_keys(1), 2**bits - 1) + with_keys(1, 2)
    yield "half-and-half", times(with_keys(1), LIMIT // 2) + times(with_keys(2), LIMIT // 2)
    yield "all-but-one", times(with_keys(1), LIMIT - 1) + with_keys(1, 2)
    yield "10^15-of-other-kinds", null(LIMIT - 7) + THREE_LISTS
    yield "10^15-in-array", arrays_around(null(LIMIT - 7), THREE_LISTS)
    yield "10^15-in-field", holding(3, null(LIMIT - 7) + THREE_LISTS)


def contents(first, second):
    """Arrays of one place under kind, with a union in each."""
    return together(arrays_around(first), arrays_around(second))


def totals():
    """Only contents of arrays can pass the limit together."""
    one, many, most = null(), null(LIMIT - 1), null(LIMIT)
    yield "contents-10^15", contents(many, one)
    yield "contents-10^15-turned", contents(one, many)
    yield "contents-10^15+1", contents(most, one)
    yield "contents-10^15+1-turned", contents(one, most)
    yield "contents-2*10^15", contents(most, most)
    yield "contents-of-two-kinds", contents(many, boolean())
    yield "contents-of-two-kinds-above", contents(most, boolean())
    yield "contents-of-two-kinds-above-turned", contents(boolean(LIMIT), one)
    yield "contents-of-records", contents(record(count=LIMIT - 7), THREE_LISTS)
    yield "contents-of-records-above", contents(record(count=LIMIT - 6), THREE_LISTS)
    yield "contents-of-arrays-above", contents(array(count=LIMIT), array())
    yield "contents-of-three-lists", holding(1, arrays_around(many)) + holding(1, array(), 2) + holding(1, array(one), 3)
    yield "contents-of-three-lists-above", holding(1, arrays_around(many)) + holding(1, array(one), 2) + holding(1, array(one), 3)
    yield "contents-of-12-lists", contents_of_12_lists()
    yield "contents-above-in-array", arrays_around(contents(most, one))
    yield "contents-above-in-contents", contents(arrays_around(most), array(one))
    yield "contents-above-in-records-in-contents", contents(holding(9, arrays_around(most)), holding(9, array(one)))
    yield "contents-above-in-field", holding(9, contents(most, one))
    yield "contents-above-in-last-field", in_last_field(most) + in_last_field(one, 9)
    yield "contents-above-behind-others", null(3) + contents(most, one) + array(boolean(5), count=2)
    yield "contents-apart-by-key", holding(1, arrays_around(most)) + holding(2, arrays_around(most))
    full = arrays_around(most)
    yield "contents-apart-by-depth", contents(full, null(LIMIT - total(full)))
    yield "contents-apart-by-field", record(field(2, array())) + record(field(1, full), field(2, full), count=total(full))


def contents_of_12_lists():
    return joined(holding(1, arrays_around(null(LIMIT)), key) for key in range(2, 14))


def in_last_field(content, *keys):
    """Records with arrays around a union in field 3, and nulls at further keys."""
    values = arrays_around(content)
    count = values[0].count
    scalar = field(1, null(count)), field(2, string(count))
    return record(*scalar, field(3, values), *(field(key, null(count)) for key in keys), count=count)


def totals_and_rooms():
    """10 comes before 11, however small the arena."""
    most, one = null(LIMIT), null()
    for arena in map(room, (0, 1, 2, 5, 6, 7)):
        yield f"contents-10^15-arena-{arena}", contents(null(LIMIT - 1), one), arena
        yield f"contents-10^15+1-arena-{arena}", contents(most, one), arena
    for arena in map(room, (0, 4, 8)):
        yield f"contents-above-in-last-field-arena-{arena}", in_last_field(most) + in_last_field(one, 9), arena
    for arena in map(room, (0, 3, 5)):
        yield f"contents-above-at-32-arena-{arena}", nested(29, contents(arrays_around(most), array(one))), arena
    yield "contents-of-12-lists-arena-0", contents_of_12_lists(), 0


# Under label. Some are well formed under kind.
MALFORMED = {
    "zeros": ZEROS,
    "zero-record-behind": NINE_BY_LABEL + ZEROS,
    "field-below-record": record(field(1, null(2)), count=3),
    "field-above-record": record(field(1, null(3)), count=2),
    "second-field-below-record": record(field(1, null(3)), field(2, null(2)), count=3),
    "field-below-record-in-array": array(record(field(1, null(2)), count=3)),
    "field-below-record-in-field": holding(1, record(field(1, null(2)), count=3)),
    "field-below-record-behind-lists": THREE_LISTS + record(field(1, null(3)), field(3, null(2)), count=3),
    "lists-out-of-order": lists([1, 2], [1]),
    "lists-2-13-12": lists([2], [1, 3], [1, 2]),
    "former-order": FORMER_ORDER,
    "former-order-in-array": array(FORMER_ORDER),
    "former-order-in-field": holding(5, FORMER_ORDER),
    "nine-in-former-order": NINE_IN_FORMER_ORDER,
    "empty-list-last": lists([1], []),
    "list-twice": lists([1], [1]),
    "list-twice-in-array": array(lists([1], [1])),
    "addend-twice": null() + null(),
    "array-twice": array() + array(null()),
    "addends-out-of-order": boolean() + null(),
    "array-before-records": array() + THREE_LISTS,
    "fields-out-of-order": with_keys(2, 1),
    "field-twice": with_keys(1, 1),
    "field-at-top": field(1, null()),
    "field-key-0": with_keys(0),
    "addend-key-1": changed(THREE_LISTS, 0, key=1),
    "byte-1-of-last": changed(THREE_LISTS, 10, zero=1),
    "kind-8": changed(null(), 0, kind=8),
    "count-0": null(0),
    "count-0-in-last": changed(THREE_LISTS, 10, count=0),
    "span-0": changed(null(), 0, span=0),
    "span-past-end": changed(THREE_LISTS, 6, span=6),
    "span-2^32-1": changed(THREE_LISTS, 6, span=2**32 - 1),
    "null-with-content": changed(null(), 0, span=2) + null(),
    "empty-field": record(field(1, count=1)),
    "total-10^15+1": null(LIMIT) + record(),
    "total-10^15+1-of-lists": times(with_keys(1), LIMIT) + with_keys(2),
    "count-2^64-1": null(2**64 - 1),
    "malformed-above-limit": contents(null(LIMIT), null()) + record(),
    "wrong-lengths": arrays(1, 5, 4, 5),
    "wrong-lengths-in-second-list": together(arrays(1, 5, 5, 5), arrays(2, 5, 2, 2)),
    "wrong-lengths-that-fold-right": together(arrays(1, 2, 2, 3), arrays(1, 3, 2, 3)),
    "wrong-lengths-in-array": array(THREE_LISTS, lengths=(3, 3)),
    "shortest-above-longest": holding(1, arrays(2, 5, 3, 2)),
    "too-long": arrays(1, MOST_ELEMENTS + 1, MOST_ELEMENTS + 1, MOST_ELEMENTS + 1),
    "length-of-null": changed(THREE_LISTS, 2, longest=1),
    "length-of-field": changed(THREE_LISTS, 1, shortest=1),
    "length-of-record": changed(THREE_LISTS, 6, longest=1),
    "wrong-lengths-above-limit": contents(null(LIMIT), null()) + arrays(1, 5, 5, 6),
}


def malformed():
    yield from MALFORMED.items()
    for name in "zeros", "field-below-record", "lists-out-of-order", "count-0-in-last", "malformed-above-limit", "wrong-lengths":
        yield f"{name}-arena-0", MALFORMED[name], 0


def in_records(depth, union, beside):
    """Records with the key 1 around a union at a depth, and others beside each of them."""
    for _ in range(depth - 1):
        union = holding(1, union) + beside
    return union


def depths():
    yield "arrays-at-32", nested(32, array())
    for arena in LARGEST, room(35), room(34):
        yield f"lists-at-31-arena-{arena}", nested(31, THREE_LISTS), arena
    yield "lists-at-32", nested(32, THREE_LISTS)
    yield "record-at-32-of-two-lists", nested(31, together(record(), array()))
    yield "contents-10^15-at-32", nested(29, contents(arrays_around(null(LIMIT - 1)), array(null())))
    yield "contents-10^15+1-at-32", nested(29, contents(arrays_around(null(LIMIT)), array(null())))
    yield "arrays-33", nested(33, null())
    yield "null-in-records-at-32", in_records(32, null(), [])
    yield "lists-in-records-at-31", in_records(31, THREE_LISTS, [])
    yield "lists-at-each-depth", in_records(32, null(), with_keys(1, 2))
    for arena in map(room, (155, 154)):
        yield f"lists-at-each-depth-arena-{arena}", in_records(32, null(), with_keys(1, 2)), arena
    yield "lists-at-each-depth-33", in_records(33, null(), with_keys(1, 2))


def largest():
    one_each, two_each = lists(*([key] for key in range(1, 910))), lists(*([key, 100 - key] for key in range(1, 21)))
    yield "records", one_each
    for arena in map(room, (0, 1, 1818, 1819)):
        yield f"records-arena-{arena}", one_each, arena
    yield "records-and-array", one_each + array(null(), boolean())
    yield "records-and-array-arena-43704", one_each + array(null(), boolean()), room(1821)
    yield "records-too-many", one_each + array(null(), boolean(), number())
    yield "records-descending", lists(*([key] for key in range(909, 0, -1)))
    yield "records-of-one-key", lists(*[[7]] * 909)
    yield "wide", wide(MOST_RECORDS)
    yield "wide-arena-65496", wide(MOST_RECORDS), LARGEST - room(1)
    thousand = [field(key, null()) for key in range(1, 1001)]
    for arena in LARGEST, room(2008), room(2007):
        yield f"wide-with-lists-arena-{arena}", record(*thousand, field(1001, array(THREE_LISTS))), arena
    for arena in LARGEST, room(81), room(80):
        yield f"lists-of-two-keys-arena-{arena}", two_each, arena
    for arena in LARGEST, room(1606), room(1605), room(1), 0:
        yield f"contents-10^15-behind-records-arena-{arena}", behind_records(null(LIMIT - 1)), arena
        yield f"contents-10^15+1-behind-records-arena-{arena}", behind_records(null(LIMIT)), arena


def behind_records(content):
    """Arrays of one place under kind behind 800 records with a key each."""
    return lists(*([key] for key in range(1, 801))) + holding(801, arrays_around(content)) + holding(801, array(null()), 802)


def lent(trials):
    """Each trial as name, type, and the lengths of the arena, which is the largest where a trial names none, and working buffer."""
    for name, rows, *arena in trials:
        length = arena[0] if arena else LARGEST
        yield name, bytes_of(rows), length, length


def given_lengths():
    nine, above = bytes_of(NINE_BY_LABEL), bytes_of(contents(null(LIMIT), null()))
    for arena in 1, 8, 12, 16, 23, 25, 65519, 65521, 65535, 65536, 65537, 65544:
        yield f"arena-{arena}", nine, arena, arena
    works = (168, 144), (168, 192), (168, 169), (168, 288), (168, 0), (0, 24), (65520, 65496), (65496, 65520), (65520, 65536), (24, 65544)
    for arena, work in works:
        yield f"arena-{arena}-work-{work}", nine, arena, work
    for length in 1, 8, 16, 23, 25, 192, 264, 287, 289, 312, 65519, 65520, 65521, 65536, 65544:
        yield f"type-{length}", front(NINE_BY_LABEL, length), LARGEST, LARGEST
    yield "type-72", front(NINE_BY_LABEL, room(3)), LARGEST, LARGEST
    yield "arena-25-zeros", bytes_of(ZEROS), 25, 25
    yield "work-0-zeros", bytes_of(ZEROS), room(1), 0
    yield "work-24-arena-0-empty", b"", 0, room(1)
    yield "arena-25-above-limit", above, 25, 25
    yield "work-0-above-limit", above, LARGEST, 0
    yield "type-25-arena-0", front(NINE_BY_LABEL, 25), 0, 0
    plain = {"null": null(), "two-lists": lists([1], [2]), "array-of-two": array(null(), boolean()), "nine-by-label": NINE_BY_LABEL}
    for name, rows in plain.items():
        yield f"plain-{name}", PLAIN.bytes_of(rows), LARGEST, LARGEST


def drawn_ones():
    """The arena holds the folded type exactly, or for every fourth one record less."""
    halves = drawn(half_of_limit, 8)
    pairs = (contents(next(halves), next(halves)) for _ in range(20))
    for i, rows in enumerate([*islice(drawn(of_table, 8), 40), *islice(drawn(to_limit, 8), 20), *pairs]):
        records = len(tallies_by_kind(rows)) - (i % 4 == 3)
        yield f"drawn-{i + 1}", rows, room(records)


def trials():
    """Names, types and lengths, in the order of crates/trials."""
    groups = document, as_they_are, key_lists, list_lengths, one_place, array_lengths, inside, levels, large_counts
    for group in (*groups, totals, totals_and_rooms, malformed, depths, largest):
        yield from lent(group())
    yield from given_lengths()
    yield from lent(drawn_ones())


def report():
    """The zeros before the rows are the numbers of bytes behind the type and in the working buffer that are not zero."""
    for name, data, arena, work in trials():
        refusal, rows = fold(data, arena, work)
        print(f"{name} {refusal} 0 {len(rows)} 0 0{written(rows)}")


def print_drawn():
    """The drawn trials as crates/trials/stdin has them."""
    for name, rows, arena in drawn_ones():
        print(f"{name} {arena}: {'; '.join(map(row_text, rows))}")


if __name__ == "__main__":
    print_drawn() if sys.argv[1:] == ["drawn"] else report()
