"""Trials of calls 2 and 3 by documents 01 and 02, written without the crates: counts the values at each place, writes that map, prints
a line.

A place is as in merges.py: a tuple of classes and of fields.
"""
from counting_types import FIELD, KNOWN, LABEL, LARGEST, NO_KEYS, UNKNOWN, digits, key_list, room
from merges import Tally, fitted, rows_of, tallied, written
from tables import ARRAY, BOOLEAN, EMPTY_ARRAY, EVERY, FIVE_INSIDE, NINE, NULL, NUMBER, ONE_NULL, RECORD, STRING
from tables import array, bytes_of, in_arrays, in_fields, judge, many, messages, nested, null, one_field_each, record, records_in, value
from tables import with_fields, with_keys
from type_records import WITH_LENGTHS


def runs(records, start, end):
    """The places from a start to an end at which a value stands that is not inside another of them."""
    while start < end:
        yield start
        start += records[start][3]


def class_of(records, start, equivalence):
    kind, _, _, span = records[start]
    keys = []
    if kind == RECORD and equivalence == LABEL:
        keys = sorted(records[i][2] for i in runs(records, start + 1, start + span))
    return kind, 0, key_list(keys)


def tally_of(records, start):
    """One value; an array is as long as it has elements."""
    kind, _, _, span = records[start]
    length = len(list(runs(records, start + 1, start + span))) if kind == ARRAY else 0
    return Tally(1, length, length)


def places(records, start, end, equivalence, around=(), fields=False):
    """The place of each value from a start to an end, and of each field, with its tally."""
    for i in runs(records, start, end):
        kind, _, key, span = records[i]
        outer = around
        if fields:
            outer = (*around, (FIELD, key, NO_KEYS))
            yield outer, Tally(1)
        place = (*outer, class_of(records, i, equivalence))
        yield place, tally_of(records, i)
        yield from places(records, i + 1, i + span, equivalence, place, kind == RECORD)


def tallies_of(table, equivalence):
    """The tally of each place that a value of a table has."""
    records = records_in(table)
    return tallied(places(records, 0, len(records), equivalence))


def infer(table, equivalence, arena, work):
    """Refusal number, place, and the rows of the inferred type, none if it is refused."""
    refusal, place, _ = judge(table)
    if refusal == 1 or WITH_LENGTHS.refuses(arena) or work != arena:
        return 1, 0, []
    if equivalence not in KNOWN.values():
        return 2, 0, []
    if refusal:
        return refusal, place, []
    number, rows = fitted(rows_of(tallies_of(table, equivalence)), arena)
    return number, 0, rows


def single(kind, key=0):
    return value(kind, key=key)


def number(key=0):
    return single(NUMBER, key)


def document():
    yield "empty", []
    yield "empty-arena-0", [], 0
    yield "nine-records", NINE
    for arena in map(room, (0, 6, 7, 8, 11, 12, 13)):
        yield f"nine-arena-{arena}", NINE, arena
    yield "one-null", null()
    yield "one-null-arena-0", null(), 0
    yield "one-null-arena-24", null(), room(1)
    yield "null-span-2", [(NULL, 0, 2)]
    yield "all-zero", [(0, 0, 0)]
    yield "two-fields", record(null(1), number(1))
    yield "arrays-32", nested(32, EMPTY_ARRAY)
    yield "arrays-33", nested(33, EMPTY_ARRAY)


def faults():
    yield "kind-at-1", null() + [(7, 0, 1)] + null()
    yield "span-at-2", array(null(), [(ARRAY, 0, 2)])
    yield "key-at-1", record(null())
    yield "repeat-at-4", record(null(1)) + with_keys(2, 2)
    yield "repeat-after-array", record(array(null(), null(), key=1), null(1))
    yield "depth-before-kind", nested(33, EMPTY_ARRAY) + [(0, 0, 1)]
    yield "fault-before-room", null() + [(0, 0, 1)], 0
    yield "fault-before-room-records-4095", one_field_each(many(4095, 1, 1)) + [(0, 0, 1)]


def unions():
    yield "three-nulls", null() + null() + null()
    yield "every-kind", EVERY
    yield "every-kind-backwards", messages(*(single(kind) for kind in range(ARRAY, 0, -1)))
    yield "kinds-in-any-order", messages(*(single(kind) for kind in (3, 1, 6, 2, 1, 3, 5, 6, 3, 4)))
    yield "records-among-others", record() + null() + with_keys(1) + number() + with_keys(1) + null()
    yield "addends-before-content", array(number()) + null() + array(null(), number()) + single(STRING) + array(single(BOOLEAN))


def contents():
    yield "empty-arrays", array() + array()
    yield "empty-arrays-in-field", record(array(key=2)) + record(array(key=2))
    yield "content-is-cumulative", array(number(), number()) + array(number()) + array()
    yield "contents-of-all-kinds", array(EVERY) + array(EVERY, EVERY)
    yield "contents-in-any-order", array(number(), null()) + array(single(STRING), null(), single(BOOLEAN))
    yield "arrays-in-arrays", array(array(number()), array(), array(null(), number())) + array(null())
    yield "records-in-arrays", array(with_keys(1), with_keys(2), with_keys(1)) + array(record())


def fields():
    yield "field-in-some", with_keys(1) + record() + with_keys(1, 2) + with_keys(2)
    yield "field-of-all-kinds", messages(*(record(single(kind, 1)) for kind in (6, 3, 1, 5, 2, 4, 3)))
    yield "fields-descending", with_keys(3, 2, 1)
    yield "fields-in-any-order", with_keys(2, 3, 1) + with_keys(3, 1, 2)
    yield "fields-255-256", with_keys(256, 65535, 255, 1)
    yield "records-in-fields", record(with_keys(1, key=1), null(2)) + record(null(1)) + record(with_keys(2, key=1))
    yield "same-key-inside", record(record(number(1), key=1)) + record(record(null(1), key=1))
    yield "arrays-in-fields", record(array(number(), key=1)) + record(array(with_keys(1), with_keys(2), key=1))


def key_lists():
    yield "lists-2-12-empty-1", with_keys(2) + with_keys(1, 2) + record() + with_keys(1)
    yield "lists-21-12", with_keys(2, 1) + with_keys(1, 2)
    yield "lists-321-1-12-2", with_keys(3, 2, 1) + with_keys(1) + with_keys(1, 2) + with_keys(2)
    yield "lists-13-2-12", with_keys(1, 3) + with_keys(2) + with_keys(2, 1)
    yield "lists-256-255", with_keys(256) + with_keys(255)
    yield "lists-in-arrays", array(with_keys(2), with_keys(1, 2)) + array(with_keys(1), with_keys(2, 1))
    yield "lists-in-fields", record(with_keys(9, key=1)) + record(with_keys(8, key=1)) + record(with_keys(9, key=1))
    yield "lists-of-different-depth", with_keys(1) + record(with_keys(1, key=1)) + record(array(with_keys(1), key=1))


SEVERAL = record() + with_keys(4) + with_keys(9) + with_keys(5, 1) + with_keys(2, 3) + with_keys(3, 2, 1)
BACKWARDS = with_keys(1, 2, 3) + with_keys(3, 2) + with_keys(1, 5) + with_keys(9) + with_keys(4) + record()
BY_FIRST_KEY = record() + with_keys(3, 1, 2) + with_keys(1, 5) + with_keys(2, 3) + with_keys(4) + with_keys(9)


def list_lengths():
    """Key lists of the lengths 0 to 3 in several orders of arrival, of messages, elements and values of fields."""
    yield "lengths-in-order", SEVERAL
    yield "lengths-backwards", BACKWARDS
    yield "lengths-by-first-key", BY_FIRST_KEY
    yield "lengths-twice", BACKWARDS + SEVERAL
    yield "lengths-in-arrays", array(BY_FIRST_KEY) + array(BACKWARDS)
    yield "lengths-in-fields", messages(*(record(with_keys(*keys, key=7)) for keys in ([3, 2, 1], [1, 5], [], [9], [3, 2], [4])))
    yield "lengths-in-arrays-in-fields", record(array(with_keys(3, 1), with_keys(2), key=1)) + record(null(1), array(BACKWARDS, key=2))
    yield "lengths-of-records-in-records", record(with_keys(1, 2, 3, key=9)) + with_keys(2, 1)
    yield "lengths-of-255-and-256", with_keys(256, 1) + with_keys(256) + with_keys(1, 255) + with_keys(255)
    yield "lengths-at-31", in_arrays(31, with_keys(3, 1) + with_keys(2))
    yield "fields-256-and-1", with_keys(*many(256, 1, 1)) + with_keys(2)


def of_length(length, key=0):
    return array(*[null()] * length, key=key)


def array_lengths():
    """Lengths in several orders of arrival, also of equal messages and of equal elements, and of arrays at several places."""
    for lengths in [0], [3], [0, 0], [2, 2, 2], [1, 4], [4, 1], [2, 0, 1], [0, 5, 0], [3, 1, 4, 1, 5]:
        yield f"array-lengths-{digits(lengths)}", messages(*map(of_length, lengths))
    yield "array-lengths-256-and-2", of_length(256) + of_length(2)
    yield "array-lengths-of-equal-messages", 3 * of_length(2) + of_length(1) + 2 * of_length(2)
    yield "array-lengths-of-two-kinds", array(null(), number()) + array(number(), number(), null())
    yield "array-lengths-of-records", array(with_keys(1), with_keys(2)) + array(with_keys(2)) + array(3 * with_keys(1))
    yield "array-lengths-of-arrays", array(of_length(3), of_length(1)) + array(of_length(2), of_length(2), of_length(2))
    yield "array-lengths-of-equal-elements", array(of_length(2), of_length(2), of_length(2))
    yield "array-lengths-of-equal-arrays-of-arrays", 2 * array(array(of_length(1), of_length(2)), array(of_length(1), of_length(2)))
    yield "array-lengths-of-empty-arrays-in-arrays", array(array(), array()) + array(array())
    yield "array-lengths-at-32", in_arrays(31, of_length(2) + array())
    yield "elements-8191", of_length(8191)
    yield "elements-8190-and-empty-array", of_length(8190) + array()


def lengths_in_fields():
    """Arrays of one field, under label of one key list, and of several."""
    yield "array-lengths-in-field", record(of_length(2, 1)) + record(of_length(5, 1)) + record(null(1))
    yield "array-lengths-in-field-of-equal-messages", 2 * record(of_length(2, 1)) + record(of_length(3, 1)) + 2 * record(of_length(2, 1))
    yield "array-lengths-in-two-fields", record(of_length(2, 1), of_length(3, 2)) + record(of_length(1, 2), of_length(4, 1))
    yield "array-lengths-in-two-lists", record(of_length(2, 1)) + record(null(2), of_length(5, 1)) + record(array(key=1))
    yield "array-lengths-in-lists-of-elements", array(record(of_length(1, 1)), record(of_length(2, 1), null(2)), record(of_length(3, 1)))
    yield "array-lengths-in-arrays-in-field", record(array(of_length(2), of_length(1), key=1)) + record(array(of_length(3), key=1))
    yield "array-lengths-of-messages-and-elements", of_length(4) + array(of_length(1), of_length(3)) + record(of_length(2, 1))


def defaults():
    """Messages whose types, those of the default call as it was and as it is, are judged and merged by counting_types.py and merges.py."""
    yield "former-default", record(number(1)) + record(number(1), null(2))
    yield "former-default-same-keys", record(number(1), null(2)) + record(number(1), single(STRING, 2))
    yield "default", record(single(STRING, 1)) + record(number(1), null(2))


def rooms():
    for arena in map(room, (0, 1, 2, 4, 10, 11)):
        yield f"five-fields-arena-{arena}", with_keys(5, 4, 3, 2, 1), arena
    for arena in map(room, (2, 3, 4)):
        yield f"kinds-3-1-2-arena-{arena}", number() + null() + single(BOOLEAN) + null(), arena
    for arena in map(room, (1, 2)):
        yield f"array-of-null-arena-{arena}", array(null()), arena


def depths():
    yield "three-at-32", in_arrays(32, null() + single(BOOLEAN) + null())
    yield "in-fields-at-32", in_fields(32, null()) + in_fields(32, number())
    yield "in-fields-at-33", in_fields(33, null())


FIELDS_256 = with_fields(255, array(null(), key=256))


def fields_of_one_record():
    yield "fields-256", FIELDS_256
    for arena in map(room, (514, 513)):
        yield f"fields-256-arena-{arena}", FIELDS_256, arena
    yield "fields-256-descending", with_keys(*many(256, 256, -1))
    yield "fields-256-scattered", with_keys(*many(256, 1, 40503))
    yield "fields-256-and-five-inside", with_fields(253, *FIVE_INSIDE)
    yield "fields-257-and-five-inside", with_fields(253, *FIVE_INSIDE, null(257))
    yield "fields-257", with_fields(257)
    yield "fields-257-before-room", with_fields(257), room(1)
    yield "fields-257-and-repeat", with_fields(256, null(1))
    yield "fields-8191", with_fields(8191)


# Tables whose types under kind and under label have as many records as a type can have.
RECORDS_1364 = one_field_each(many(1364, 1, 1)) + array()
RECORDS_909 = one_field_each(many(909, 1, 1)) + array(null(), single(BOOLEAN))


def largest():
    yield "nulls", [ONE_NULL] * 8192
    yield "records-1364", RECORDS_1364
    yield "records-1364-arena-65496", RECORDS_1364, 65496
    yield "records-1364-descending", one_field_each(many(1364, 1364, -1))
    yield "records-1364-scattered", one_field_each(many(1364, 1, 40503))
    yield "records-1365", one_field_each(many(1365, 1, 1))
    yield "records", RECORDS_909
    yield "records-arena-65496", RECORDS_909, 65496
    yield "records-descending", one_field_each(many(910, 910, -1))
    yield "records-scattered", one_field_each(many(910, 1, 40503))
    yield "records-too-many", one_field_each(many(910, 1, 1)) + array()
    yield "records-4096", one_field_each(many(4096, 1, 1))
    yield "records-of-one-key", one_field_each([7] * 4096)


def tables(trials):
    """Each trial as name, table, and the lengths of the arena, which is the largest where a trial names none, and working buffer."""
    for name, records, *arena in trials:
        length = arena[0] if arena else LARGEST
        yield name, bytes_of(records), length, length


def given_lengths():
    for arena in 1, 8, 12, 16, 23, 25, 48, 65519, 65521, 65535, 65536, 65537, 65544:
        yield f"arena-{arena}", bytes_of(null()), arena, arena
    works = (168, 144), (168, 192), (168, 169), (168, 0), (0, 24), (65520, 65496), (65496, 65520), (65520, 65536), (24, 65544)
    for arena, work in works:
        yield f"arena-{arena}-work-{work}", bytes_of(NINE), arena, work
    for length in 1, 7, 9, 71:
        yield f"table-{length}", bytes_of(NINE)[:length], LARGEST, LARGEST
    for length in 65537, 65544:
        yield f"table-{length}", bytes_of([ONE_NULL] * 8193)[:length], LARGEST, LARGEST
    yield "zeros-behind", bytes_of(null()) + bytes(8), LARGEST, LARGEST
    yield "length-before-fault", bytes_of([(0, 0, 0)]), 24, 0


def unknown():
    yield "one-null", bytes_of(null()), LARGEST, LARGEST
    yield "empty-arena-0", b"", 0, 0
    yield "all-zero", bytes(8), LARGEST, LARGEST
    yield "one-null-arena-0", bytes_of(null()), 0, 0
    yield "fields-8191", bytes_of(with_fields(8191)), LARGEST, LARGEST
    yield "arena-25", bytes_of(null()), 25, 25
    yield "arena-65536", bytes_of(null()), 65536, 65536
    yield "arena-24-work-0", bytes_of(null()), 24, 0
    yield "table-9", bytes_of(null()) + bytes(1), LARGEST, LARGEST


def known():
    """Names, tables and lengths, in the order of crates/trials."""
    groups = document, faults, unions, contents, fields, key_lists, list_lengths, array_lengths, lengths_in_fields, defaults
    for group in (*groups, rooms, depths, fields_of_one_record, largest):
        yield from tables(group())
    yield from given_lengths()


def default():
    yield from tables(document())
    yield from tables([("lists-13-2-12", with_keys(1, 3) + with_keys(2) + with_keys(2, 1)), ("lengths-backwards", BACKWARDS)])
    yield from tables(lengths_in_fields())
    yield from tables([("array-lengths-201", messages(*map(of_length, (2, 0, 1)))), ("elements-8191", of_length(8191))])
    yield from tables(defaults())
    yield from tables([("fields-256", FIELDS_256), ("fields-257", with_fields(257)), ("fields-257-before-room", with_fields(257), room(1))])
    yield from tables([("records-1364", RECORDS_1364), ("records", RECORDS_909)])
    yield "arena-25", bytes_of(null()), 25, 25
    yield "arena-65536", bytes_of(null()), 65536, 65536
    yield "arena-24-work-0", bytes_of(null()), 24, 0
    yield "table-9", bytes_of(null()) + bytes(1), LARGEST, LARGEST


def report(trials, equivalences):
    """The zeros before the rows are the numbers of bytes behind the type and in the working buffer that are not zero."""
    for name, table, arena, work in trials:
        for suffix, equivalence in equivalences.items():
            refusal, place, rows = infer(table, equivalence, arena, work)
            print(f"{name}{suffix} {refusal} {place} {len(rows)} 0 0{written(rows)}")


def suffixed(equivalences):
    return {f"/{suffix}": equivalence for suffix, equivalence in equivalences.items()}


if __name__ == "__main__":
    report(known(), suffixed(KNOWN))
    report(unknown(), suffixed(UNKNOWN))
    report(default(), {"": LABEL})
