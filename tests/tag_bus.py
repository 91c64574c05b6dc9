"""Trials of call 8 by documents 01 and 02, written without the crates: counts the values at each place, writes that map and the key set of
each record in it as a word, prints a line.

A place is as in merges.py: a tuple of classes and of fields.
"""
import struct
import zlib

from counting_types import LABEL, LARGEST, room
from inferences import number, of_length, single, tallies_of
from merges import fitted, rows_of, written
from tables import ARRAY, EMPTY_ARRAY, EMPTY_RECORD, EVERY, NINE, NULL, ONE_NULL, RECORD, STRING
from tables import array, bytes_of, in_arrays, in_fields, judge, many, messages, nested, null, one_field_each, record, with_fields, with_keys
from type_records import MOST_BYTES, WITH_LENGTHS

ENTRY = struct.Struct("<QQ")
# The largest length of the entries.
MOST_ENTRIES = MOST_BYTES // ENTRY.size * ENTRY.size
MOST_KEYS = 64
ALL = many(MOST_KEYS, 1, 1)


def entries_of(tallies):
    """The word and the number of keys of each record among the places, in their order. Key k is bit k - 1 of the word."""
    records = (place[-1] for place in sorted(tallies) if place[-1][0] == RECORD)
    return [(sum(2 ** (key - 1) for key in keys), len(keys)) for _, _, (_, keys) in records]


def infer(table, arena, work, entries):
    """Refusal number, place, and the rows and entries of the inferred type, none if it is refused."""
    refusal, place, _ = judge(table, MOST_KEYS)
    bad_entries = entries % ENTRY.size or entries > MOST_ENTRIES
    if refusal == 1 or WITH_LENGTHS.refuses(arena) or work != arena or bad_entries:
        return 1, 0, [], []
    if refusal:
        return refusal, place, [], []
    tallies = tallies_of(table, LABEL)
    of_records = entries_of(tallies)
    number, rows = fitted(rows_of(tallies), arena)
    if number or ENTRY.size * len(of_records) > entries:
        return 11, 0, [], []
    return 0, 0, rows, of_records


def bytes_of_entries(entries):
    return b"".join(ENTRY.pack(*entry) for entry in entries)


def listed(entries):
    """The entries as a line shows them, many by their checksum."""
    if not entries:
        return ""
    if len(entries) > 64:
        return f" | adler32 {zlib.adler32(bytes_of_entries(entries))}"
    return " | " + "; ".join(f"{word} {ones}" for word, ones in entries)


def document():
    yield "empty", []
    yield "empty-entries-0", [], 0
    yield "empty-entries-0-arena-0", [], 0, 0
    yield "nine-records", NINE
    for entries in 0, 16, 32, 48, 64:
        yield f"nine-entries-{entries}", NINE, entries
    for arena in map(room, (0, 7, 11, 12, 13)):
        yield f"nine-entries-48-arena-{arena}", NINE, 48, arena
    for arena in map(room, (12, 11)):
        yield f"nine-entries-32-arena-{arena}", NINE, 32, arena
    yield "one-null", null()
    yield "arrays-32", nested(32, EMPTY_ARRAY)
    yield "arrays-33", nested(33, EMPTY_ARRAY)


def keys():
    """Also keys that are in range by some of their bits."""
    for key in 0, 1, 2, 31, 32, 33, 63, 64, 65, 66, 96, 127, 128, 129, 192, 255, 256, 257, 320, 321, 16448, 32769, 32832, 65472, 65535:
        yield f"key-{key}", with_keys(key)


def elsewhere():
    """Values that are no fields have no key."""
    yield "message-key-64", null(64)
    yield "message-key-65", null(65)
    yield "message-record-key-65", record(null(1), key=65)
    yield "element-key-64", array(null(64))
    yield "element-key-65", array(null(65))
    yield "element-key-65-in-field-64", record(array(null(65), key=64))
    yield "element-record-key-65", array(record(null(65), key=65))


def in_fields_and_arrays():
    yield "array-at-65", record(array(key=65))
    yield "array-at-65-with-key-inside", record(array(null(65), key=65))
    yield "record-at-65", record(with_keys(1, key=65))
    yield "record-at-64-with-65", record(with_keys(65, key=64))
    yield "record-at-64-with-64", record(with_keys(64, key=64))
    yield "in-array-64", array(with_keys(64))
    yield "in-array-65", array(with_keys(64), with_keys(65))
    yield "in-array-in-field-65", record(array(with_keys(1, 65), key=1))
    yield "second-field-65", with_keys(64, 65)
    yield "second-message-65", with_keys(64) + with_keys(65)
    yield "behind-content-65", record(array(null(), null(), key=1), with_keys(1, 2, key=2), null(65))


def repeats():
    yield "repeat-1", with_keys(1, 1)
    yield "repeat-64", with_keys(64, 64)
    yield "repeat-64-last", with_keys(64, 1, 63, 64)
    yield "repeat-33-after-array", record(array(null(), null(), key=33), null(33))
    yield "repeat-64-after-record", record(with_keys(64, key=64), null(64))
    yield "repeat-inside", record(with_keys(2, 2, key=1))
    yield "repeat-of-64-keys", with_fields(64, null(1))
    yield "no-repeat-in-other-records", record(with_keys(64, key=64), with_keys(64, key=63)) + with_keys(64, 63)
    yield "repeat-65", with_keys(65, 65)
    yield "repeat-65-behind-64", with_keys(64, 65, 65)
    yield "repeat-then-65", with_keys(1, 1, 65)
    yield "65-then-repeat", with_keys(1, 65, 1)
    yield "65-then-64-twice", with_keys(65, 64, 64)
    # The same bit, if a key were taken by its low bits.
    yield "1-then-65", with_keys(1, 65)
    yield "64-then-128", with_keys(64, 128)


def one_value_record():
    """Faults of a field with key 65."""
    yield "65-and-kind-0", record([(0, 65, 1)])
    yield "65-and-kind-7", record([(7, 65, 1)])
    yield "65-and-byte-1", record([(NULL, 65, 1, 1)])
    yield "65-and-span-0", record([(NULL, 65, 0)])
    yield "65-and-string-span-2", record([(STRING, 65, 2)], null(1))
    yield "65-and-span-past", record([(ARRAY, 65, 2)])
    yield "65-at-33", in_arrays(32, with_keys(65))
    yield "64-at-33", in_arrays(32, with_keys(64))
    yield "65-at-32", in_arrays(31, with_keys(65))


def field_257():
    """Of more than 64 fields the 65th at the latest is 17 or 6."""
    yield "fields-64-and-65", with_fields(65)
    yield "fields-64-and-0", with_fields(64, null())
    yield "fields-256", with_fields(256)
    yield "fields-257", with_fields(257)
    yield "fields-257-from-65", with_keys(*many(257, 65, 1))
    yield "fields-257-descending", with_keys(*many(257, 257, -1))
    yield "fields-257-of-one-key", with_keys(*[64] * 257)


def records_before_and_behind():
    bad_kind, bad_span, deep = [(0, 0, 1)], [(NULL, 0, 2)], nested(33, EMPTY_ARRAY)
    yield "65-before-kind", with_keys(65) + bad_kind
    yield "65-before-span", with_keys(65) + bad_span
    yield "65-before-key", with_keys(65) + null(1)
    yield "65-before-repeat", with_keys(65) + with_keys(1, 1)
    yield "65-before-depth", with_keys(65) + deep
    yield "kind-before-65", bad_kind + with_keys(65)
    yield "span-before-65", bad_span + with_keys(65)
    yield "key-before-65", null(1) + with_keys(65)
    yield "repeat-before-65", with_keys(1, 1) + with_keys(65)
    yield "depth-before-65", deep + with_keys(65)
    yield "65-before-66", with_keys(65) + with_keys(66)
    yield "66-before-65", with_keys(1, 66) + with_keys(65)
    yield "65-before-kind-inside", record([(ARRAY, 65, 2)], [(0, 0, 1)])
    yield "kind-before-65-inside", record([(RECORD, 1, 2, 1)], null(65))
    yield "65-before-room", with_keys(65), 0, 0
    yield "65-before-entries", with_keys(65), 0
    yield "65-behind-64-without-room", one_field_each(many(65, 1, 1)), 16, room(1)
    yield "kind-before-entries", with_keys(1) + bad_kind, 0


def words():
    yield "fields-64", with_keys(*ALL)
    yield "fields-64-descending", with_keys(*reversed(ALL))
    yield "fields-64-even-then-odd", with_keys(*many(32, 2, 2), *many(32, 1, 2))
    yield "fields-odd", with_keys(*many(32, 1, 2))
    yield "fields-even", with_keys(*many(32, 2, 2))
    yield "fields-1-to-32", with_keys(*many(32, 1, 1))
    yield "fields-33-to-64", with_keys(*many(32, 33, 1))
    yield "fields-2-to-64", with_keys(*many(63, 2, 1))
    yield "fields-1-to-63", with_keys(*many(63, 1, 1))
    for key in 8, 9, 16, 17, 24, 25, 32, 33, 40, 41, 48, 49, 56, 57:
        yield f"fields-1-{key}-64", with_keys(64, key, 1)


def key_lists():
    """Key lists ascend, and not words."""
    yield "lists-64-1", with_keys(64) + with_keys(1)
    yield "lists-2-1-64", with_keys(2) + with_keys(64, 1)
    yield "lists-64-63-and-63-64", with_keys(64, 63) + with_keys(63, 64)
    yield "lists-all-then-2", with_keys(*ALL) + with_keys(2)
    yield "lists-321-1-12-2", with_keys(3, 2, 1) + with_keys(1) + with_keys(1, 2) + with_keys(2)
    yield "lists-1-64-1-63-1-63-64", with_keys(1, 64) + with_keys(63, 1) + with_keys(64, 63, 1)
    yield "lists-empty-1-empty", record() + with_keys(1) + record()
    yield "lists-2-12-empty-1", with_keys(2) + with_keys(1, 2) + record() + with_keys(1)


SEVERAL = with_keys(1, 2, 3) + with_keys(3, 2) + with_keys(63, 1) + with_keys(2, 1) + with_keys(64)


def list_lengths():
    """Shorter lists come first, and lists of one length go by the first key that differs, also with larger words."""
    yield "lists-23-1-64", with_keys(2, 3) + with_keys(64, 1)
    yield "lengths-1-to-3", SEVERAL
    yield "lengths-in-array", array(SEVERAL, record())
    yield "lengths-in-fields", messages(*(record(with_keys(*keys, key=64)) for keys in ([3, 2, 1], [63, 1], [], [2, 1], [64])))
    yield "lengths-of-records-in-records", record(with_keys(1, 2, 3, key=64)) + record(array(with_keys(2, 1), with_keys(64), key=2), null(1))
    yield "lengths-64-and-63", with_keys(*ALL) + with_keys(*ALL[1:]) + with_keys(*ALL[:-1])


def without_fields():
    yield "empty-record", record()
    yield "empty-record-entries-16", record(), 16
    yield "empty-record-entries-0", record(), 0
    yield "empty-record-in-field", record(record(key=64))
    yield "empty-record-in-array", array(record(), record())
    yield "empty-records-behind", with_keys(1) + array(record())
    yield "every-kind", EVERY
    yield "no-records", null() + number() + array(null(), array()), 0
    yield "no-records-arena-96", null() + number() + array(null(), array()), 0, room(4)


def nested_records():
    yield "records-in-fields", record(with_keys(1, key=1), null(2)) + record(null(1)) + record(with_keys(2, key=1))
    yield "records-in-arrays", array(with_keys(1), with_keys(2), with_keys(1)) + array(record())
    yield "record-in-array-in-record", record(array(with_keys(3), with_keys(2), key=64)) + with_keys(64)
    yield "records-in-two-fields", record(with_keys(9, key=64), with_keys(8, key=1))
    yield "lists-in-fields", record(with_keys(9, key=1)) + record(with_keys(8, key=1)) + record(with_keys(9, key=1))
    yield "all-in-all", record(with_keys(*ALL, key=64), *map(null, ALL[:-1]))
    yield "field-of-all-kinds", messages(*(record(single(kind, 64)) for kind in (6, 3, 1, 5, 2, 4, 3)))
    yield "lists-of-different-depth", with_keys(1) + record(with_keys(1, key=1)) + record(array(with_keys(1), key=1))


def array_lengths():
    """Lengths of arrays are those of the general call, beside the entries."""
    yield "array-lengths-201", messages(*map(of_length, (2, 0, 1)))
    yield "array-lengths-in-field", record(of_length(2, 64)) + record(of_length(5, 64)) + record(array(key=64))
    yield "array-lengths-in-two-lists", record(of_length(2, 64)) + record(null(1), of_length(5, 64)) + record(of_length(1, 64))
    yield "array-lengths-of-records", array(with_keys(1), with_keys(64)) + array(with_keys(64)) + array(record(), record(), record())
    yield "array-lengths-of-arrays", record(array(of_length(3), of_length(1), key=2)) + record(array(array(), key=2))
    yield "array-lengths-of-equal-messages", 3 * record(of_length(2, 1)) + record(of_length(3, 1)) + record(of_length(2, 1))
    yield "elements-8191", of_length(8191), 0, room(2)


def rooms():
    nested_twice = record(with_keys(1, key=64))
    for entries in 0, 16, 32, 48:
        yield f"nested-entries-{entries}", nested_twice, entries
        yield f"in-array-entries-{entries}", array(record(), with_keys(1)), entries
    for entries, arena in (16, room(5)), (32, room(4)), (16, room(4)), (32, room(5)), (MOST_ENTRIES, room(5)), (32, LARGEST):
        yield f"nested-entries-{entries}-arena-{arena}", nested_twice, entries, arena
    for entries in 0, 16:
        yield f"fields-64-entries-{entries}", with_keys(*ALL), entries
    for arena in map(room, (128, 129, 130)):
        yield f"fields-64-arena-{arena}", with_keys(*ALL), 16, arena
    yield "null-arena-0", null(), 0, 0
    yield "null-arena-24", null(), 0, room(1)
    yield "same-record-thrice", 3 * with_keys(64, 1), 16, room(5)
    yield "same-keys-in-other-orders", with_keys(64, 1) + with_keys(1, 64), 16, room(5)


def depths():
    yield "record-at-32", nested(32, EMPTY_RECORD)
    yield "record-at-33", nested(33, EMPTY_RECORD)
    yield "field-64-at-32", in_arrays(31, with_keys(64))
    yield "in-fields-at-32", in_fields(32, null()) + in_fields(32, number())
    yield "in-fields-at-32-entries-496", in_fields(32, null()), 496
    yield "in-fields-at-32-entries-480", in_fields(32, null()), 480
    yield "in-fields-at-33", in_fields(33, null())
    yield "record-in-fields-at-32", in_fields(32, record())


def largest():
    pairs = messages(*(with_keys(key, 64) for key in range(1, 11)))
    yield "nulls", [ONE_NULL] * 8192, 0
    yield "records-of-key-64", one_field_each([64] * 4096), 16
    yield "records-of-key-65", one_field_each([65] * 4096)
    yield "records-64", one_field_each(ALL)
    yield "records-64-descending", one_field_each(reversed(ALL))
    for entries in 1008, 1024, 1040:
        yield f"records-64-entries-{entries}", one_field_each(ALL), entries, room(192)
    yield "records-64-arena-4584", one_field_each(ALL), 1024, room(191)
    yield "records-65", one_field_each(many(65, 1, 1))
    yield "records-4096", one_field_each(many(4096, 1, 1))
    yield "records-74", one_field_each(ALL) + pairs
    yield "records-74-entries-1184", one_field_each(ALL) + pairs, 1184, room(242)
    yield "records-74-entries-1168", one_field_each(ALL) + pairs, 1168, room(242)


def lent(trials):
    """Each trial as name, table, and the lengths of the entries and of the arena, the largest where it names none, and working buffer."""
    for name, records, *lengths in trials:
        entries = lengths[0] if lengths else MOST_ENTRIES
        arena = lengths[1] if lengths[1:] else LARGEST
        yield name, bytes_of(records), entries, arena, arena


def given_lengths():
    nine, large = bytes_of(NINE), bytes_of(with_keys(65))
    for entries in 1, 8, 15, 17, 47, 49, 65535, 65537, 65552:
        yield f"entries-{entries}", nine, entries, LARGEST, LARGEST
    yield "entries-1-no-records", b"", 1, 0, 0
    yield "entries-65552-no-records", b"", 65552, LARGEST, LARGEST
    for arena in 1, 8, 12, 16, 23, 25, 65519, 65521, 65535, 65536, 65537, 65544:
        yield f"arena-{arena}", nine, 48, arena, arena
    for arena, work in (288, 264), (288, 312), (288, 289), (288, 0), (0, 24), (65520, 65496), (65520, 65536), (24, 65544):
        yield f"arena-{arena}-work-{work}", nine, 48, arena, work
    for length in 1, 7, 9, 71:
        yield f"table-{length}", nine[:length], MOST_ENTRIES, LARGEST, LARGEST
    for length in 65537, 65544:
        yield f"table-{length}", bytes_of([ONE_NULL] * 8193)[:length], MOST_ENTRIES, LARGEST, LARGEST
    yield "zeros-behind", bytes_of(null()) + bytes(8), MOST_ENTRIES, LARGEST, LARGEST
    yield "entries-17-before-65", large, 17, LARGEST, LARGEST
    yield "entries-65552-before-65", large, 65552, LARGEST, LARGEST
    yield "arena-25-before-65", large, MOST_ENTRIES, 25, 25
    yield "work-0-before-65", large, MOST_ENTRIES, 24, 0
    yield "table-15-before-65", large[:15], MOST_ENTRIES, LARGEST, LARGEST
    yield "entries-8-before-room", nine, 8, 24, 24
    yield "entries-8-before-kind", bytes(8), 8, LARGEST, LARGEST


def trials():
    """Names, tables and lengths, in the order of crates/trials."""
    groups = document, keys, elsewhere, in_fields_and_arrays, repeats, one_value_record, field_257, records_before_and_behind
    for group in (*groups, words, key_lists, list_lengths, without_fields, nested_records, array_lengths, rooms, depths, largest):
        yield from lent(group())
    yield from given_lengths()


def report():
    """The zeros before the rows are the numbers of bytes behind the type, in the working buffer and behind the entries that are not zero."""
    for name, table, entries, arena, work in trials():
        refusal, place, rows, of_records = infer(table, arena, work, entries)
        print(f"{name} {refusal} {place} {len(rows)} 0 0 0{written(rows)}{listed(of_records)}")


if __name__ == "__main__":
    report()
