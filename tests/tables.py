"""Trials of call 1 by documents 01 and 02, written without the crates: builds each table, judges it by recursive descent, prints a line."""
import struct

from type_records import MOST_BYTES

VALUE = struct.Struct("<BBHI")
NULL, BOOLEAN, NUMBER, STRING, RECORD, ARRAY = range(1, 7)
MOST_FIELDS = 256
LARGEST_KEY = 65535


class Refused(Exception):
    pass


def judge(table, largest=LARGEST_KEY):
    """Refusal number, place and count, where no field has a key above the largest."""
    if len(table) % VALUE.size or len(table) > MOST_BYTES:
        return 1, 0, 0
    records = records_in(table)
    try:
        return 0, 0, run(records, 0, len(records), 1, False, largest)
    except Refused as refusal:
        return *refusal.args, 0


def run(records, place, end, depth, fields, largest):
    """How many values stand from a place to the end of their parent, or of the table."""
    seen, count = set(), 0
    while place < end:
        kind, zero, key, span = records[place]
        # The first that is found decides.
        faults = {
            3: kind not in range(1, 7) or zero != 0,
            4: span == 0 or place + span > end or (kind <= STRING and span > 1),
            5: (key == 0) if fields else (key != 0),
            17: fields and key > largest,
            6: fields and key in seen,
            15: fields and count == MOST_FIELDS,
            7: depth > 32,
        }
        for number, found in faults.items():
            if found:
                raise Refused(number, place)
        run(records, place + 1, place + span, depth + 1, kind == RECORD, largest)
        seen.add(key)
        count += 1
        place += span
    return count


def records_in(table):
    """Records as kind, byte 1, key and span."""
    return list(VALUE.iter_unpack(table))


def bytes_of(records):
    """A record is kind, key, span, and byte 1 if it is not zero."""
    return b"".join(VALUE.pack(r[0], (*r, 0)[3], r[1], r[2]) for r in records)


def value(kind, *content, key=0):
    """The records of a value, its span counted."""
    inner = [r for v in content for r in v]
    return [(kind, key, 1 + len(inner)), *inner]


def null(key=0):
    return value(NULL, key=key)


def record(*content, key=0):
    return value(RECORD, *content, key=key)


def array(*content, key=0):
    return value(ARRAY, *content, key=key)


def messages(*values):
    return [r for v in values for r in v]


def nested(depth, inner):
    """Arrays down to a depth at which the given record stands; they end where it does."""
    return [(ARRAY, 0, depth - level) for level in range(depth - 1)] + [inner]


def in_arrays(depth, inner):
    """Arrays around values at a depth."""
    for _ in range(depth - 1):
        inner = array(inner)
    return inner


def in_fields(depth, inner):
    """Records around a value at a depth."""
    for _ in range(depth - 1):
        inner = record([(inner[0][0], 1, inner[0][2]), *inner[1:]])
    return inner


def lengths(records, *numbers):
    return [(f"length-{n}", bytes_of(records)[:n]) for n in numbers]


def each(name, records, places, fault):
    return [(name, bytes_of([*records[:i], fault, *records[i + 1 :]])) for i in places]


THREE = messages(null(), value(BOOLEAN), value(NUMBER))
AFTER = messages(value(STRING), null(), value(BOOLEAN))
FIELDS = record(null(1), value(BOOLEAN, key=2), value(NUMBER, key=3)) + AFTER
ELEMENTS = array(null(), value(BOOLEAN), value(NUMBER)) + AFTER
EVERY = value(NULL) + value(BOOLEAN) + value(NUMBER) + value(STRING) + value(RECORD) + value(ARRAY)
NINE = messages(
    record(value(NUMBER, key=1), array(value(NUMBER), value(NUMBER), key=2)),
    record(null(1)),
    record(array(key=2)),
)
EMPTY_ARRAY, EMPTY_RECORD, ONE_NULL = (ARRAY, 0, 1), (RECORD, 0, 1), (NULL, 0, 1)


def many(count, first, step):
    """So many keys, modulo 65,536."""
    return [(first + k * step) % 65536 for k in range(count)]


def with_keys(*keys, key=0):
    """A record with a null at each key."""
    return record(*(null(k) for k in keys), key=key)


def with_fields(count, *further):
    """A record with nulls at so many keys from 1 on, and further fields."""
    return record(*map(null, many(count, 1, 1)), *further)


def one_field_each(keys):
    return messages(*(with_keys(key) for key in keys))


def accepted():
    yield "one-null", null()
    yield "nine-records", NINE
    yield "every-kind", EVERY
    yield "keys-in-any-order", record(null(65535), null(1), null(256))
    yield "same-key-inside", record(record(null(1), key=1), null(2))
    yield "same-key-around", record(record(null(2), key=1), null(2))
    yield "same-key-beside", record(record(null(1), key=1), record(null(1), key=2))
    yield "record-in-array-in-record", record(array(record(null(1)), key=1))
    yield "span-to-table-end", array(null(), null())
    yield "span-to-parent-end", array(array(null())) + null()


def repeats():
    yield "two-fields", record(null(1), value(NUMBER, key=1))
    yield "repeat-middle", record(null(1), null(1), null(2))
    yield "repeat-last", record(null(1), null(2), null(1))
    yield "repeat-after-array", record(array(null(), null(), key=1), null(1))
    yield "repeat-after-record", record(record(null(2), key=1), null(1))
    yield "repeat-inside", record(record(null(2), null(2), key=1))
    yield "repeat-next-message", record(null(1)) + record(null(1), null(1))


def depths():
    for name, last in ("arrays-", EMPTY_ARRAY), ("record-at-", EMPTY_RECORD), ("null-at-", ONE_NULL):
        yield name + "32", nested(32, last)
        yield name + "33", nested(33, last)
    yield "kind-and-depth", nested(33, (0, 0, 1))
    yield "span-and-depth", nested(33, (ARRAY, 0, 2))
    yield "key-and-depth", nested(33, (ARRAY, 1, 1))
    yield "field-at-33", in_arrays(32, with_keys(1))


def between():
    yield "arrays-32-between", null() + nested(32, EMPTY_ARRAY) + null()
    yield "arrays-33-between", null() + nested(33, EMPTY_ARRAY) + null()
    yield "depth-before-kind", null() + nested(33, EMPTY_ARRAY) + [(0, 0, 1)]


# The fields 254 to 256 of a record, which have five inside them.
FIVE_INSIDE = with_keys(1, 2, key=254), with_keys(1, 2, 3, key=255), null(256)


def up_to_256_fields():
    yield "fields-256", with_fields(256)
    yield "fields-256-scattered", with_keys(*many(256, 1, 40503))
    yield "fields-256-and-five-inside", with_fields(253, *FIVE_INSIDE)
    yield "elements-257-in-field-256", with_fields(255, array(*[null()] * 257, key=256))
    yield "messages-257", [ONE_NULL] * 257
    yield "messages-4096-of-one-field", one_field_each([7] * 4096)


def field_257():
    content = array(null(), null(), key=254), with_keys(1, 2, key=255), array(array(), key=256)
    yield "fields-257", with_fields(257)
    yield "fields-8191", with_fields(8191)
    yield "fields-257-behind-content", with_fields(253, *content, null(257))
    yield "fields-257-before-content", with_fields(256, record(null(), key=257))
    yield "fields-257-in-fields-at-32", in_fields(31, with_fields(257))
    yield "fields-257-in-array-behind-256-messages", one_field_each(many(256, 1, 1)) + array(with_fields(257))


def field_257_and_more():
    yield "fields-257-and-kind", with_fields(256, [(7, 257, 1)])
    yield "fields-257-and-byte-1", with_fields(256, [(NULL, 257, 1, 1)])
    yield "fields-257-and-span-0", with_fields(256, [(NULL, 257, 0)])
    yield "fields-257-and-span-past", with_fields(256, [(ARRAY, 257, 2)])
    yield "fields-257-and-key-0", with_fields(256, null())
    yield "fields-257-and-repeat-first", with_fields(256, null(1))
    yield "fields-257-and-repeat-last", with_fields(256, null(256))
    yield "fields-257-before-repeat", with_fields(257, null(1))
    yield "fields-257-before-kind", with_fields(257, [(0, 258, 1)])
    yield "repeat-before-fields-257", with_fields(255, null(1), null(257))


def single_faults():
    yield "all-zero", [(0, 0, 0)]
    yield "null-span-2-alone", [(NULL, 0, 2)]
    for bits in 8, 16, 24:
        yield f"span-2^{bits}+1", [(ARRAY, 0, 2**bits + 1)]
    yield "key-in-array-in-record", record(array(null(1), key=1))
    yield "no-key-in-record-in-array", array(record(null()))


def two_faults():
    yield "kind-and-key", [(7, 1, 1)]
    yield "kind-and-repeat", record(null(1), [(0, 1, 1)])
    yield "span-and-key", [(NULL, 1, 2)]
    yield "span-and-repeat", record(null(1), [(NULL, 1, 0)])
    bad_kind = [(0, 0, 1)]
    yield "span-before-kind", [(NULL, 0, 2)] + bad_kind
    yield "key-before-kind", null(1) + bad_kind
    yield "repeat-before-kind", record(null(1), null(1)) + bad_kind


def tables(trials):
    return [(name, bytes_of(records)) for name, records in trials]


def replaced():
    yield from each("kind-0", THREE, range(3), (0, 0, 1))
    yield from each("kind-7", THREE, range(3), (7, 0, 1))
    yield from each("byte-1-is-1", THREE, range(3), (NULL, 0, 1, 1))
    yield from each("null-span-0", THREE, range(3), (NULL, 0, 0))
    yield from each("array-span-0", THREE, range(3), (ARRAY, 0, 0))
    yield from each("null-span-2", THREE, range(3), (NULL, 0, 2))
    yield from each("span-past-table", THREE, range(3), (ARRAY, 0, 4))
    yield from each("span-largest", THREE, range(3), (ARRAY, 0, 2**32 - 1))
    yield from each("message-key-7", THREE, range(3), (NULL, 7, 1))
    yield from each("message-key-256", THREE, range(3), (RECORD, 256, 1))
    yield from each("kind-255", FIELDS, range(1, 4), (255, 9, 1))
    yield from each("span-past-record", FIELDS, range(1, 4), (RECORD, 9, 4))
    yield from each("field-key-0", FIELDS, range(1, 4), (NULL, 0, 1))
    yield from each("byte-1-is-255", ELEMENTS, range(1, 4), (ARRAY, 0, 1, 255))
    yield from each("string-span-2", ELEMENTS, range(1, 4), (STRING, 0, 2))
    yield from each("span-past-array", ELEMENTS, range(1, 4), (ARRAY, 0, 4))
    yield from each("span-largest-inside", ELEMENTS, range(1, 4), (RECORD, 0, 2**32 - 1))
    yield from each("element-key-7", ELEMENTS, range(1, 4), (NULL, 7, 1))


def trials():
    """Names and tables, in the order of crates/trials."""
    yield "empty", b""
    yield from lengths(THREE, 1, 7, 8, 9, 23)
    yield "length-before-kind", bytes(9)
    yield from tables(accepted())
    yield from tables(single_faults())
    yield from tables(repeats())
    yield from tables(two_faults())
    yield from replaced()
    yield from tables(between())
    yield from tables(depths())
    yield from tables(up_to_256_fields())
    yield from tables(field_257())
    yield from tables(field_257_and_more())
    yield from lengths([ONE_NULL] * 8193, 65535, 65536, 65537, 65544)


if __name__ == "__main__":
    for name, table in trials():
        print(name, *judge(table))
