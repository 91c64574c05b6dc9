"""Trials of call 4 by documents 01 and 02, written without the crates: builds each type, judges it by recursive descent, prints a line."""
from type_records import PLAIN, WITH_LENGTHS, Row

NULL, BOOLEAN, NUMBER, STRING, RECORD, ARRAY, FIELD = range(1, 8)
KIND, LABEL = 0, 1
KNOWN = {"kind": KIND, "label": LABEL}
UNKNOWN = {"2": 2, "2^64-1": 2**64 - 1}
LIMIT = 10**15
MOST_ELEMENTS = 8192
# The largest arena, and the most records of a type.
LARGEST = WITH_LENGTHS.largest
MOST_RECORDS = LARGEST // WITH_LENGTHS.size
bytes_of, rows_in, front, room = WITH_LENGTHS.bytes_of, WITH_LENGTHS.rows_in, WITH_LENGTHS.front, WITH_LENGTHS.room


class Malformed(Exception):
    pass


def demand(holds):
    if not holds:
        raise Malformed


def judge(data, equivalence, layout=WITH_LENGTHS):
    """Refusal number, place and count."""
    if layout.refuses(len(data)):
        return 1, 0, 0
    if equivalence not in (KIND, LABEL):
        return 2, 0, 0
    rows = layout.rows_in(data)
    try:
        union_total(rows, 1, equivalence)
        if layout == WITH_LENGTHS:
            demand_lengths(rows)
    except Malformed:
        return 8, 0, 0
    return 0, 0, len(rows)


def key_list(keys):
    """A key list as it compares: a shorter one comes first, and lists of one length go by the first key that differs."""
    return len(keys), tuple(keys)


NO_KEYS = key_list([])


def split(rows):
    """The rows of a run, each with the rows inside it."""
    place = 0
    while place < len(rows):
        row = rows[place]
        end = place + row.span
        demand(row.zero == 0 and row.span >= 1 and end <= len(rows))
        demand(row.count >= 1)
        yield row, rows[place + 1 : end]
        place = end


def union_total(rows, depth, equivalence):
    addends = []
    for row, inner in split(rows):
        demand(row.kind in range(NULL, ARRAY + 1) and row.key == 0 and depth <= 32)
        keys = []
        if row.kind == RECORD:
            keys = field_keys(inner, row.count, depth, equivalence)
        elif row.kind == ARRAY:
            union_total(inner, depth + 1, equivalence)
        else:
            demand(inner == [])
        addends.append((row.kind, key_list(keys) if equivalence == LABEL else NO_KEYS))
    demand(all(a < b for a, b in zip(addends, addends[1:])))
    demand(total(rows) <= LIMIT)
    return total(rows)


def field_keys(rows, of_record, depth, equivalence):
    keys = []
    for row, inner in split(rows):
        demand(row.kind == FIELD and row.key >= 1 and inner != [])
        demand(row.count == union_total(inner, depth + 1, equivalence))
        demand(row.count == of_record if equivalence == LABEL else row.count <= of_record)
        keys.append(row.key)
    demand(all(a < b for a, b in zip(keys, keys[1:])))
    return keys


def demand_lengths(rows):
    """Arrays have lengths that so many of them with so many elements may have, and other rows have none."""
    for row, inner in split(rows):
        if row.kind == ARRAY:
            fewest = row.longest + (row.count - 1) * row.shortest
            most = row.shortest + (row.count - 1) * row.longest
            demand(row.shortest <= row.longest <= MOST_ELEMENTS)
            demand(fewest <= total(inner) <= most)
        else:
            demand(row.shortest == row.longest == 0)
        demand_lengths(inner)


def joined(runs):
    return [row for run in runs for row in run]


def total(union):
    return sum(row.count for row, _ in split(union))


def addend(kind, count, *content):
    """The rows of an addend, its span counted."""
    inner = joined(content)
    return [Row(kind, 0, 0, 1 + len(inner), count), *inner]


def changed(rows, place, **numbers):
    return [*rows[:place], rows[place]._replace(**numbers), *rows[place + 1 :]]


def null(count=1):
    return addend(NULL, count)


def boolean(count=1):
    return addend(BOOLEAN, count)


def number(count=1):
    return addend(NUMBER, count)


def string(count=1):
    return addend(STRING, count)


def record(*fields, count=1):
    return addend(RECORD, count, *fields)


def elements(rows):
    """How many elements arrays have, whether their content is well formed or not."""
    place = found = 0
    while place < len(rows):
        found += rows[place].count
        place += max(rows[place].span, 1)
    return found


def array(*union, count=1, lengths=None):
    """Arrays; unless they are given, their lengths differ by 1 at most."""
    rows = addend(ARRAY, count, *union)
    arrays, found = max(count, 1), elements(rows[1:])
    shortest, longest = lengths or (found // arrays, -(-found // arrays))
    return changed(rows, 0, shortest=shortest, longest=longest)


def arrays_around(*union):
    """As few arrays as can have these elements."""
    return array(*union, count=max(1, -(-elements(joined(union)) // MOST_ELEMENTS)))


def field(key, *union, count=None):
    """A field; unless it is given, its count is its union's total."""
    inner = joined(union)
    return [Row(FIELD, 0, key, 1 + len(inner), elements(inner) if count is None else count), *inner]


def with_keys(*keys):
    """A record with a null at each key."""
    return record(*(field(key, null()) for key in keys))


def lists(*key_lists):
    """A record with nulls for each key list."""
    return joined(with_keys(*keys) for keys in key_lists)


def digits(numbers):
    return "".join(map(str, numbers))


def spelled(key_lists):
    """Key lists as names have them: 1-12 for (1) and (1, 2)."""
    return "-".join(digits(keys) or "none" for keys in key_lists)


def nested(depth, inner):
    """Arrays around rows at a depth."""
    for _ in range(depth - 1):
        inner = arrays_around(inner)
    return inner


NINE_BY_KIND = record(field(1, null(), number()), field(2, array(number(2), count=2, lengths=(0, 2))), count=3)
NINE_BY_LABEL = joined(
    [
        record(field(1, null())),
        record(field(2, array())),
        record(field(1, number()), field(2, array(number(2)))),
    ]
)
EVERY_KIND = joined([null(), boolean(2), number(3), string(4), record(count=5), array(count=6)])

# Types stored under label in the former order of key lists: by the first key that differs, whatever their lengths. They are refused,
# unless both orders agree, as in the last one.
NINE_IN_FORMER_ORDER = NINE_BY_LABEL[:3] + NINE_BY_LABEL[6:] + NINE_BY_LABEL[3:6]
FORMER_ORDER = lists([1, 3], [2])
EITHER_ORDER = lists([1], [2, 3])


def accepted():
    yield "one-null", null()
    yield "nine-by-kind", NINE_BY_KIND
    yield "nine-by-label", NINE_BY_LABEL
    yield "every-kind", EVERY_KIND
    yield "empty-record", record()
    yield "empty-array", array()
    yield "content-above-array", array(number(1000))
    yield "content-below-array", array(number(), count=1000)
    yield "record-in-array-in-record", record(field(1, array(record(field(1, null(2)), count=2))))


# Types of the default call as it was, under kind: of {1: number}, {1: number, 2: null}, and of {1: number, 2: null}, {1: number, 2: string},
# which have the same keys. And one as it is, under label: of {1: string}, {1: number, 2: null}.
FORMER_DEFAULT = record(field(1, number(2)), field(2, null()), count=2)
FORMER_SAME_KEYS = record(field(1, number(2)), field(2, null(), string()), count=2)
DEFAULT = record(field(1, string())) + record(field(1, number()), field(2, null()))


def defaults():
    yield "former-default", FORMER_DEFAULT
    yield "former-default-same-keys", FORMER_SAME_KEYS
    yield "former-default-inside", array(FORMER_DEFAULT)
    yield "former-default-same-keys-inside", array(FORMER_SAME_KEYS)
    yield "default", DEFAULT


def totals():
    largest = 2**64 - 1
    yield "count-10^15", null(LIMIT)
    yield "count-10^15+1", null(LIMIT + 1)
    yield "total-10^15", null(LIMIT - 1) + boolean()
    yield "total-10^15+1", null(LIMIT) + boolean()
    yield "total-of-three", null(LIMIT - 1) + boolean() + number()
    yield "total-10^15-in-array", arrays_around(null(), boolean(LIMIT - 1))
    yield "total-10^15+1-in-array", arrays_around(null(), boolean(LIMIT))
    yield "total-10^15-in-field", record(field(1, null(LIMIT - 1), boolean()), count=LIMIT)
    yield "total-10^15+1-in-field", record(field(1, null(LIMIT), boolean()), count=LIMIT)
    yield "two-fields-of-10^15", record(field(1, null(LIMIT)), field(2, null(LIMIT)), count=LIMIT)
    yield "count-2^64-1", null(largest)
    yield "count-2^56+1", null(2**56 + 1)
    yield "wrapped", null(largest) + boolean(2)
    yield "wrapped-last", null(2) + boolean(largest)
    yield "wrapped-in-array", array(null(largest), boolean(2), lengths=(1, 1))
    yield "wrapped-in-field", record(field(1, null(largest), boolean(2), count=1))
    yield "array-of-2^64-1", array(null(), count=largest)


def zero_counts():
    yield "count-0", null(0)
    yield "count-0-last", null() + boolean(0)
    yield "record-count-0", record(count=0)
    yield "array-count-0", array(count=0)
    yield "element-count-0", array(null(0))
    yield "field-count-0", record(field(1, null(0)))
    yield "field-count-0-alone", record(field(1, null(), count=0))


def field_counts():
    below = record(field(1, null(2)), count=3)
    yield "field-of-two-addends", record(field(1, null(), boolean(2)), count=3)
    yield "field-above-total", record(field(1, null(), count=2), count=2)
    yield "field-below-total", record(field(1, null(2), count=1), count=2)
    yield "field-below-record", below
    yield "field-above-record", record(field(1, null(3)), count=2)
    yield "second-field-below-record", record(field(1, null(3)), field(2, null(2)), count=3)
    yield "second-field-above-record", record(field(1, null(3)), field(2, null(4)), count=3)
    yield "inner-field-below-record", array(below)
    yield "empty-union", record(field(1, count=1))
    yield "empty-union-count-0", record(field(1, count=0))
    yield "empty-union-before-field", record(field(1, count=1), field(2, null()))


def key_lists():
    pairs = {
        "empty-lists": ([], []),
        "empty-list-first": ([], [1]),
        "empty-list-last": ([1], []),
        "lists-1-2": ([1], [2]),
        "lists-2-1": ([2], [1]),
        "lists-1-1": ([1], [1]),
        "lists-255-256": ([255], [256]),
        "lists-256-255": ([256], [255]),
        "lists-1-12": ([1], [1, 2]),
        "lists-12-1": ([1, 2], [1]),
        "lists-12-13": ([1, 2], [1, 3]),
        "lists-13-12": ([1, 3], [1, 2]),
        "lists-13-2": ([1, 3], [2]),
        "lists-2-13": ([2], [1, 3]),
    }
    for name, pair in pairs.items():
        yield name, lists(*pair)
    yield "lists-with-records-inside", record(field(1, with_keys(9))) + with_keys(1, 2)
    yield "lists-in-array", array(record(), with_keys(1))
    yield "lists-in-array-out-of-order", array(with_keys(1), record())
    yield "third-list-out-of-order", record() + with_keys(2) + with_keys(1)


def list_lengths():
    """Pairs of key lists in order, then turned: of two lengths, with the smaller first key in either, and of one length."""
    two_lengths = ([9], [1, 2]), ([3, 4], [1, 2, 5]), ([1], [2, 3])
    one_length = ([1, 8, 9], [2, 3, 4]), ([1, 2, 4], [1, 3, 4]), ([1, 2, 3], [1, 2, 4])
    for pair in (*two_lengths, *one_length):
        yield f"lists-{spelled(pair)}", lists(*pair)
        yield f"lists-{spelled(pair[::-1])}", lists(*pair[::-1])
    yield "lists-12-12", lists([1, 2], [1, 2])
    yield "lists-1-none-12", lists([1], [], [1, 2])
    yield "lists-256-and-1-255", lists([256], [1, 255])
    yield "lists-1-255-and-256", lists([1, 255], [256])
    yield "lists-1-255-and-1-256", lists([1, 255], [1, 256])
    yield "lists-1-256-and-1-255", lists([1, 256], [1, 255])
    yield "lists-of-1-to-3", lists([], [1], [2], [3], [1, 2], [1, 3], [2, 3], [1, 2, 3])
    yield "lists-of-1-to-3-in-former-order", lists([], [1], [1, 2], [1, 2, 3], [1, 3], [2], [2, 3], [3])
    yield "nine-in-former-order", NINE_IN_FORMER_ORDER
    yield "list-2-and-256-keys", lists([2], range(1, 257))
    yield "lists-of-32-keys", lists(range(1, 33), [*range(1, 32), 33])
    yield "lists-of-32-keys-turned", lists([*range(1, 32), 33], range(1, 33))


def lists_inside():
    """Every union is in this order. A list is as long as its record has fields, whatever is inside them."""
    for name, two in ("in-order", (with_keys(2), with_keys(1, 3))), ("in-former-order", (with_keys(1, 3), with_keys(2))):
        yield f"lists-{name}-in-field", record(field(5, *two), count=2)
        yield f"lists-{name}-in-array", array(*two)
        yield f"lists-{name}-in-record-in-record", record(field(1, record(field(1, *two), count=2)), count=2)
        yield f"lists-{name}-at-31", nested(31, joined(two))
    yield "list-9-of-more-type-records", record(field(9, with_keys(1, 2, 3))) + with_keys(1, 2)
    yield "list-9-of-more-type-records-last", with_keys(1, 2) + record(field(9, with_keys(1, 2, 3)))


def addend_order():
    yield "addends-out-of-order", boolean() + null()
    yield "last-addend-out-of-order", null() + number() + boolean()
    yield "addend-twice", null() + null()
    yield "array-twice", array() + array(null())
    yield "elements-out-of-order", array(boolean(), null())
    yield "element-twice", array(boolean(), boolean())
    yield "values-out-of-order", record(field(1, boolean(), null()), count=2)
    yield "value-twice", record(field(1, string(), string()), count=2)
    yield "array-before-record", array() + record()
    yield "record-before-scalar", record() + string()


def field_order():
    yield "fields-1-2", with_keys(1, 2)
    yield "fields-2-1", with_keys(2, 1)
    yield "fields-1-1", with_keys(1, 1)
    yield "fields-255-256", with_keys(255, 256)
    yield "fields-256-255", with_keys(256, 255)
    yield "fields-1-3-2", with_keys(1, 3, 2)
    yield "fields-in-array", array(with_keys(2, 1))


def keys():
    yield "field-key-0", with_keys(0)
    yield "second-field-key-0", with_keys(1, 0)
    yield "field-key-65535", with_keys(65535)
    yield "null-key-1", changed(null(), 0, key=1)
    yield "record-key-256", changed(record(), 0, key=256)
    yield "element-key-1", changed(array(null()), 1, key=1)
    yield "value-key-1", changed(with_keys(1), 2, key=1)


def kinds():
    yield "all-zero", [Row(0, 0, 0, 0, 0)]
    yield "kind-0", addend(0, 1)
    yield "kind-7", addend(FIELD, 1)
    yield "kind-8", addend(8, 1)
    yield "kind-255", addend(255, 1)
    yield "kind-0-in-array", array(addend(0, 1))
    yield "kind-8-among-fields", changed(with_keys(1), 1, kind=8)
    yield "field-at-top", field(1, null())
    yield "field-among-addends", null() + field(1, boolean())
    yield "field-in-array", array(field(1, null()))
    yield "field-in-union", record(field(1, field(1, null())))
    yield "addend-among-fields", record(null())
    yield "addend-after-field", record(field(1, null()), null())
    yield "addend-with-key-among-fields", changed(with_keys(1), 1, kind=ARRAY)
    yield "byte-1-is-1", changed(null(), 0, zero=1)
    yield "byte-1-is-255", changed(record(), 0, zero=255)
    yield "byte-1-of-field", changed(with_keys(1), 1, zero=1)
    yield "byte-1-of-element", changed(array(null()), 1, zero=1)


def spans():
    largest = 2**32 - 1
    yield "null-span-0", changed(null(), 0, span=0)
    yield "array-span-0", changed(array(), 0, span=0)
    yield "record-span-0", changed(record(), 0, span=0)
    yield "field-span-0", changed(with_keys(1), 1, span=0)
    yield "null-span-2-alone", changed(null(), 0, span=2)
    yield "null-span-2", addend(NULL, 1, boolean())
    yield "string-span-2-in-array", array(addend(STRING, 1, null()))
    yield "array-past-end", changed(array(), 0, span=2)
    yield "record-past-end", changed(with_keys(1), 0, span=4)
    yield "element-past-array", changed(array(array(null())), 0, span=2)
    yield "field-past-record", changed(record(field(1, array())), 0, span=2)
    yield "value-past-field", changed(changed(record(field(1, array(array()))), 0, span=3), 1, span=2)
    yield "span-2^32-1", changed(array(), 0, span=largest)
    yield "record-span-2^32-1", changed(record(), 0, span=largest)
    yield "element-span-2^32-1", changed(array(array()), 1, span=largest)
    yield "field-span-2^32-1", changed(with_keys(1), 1, span=largest)
    for bits in 8, 16, 24:
        yield f"span-2^{bits}+1", changed(array(), 0, span=2**bits + 1)


def depths():
    for name, last in ("arrays-", array()), ("record-at-", record()), ("null-at-", null()):
        yield name + "32", nested(32, last)
        yield name + "33", nested(33, last)
    yield "value-at-32", nested(31, with_keys(1))
    yield "value-at-33", nested(32, with_keys(1))


def arrays(count, found, *lengths):
    """So many arrays with so many elements, and the shortest and the longest of their lengths."""
    return array(*([number(found)] if found else []), count=count, lengths=lengths)


def short(n):
    """A number as names have it."""
    for name, near in ("10^15", LIMIT), ("2^49", 2**49), ("2^32", 2**32), ("2^31", 2**31), ("2^19", 2**19):
        if abs(n - near) <= MOST_ELEMENTS:
            return name + (f"{n - near:+}" if n != near else "")
    return str(n)


def of_lengths(*cases):
    for count, found, shortest, longest in cases:
        name = f"arrays-{short(count)}-of-{short(found)}-from-{short(shortest)}-to-{short(longest)}"
        yield name, arrays(count, found, shortest, longest)


def few_arrays():
    """Lengths at each edge and beyond it. The first of two arrays has the shortest and the other the longest."""
    yield from of_lengths(*((1, 5, *pair) for pair in [(5, 5), (4, 5), (5, 6), (4, 4), (6, 6), (0, 5), (6, 4), (0, 0)]))
    yield from of_lengths(*((1, 0, *pair) for pair in [(0, 1), (1, 1), (1, 0)]))
    yield from of_lengths(*((2, 5, *pair) for pair in [(2, 3), (1, 4), (0, 5), (3, 2), (5, 0)]))
    yield from of_lengths(*((2, 5, *pair) for pair in [(2, 4), (2, 2), (3, 3), (1, 3), (0, 4), (0, 6)]))
    yield from of_lengths(*((3, found, 1, 3) for found in range(4, 9)))
    yield from of_lengths(*((3, found, 0, 4) for found in (3, 4, 8, 9)))
    yield from of_lengths(*((3, found, 2, 2) for found in (5, 6, 7)))
    yield from of_lengths(*((3, 2, *pair) for pair in [(0, 1), (0, 2), (0, 3), (1, 1), (0, 0)]))
    yield from of_lengths(*((3, 0, *pair) for pair in [(0, 0), (0, 1), (1, 1)]))


def long_arrays():
    """Only the most elements of an array decide, up to the last, whose total has the length in its low 32 bits."""
    most = MOST_ELEMENTS
    yield from of_lengths((1, most, most, most), (1, most + 1, most + 1, most + 1))
    yield from of_lengths((2, most + 1, 1, most), (2, most + 1, 0, most + 1), (3, most, 0, most))
    yield from of_lengths((2, 2 * most, most, most), (2, 2 * most + 1, most, most + 1))
    yield from of_lengths((2, 65536, 0, 65536), (2, 2**32 - 1, 0, 2**32 - 1), (LIMIT, LIMIT, 0, 2**32 - 1))
    yield from of_lengths(*((1, length, length, length) for length in (65536, 2**31, 2**32 - 1)))
    yield from of_lengths((1, 2**32 + 5, 5, 5))


def many_arrays():
    """Counts and totals up to the limit."""
    most, fewest = MOST_ELEMENTS, LIMIT // MOST_ELEMENTS
    yield from of_lengths((LIMIT, LIMIT, 1, 1), (LIMIT, LIMIT - 1, 1, 1), (LIMIT, LIMIT, 1, 2), (LIMIT, LIMIT, most, most))
    yield from of_lengths((LIMIT, LIMIT, 0, 1), (LIMIT, LIMIT - 1, 0, 1), (LIMIT, 1, 0, 1), (LIMIT, 1, 0, 0), (LIMIT, 0, 0, 0))
    yield from of_lengths((LIMIT - 1, LIMIT, 1, 1), (LIMIT - 1, LIMIT, 1, 2), (LIMIT - 1, LIMIT - 1, 1, 2))
    yield from of_lengths((LIMIT, LIMIT, 0, most), (LIMIT, most, 0, most), (LIMIT, most - 1, 0, most))
    yield from of_lengths((fewest, LIMIT, most, most), (fewest, LIMIT - 1, most, most), (fewest + 1, LIMIT, most, most))
    yield from of_lengths((fewest, LIMIT, most - 1, most), (fewest, LIMIT - 1, most - 1, most))
    yield from of_lengths((fewest, LIMIT - most, 0, most), (fewest, LIMIT - most + 1, 0, most))


def wrapped_lengths():
    """Products that would come right if they wrapped at 32 bits, and some that are right; then such that would if they wrapped at 64."""
    most, largest = MOST_ELEMENTS, 2**32 - 1
    yield from of_lengths((2**32 + 1, 1, 1, 1), (2**32 + 1, 2**32 + 1, 1, 1), (2**32 + 1, 1, 0, 1))
    yield from of_lengths((2**19 + 1, most, most, most), (2**19 + 1, 2**32 + most, most, most))
    for count in 2**32 + 2, 232829 * 2**32 + 232830:
        yield from of_lengths((count, count * largest % 2**64, largest, largest))
    yield from of_lengths((2**49 + 1, 2**15, 2**15, 2**15))


# Rows of the kinds that have no lengths, with the place of each in its type.
WITHOUT_LENGTHS = {
    "null": (null(), 0),
    "boolean": (boolean(2), 0),
    "number": (number(), 0),
    "string": (string(), 0),
    "record": (with_keys(1), 0),
    "field": (with_keys(1), 1),
    "value": (with_keys(1), 2),
    "field-of-two": (record(field(1, null(), boolean()), count=2), 1),
    "value-of-two": (record(field(1, null(), boolean()), count=2), 3),
    "field-of-array": (record(field(1, array())), 1),
}


def other_kinds():
    for name, (rows, place) in WITHOUT_LENGTHS.items():
        yield f"{name}-shortest-1", changed(rows, place, shortest=1)
        yield f"{name}-longest-1", changed(rows, place, longest=1)
        yield f"{name}-both-1", changed(rows, place, shortest=1, longest=1)
    for bits in 8, 16, 24:
        yield f"null-shortest-2^{bits}", changed(null(), 0, shortest=2**bits)
        yield f"null-longest-2^{bits}", changed(null(), 0, longest=2**bits)
    yield "element-longest-1", changed(array(null()), 1, longest=1)
    yield "empty-record-longest-1", changed(record(), 0, longest=1)
    yield "all-ones", changed(null(), 0, shortest=2**32 - 1, longest=2**32 - 1)


def lengths_inside():
    """Wrong lengths in every union. All elements count, whatever their kinds and key lists, and nothing inside them."""
    wrong = arrays(1, 5, 4, 5)
    yield "wrong-in-array", array(wrong)
    yield "wrong-in-field", record(field(1, wrong))
    yield "wrong-in-array-in-field", record(field(1, array(wrong)))
    yield "wrong-in-last-list", with_keys(1) + record(field(2, wrong))
    yield "wrong-behind-others", null() + with_keys(1) + wrong
    yield "wrong-around-array", array(arrays(1, 5, 5, 5), lengths=(2, 2))
    yield "wrong-at-32", nested(32, array(count=2, lengths=(0, 1)))
    for length in 2, 3, 5:
        yield f"of-two-kinds-{length}", array(null(2), boolean(3), lengths=(length, length))
    for length in 1, 2, 6:
        yield f"of-two-lists-{length}", array(lists([1], [2]), lengths=(length, length))
    for length in 1, 5:
        yield f"of-one-array-of-5-{length}", array(array(number(5)), lengths=(length, length))


def plain_types():
    """Types stored before records had lengths. An allowed length have only those with a number of records that is a multiple of 3."""
    for name, rows in ("null", null()), ("two", null() + boolean()), ("three", null() + boolean() + number()), ("array", array(null())):
        yield f"plain-{name}", PLAIN.bytes_of(rows)
    # Read with lengths this is a null and a boolean, in which nothing but the lengths is wrong.
    yield "plain-three-but-for-lengths", PLAIN.bytes_of(null() + boolean(2**32 + BOOLEAN) + number())
    yield "plain-array-of-two", PLAIN.bytes_of(array(null(), boolean(), count=2))
    yield "plain-nine-by-kind", PLAIN.bytes_of(NINE_BY_KIND)
    yield "plain-nine-by-label", PLAIN.bytes_of(NINE_BY_LABEL)
    yield "plain-largest", PLAIN.bytes_of(wide(PLAIN.largest // PLAIN.size))


def wide(records, last_key=None):
    """A record of so many rows, an even number: nulls in fields from key 1 on, and an array in the last one."""
    last = records // 2 - 1
    return record(*(field(key, null()) for key in range(1, last)), field(last_key or last, array(null())))


def largest():
    widest = wide(MOST_RECORDS)
    yield "largest", widest
    yield "largest-field-twice", wide(MOST_RECORDS, MOST_RECORDS // 2 - 2)
    yield "largest-addend-count-0", changed(widest, MOST_RECORDS - 1, count=0)
    yield "largest-null-with-length", changed(widest, MOST_RECORDS - 1, longest=1)
    yield "one-record-more", with_keys(*range(1, MOST_RECORDS // 2 + 1))


def lengths():
    two = null() + boolean()
    yield "empty", b""
    for n in 1, 8, 12, 16, 23, 24, 25, 32, 40, 47, 48:
        yield f"length-{n}", front(two, n)
    yield "zero-record-behind", front(null(), room(2))
    yield "whole-arena", front(null(), LARGEST)
    yield "whole-arena-of-nine", front(NINE_BY_KIND, LARGEST)
    yield "zeros", bytes(LARGEST)
    for n in 65504, 65519, 65520, 65521, 65535, 65536, 65537, 65544:
        yield f"length-{n}", front(null() * (MOST_RECORDS + 1), n)


def types():
    """Names and types, in the order of crates/trials, each to be judged under both equivalences."""
    groups = accepted, defaults, totals, zero_counts, field_counts, key_lists, list_lengths, lists_inside
    of_arrays = few_arrays, long_arrays, many_arrays, wrapped_lengths, other_kinds, lengths_inside
    for group in (*groups, addend_order, field_order, keys, kinds, spans, depths, *of_arrays):
        for name, rows in group():
            yield name, bytes_of(rows)
    yield from plain_types()
    yield from lengths()
    for name, rows in largest():
        yield name, bytes_of(rows)


def few():
    """Names and types, to be judged under unknown equivalences."""
    yield "one-null", bytes_of(null())
    yield "empty", b""
    yield "zero-record", bytes(room(1))
    yield "length-25", front(null(), 25)
    yield "length-65536", front(null(), 65536)
    yield "length-65544", front(null(), 65544)


def report(types, equivalences):
    for name, data in types:
        for suffix, equivalence in equivalences.items():
            print(f"{name}/{suffix}", *judge(data, equivalence))


if __name__ == "__main__":
    report(types(), KNOWN)
    report(few(), UNKNOWN)
