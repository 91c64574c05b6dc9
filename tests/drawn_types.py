"""Types under label drawn at random, the same ones each time: those of tables, and others with counts up to the limit."""
from random import Random

import tables
from counting_types import ARRAY, LABEL, LIMIT, MOST_ELEMENTS, RECORD, STRING, addend, array, field, joined, key_list, total
from inferences import tallies_of
from merges import rows_of

DEEPEST = 4
SIZES = range(8, 25)


class Numbers(Random):
    """Draws by random() alone, which gives the same numbers in every version of Python."""

    def below(self, n):
        return int(n * self.random())

    def some(self, items):
        return [item for item in items if self.below(2)]

    def class_at(self, depth):
        """A kind with a key list. A record in two of four, an array in one, unless nothing may stand deeper."""
        chosen = self.below(4)
        if chosen == 0 or depth == DEEPEST:
            return 1 + self.below(STRING), ()
        if chosen == 1:
            return ARRAY, ()
        return RECORD, tuple(self.some([1, 2, 3]))

    def classes_at(self, depth, count):
        found = set()
        while len(found) < count:
            found.add(self.class_at(depth))
        return sorted(found)

    def shares(self, total, most):
        """Counts that add up to a total."""
        ends = sorted({total, *(1 + self.below(total) for _ in range(self.below(most)))})
        return [end - start for start, end in zip([0, *ends], ends)]


def value(numbers, depth, key=0):
    """A value of a table. The fields of a record are in any order."""
    kind, keys = numbers.class_at(depth)
    content = []
    if kind == RECORD:
        content = [value(numbers, depth + 1, k) for k in sorted(keys, key=lambda _: numbers.random())]
    elif kind == ARRAY:
        content = [value(numbers, depth + 1) for _ in range(numbers.below(3))]
    return tables.value(kind, *content, key=key)


def of_table(numbers):
    messages = tables.messages(*(value(numbers, 1) for _ in range(3 + numbers.below(6))))
    return rows_of(tallies_of(tables.bytes_of(messages), LABEL))


def union(numbers, total, depth):
    """A union with a total; the empty one has 0."""
    if total == 0:
        return []
    counts = numbers.shares(total, 5 - depth)
    addends = {}
    for (kind, keys), count in zip(numbers.classes_at(depth, len(counts)), counts):
        addends[kind, key_list(keys)] = drawn_addend(numbers, kind, keys, count, depth + 1)
    return joined(addends[one] for one in sorted(addends))


def drawn_addend(numbers, kind, keys, count, depth):
    """An addend with what is inside it at a depth."""
    if kind == ARRAY:
        most = min((9, LIMIT)[numbers.below(2)], MOST_ELEMENTS * count + 1)
        content = union(numbers, numbers.below(most), depth)
        return array(content, count=count, lengths=lengths(numbers, count, total(content)))
    return addend(kind, count, *(field(key, union(numbers, count, depth), count=count) for key in keys))


def lengths(numbers, count, found):
    """The shortest and the longest of so many arrays with so many elements: one has the shortest, and then another the longest."""
    others = count - 1
    if others == 0:
        return found, found
    least = max(0, found - others * MOST_ELEMENTS)
    shortest = least + numbers.below(found // count - least + 1)
    least = -(-(found - shortest) // others)
    most = min(found - others * shortest, MOST_ELEMENTS)
    return shortest, least + numbers.below(most - least + 1)


def to_limit(numbers):
    return union(numbers, LIMIT - numbers.below(9), 1)


def half_of_limit(numbers):
    """Two such may pass the limit together or not."""
    return union(numbers, LIMIT // 2 - 4 + numbers.below(9), 2)


def drawn(draw, seed):
    """Types of a size that can be read, without end."""
    numbers = Numbers(seed)
    while True:
        rows = draw(numbers)
        if len(rows) in SIZES:
            yield rows
