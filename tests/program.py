"""The profile program beside the map of places to counts (inferences.py), on the tables of its trials, on tables with counts near all and
near none, and on longer input.

Run by tests/run, which builds the program: python3 tests/program.py crates/profile/out/profile sample/log.table
"""
import subprocess
import sys
from fractions import Fraction
from math import floor
from pathlib import Path

from counting_types import KIND, LARGEST, RECORD, split, total
from inferences import infer, known, number
from tables import ONE_NULL, array, bytes_of, null, record, with_keys
from type_records import MOST_BYTES

WORDS = ["", "null", "bool", "num", "str", "rec", "arr", "field"]

# Shares by count and whole, from change 7 of document 02 and by hand. A table has at most 8,192 values, so the program can't be given
# 10,000; 9,995 and 9,994 of them are 1,999 of 2,000 and 4,997 of 5,000.
KNOWN_SHARES = {
    (2000, 2000): 1000,
    (1999, 2000): 999,
    (1998, 1999): 999,
    (1998, 2000): 999,
    (1997, 2000): 999,
    (1996, 2000): 998,
    (9995, 10000): 999,
    (9994, 10000): 999,
    (4997, 5000): 999,
    (4999, 5000): 999,
    (1, 5000): 1,
    (2, 5000): 1,
    (3, 5000): 1,
    (1, 2000): 1,
    (1, 2001): 1,
    (3, 2000): 2,
    (1, 1): 1000,
    (1, 2): 500,
    (2, 3): 667,
}


def share(count, whole):
    """In thousandths, to the nearest, halves up; 1000 for the whole alone, and never 0."""
    nearest = floor(Fraction(1000 * count, whole) + Fraction(1, 2))
    return nearest if count == whole else min(max(nearest, 1), 999)


def lines(rows, depth, whole, width):
    """A line for each row of a union or of the fields of a record."""
    for row, inner in split(rows):
        yield f"{depth} {WORDS[row.kind]} {row.key} {row.count:>{width}} {share(row.count, whole)}\n"
        if row.kind == RECORD:
            yield from lines(inner, depth, row.count, width)
        else:
            yield from lines(inner, depth + 1, total(inner), width)


def expected(table):
    number, place, rows = infer(table, KIND, LARGEST, LARGEST)
    if number:
        return f"refused {number} {place}\n"
    width = max((len(str(row.count)) for row in rows), default=0)
    return "".join(lines(rows, 1, total(rows), width))


def near_the_ends():
    """As messages, as elements of an array and as records with a field: so many of so many, where a table has room for them."""
    for count, whole in KNOWN_SHARES:
        values = null() * count + number() * (whole - count)
        yield f"null-{count}-of-{whole}", values
        yield f"element-{count}-of-{whole}", array(values)
        yield f"field-{count}-of-{whole}", with_keys(1) * count + record() * (whole - count)


def inputs(sample):
    yield "sample", sample
    for name, table, *_ in known():
        yield name, table
    for name, records in near_the_ends():
        if len(bytes_of(records)) <= MOST_BYTES:
            yield name, bytes_of(records)
    for length in 65543, 65545, 200000:
        yield f"nulls-{length}", bytes_of([ONE_NULL] * 25000)[:length]


def run(program, table):
    return subprocess.run([program], input=table, stdout=subprocess.PIPE, check=True).stdout.decode()


if __name__ == "__main__":
    _, program, sample = sys.argv
    if wrong := [pair for pair, thousandths in KNOWN_SHARES.items() if share(*pair) != thousandths]:
        sys.exit(f"other shares than these have: {wrong}")
    different = [n for n, table in inputs(Path(sample).read_bytes()) if run(program, table) != expected(table)]
    if different:
        sys.exit(f"{program} prints other lines for: {' '.join(different)}")
    print(f"{program} prints the lines of {len(list(inputs(b'')))} inputs")
