"""What sample/ways.rs must print for a log, from the map of places to tallies (inferences.py): every way ends in the log's profile. Folded
it is the profile under kind. Plain and without some messages it is the plain profile of the others. The entries for the tag bus are those
of tag_bus.py.

Run by tests/run: python3 tests/ways.py sample/log.table sample/log.json
"""
import sys
from pathlib import Path

import tag_bus
from counting_types import KIND, LABEL, LARGEST, room
from inferences import infer, runs
from tables import VALUE, records_in
from type_records import PLAIN, WITH_LENGTHS

# The ways, with the most messages of a table.
WAYS = {
    "one table": None,
    "one message a table": 1,
    "tables of 7, the last merged first": 7,
    "backwards, tables of 25, in pairs": 25,
    "shortest first, tables of 60": 60,
    "sorted by bytes, tables of 3, in pairs": 3,
}

# How many messages are taken out.
SHIFT = 100


def digest(data):
    """FNV-1a, of 64 bits."""
    out = 0xCBF29CE484222325
    for byte in data:
        out = (out ^ byte) * 0x100000001B3 % 2**64
    return out


def line(name, tables, number, rows, arena, layout=WITH_LENGTHS):
    left = 0 if number else digest(layout.front(rows, arena))
    return f"{name:<40}{tables:>12}   answer {number:>2}{len(rows):>6} records   {left:016x}"


def lines(log, starts, name, equivalence, arena):
    number, _, rows = infer(log, equivalence, arena, arena)
    count = len(starts)
    yield f"{name}, arenas of {arena} bytes"
    for way, most in WAYS.items():
        tables = -(-count // (most or count))
        yield line(way, f"{tables} tables", number, rows, arena)
    yield "refused each time" if number else "the same bytes each time"
    if not number:
        number, _, rows = infer(log[VALUE.size * starts[SHIFT] :], equivalence, arena, arena)
    plain_arena = PLAIN.room(arena // WITH_LENGTHS.size)
    yield line(f"without the first {SHIFT} messages", "", number, rows, plain_arena, PLAIN)
    yield ""


def folded_line(log):
    number, _, rows = infer(log, KIND, LARGEST, LARGEST)
    return line("label, folded to kind", "", number, rows, LARGEST)


def tag_bus_lines(log):
    number, _, rows, entries = tag_bus.infer(log, LARGEST, LARGEST, tag_bus.MOST_ENTRIES)
    yield line("for the tag bus", "", number, rows, LARGEST)
    yield f"{'its entries':<81}{digest(tag_bus.bytes_of_entries(entries).ljust(tag_bus.MOST_ENTRIES, bytes(1))):016x}"


if __name__ == "__main__":
    path, text = sys.argv[1:]
    log = Path(path).read_bytes()
    records = records_in(log)
    starts = list(runs(records, 0, len(records)))
    print(f"{path}: {len(starts)} messages")
    print(f"{text}: {Path(text).stat().st_size} bytes, the same table\n")
    for name, equivalence, arena in ("Kind", KIND, LARGEST), ("Label", LABEL, LARGEST), ("Label", LABEL, room(64)):
        print("\n".join(lines(log, starts, name, equivalence, arena)))
    print(folded_line(log))
    print("\n".join(tag_bus_lines(log)))
