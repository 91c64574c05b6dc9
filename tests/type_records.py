"""Type records: their numbers, and how they are stored, with the lengths of arrays or plain, without them."""
import struct
from typing import NamedTuple

MOST_BYTES = 65536


class Row(NamedTuple):
    kind: int
    zero: int
    key: int
    span: int
    count: int
    shortest: int = 0
    longest: int = 0


class Layout(NamedTuple):
    """The numbers that are stored of a record, the first ones, and the bytes that they take."""

    numbers: struct.Struct

    @property
    def size(self):
        return self.numbers.size

    @property
    def largest(self):
        """The largest allowed length of a type or an arena."""
        return MOST_BYTES // self.size * self.size

    def refuses(self, length):
        return length % self.size != 0 or length > MOST_BYTES

    def room(self, records):
        """The length of so many records."""
        return self.size * records

    def bytes_of(self, rows):
        stored = len(self.numbers.unpack(bytes(self.size)))
        return b"".join(self.numbers.pack(*row[:stored]) for row in rows)

    def rows_in(self, data):
        return [Row(*numbers) for numbers in self.numbers.iter_unpack(data)]

    def front(self, rows, length):
        """The first bytes of rows with zeros behind them."""
        return self.bytes_of(rows).ljust(length, b"\0")[:length]


WITH_LENGTHS = Layout(struct.Struct("<BBHIQII"))
# Removal alone takes these.
PLAIN = Layout(struct.Struct("<BBHIQ"))
