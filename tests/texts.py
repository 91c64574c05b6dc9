"""The answers of tests/compare/json.rs on random texts, found in another way: Python's json module accepts and decodes whole texts, and
12 stands behind the longest beginning that some end makes a text that json accepts.

python3 tests/texts.py PROGRAM [TEXTS [SEED]], where PROGRAM is tests/compare/texts_main.rs, compiled.
"""
import json
import re
import struct
import subprocess
import sys
from collections import Counter
from itertools import zip_longest

NULL, BOOLEAN, NUMBER, STRING, RECORD, ARRAY = range(1, 7)
LONGEST, DEEPEST, MOST_FIELDS = 65536, 32, 256
SPACES = re.compile(r"[ \t\n\r]*")
# A string that may be cut off, a bracket or sign, a number or literal.
TOKEN = re.compile(rb'"((?:[^"\\]|\\.)*)("|\\?\Z)|[][{},:]|[^][{},:" \t\n\r]+', re.DOTALL)
CLOSING = {b"[": b"]", b"{": b"}"}
# What ends a token wherever it is cut off, and what then ends a field or element.
TOKEN_ENDS = [b"", b'"', b'n"', *(b"0" * n + b'"' for n in range(1, 5))]
TOKEN_ENDS += [word[n:] for word in (b"true", b"false", b"null") for n in range(1, len(word))]
TOKEN_ENDS += [first + b"\x80" * n + b'"' for first in (b"\x80", b"\xbf") for n in range(3)]
VALUE_ENDS = [b"", b"0", b":0", b'"":0']


class Fields(list):
    """A record: pairs of key and value."""


def no_constant(word):
    raise ValueError(f"{word} is no JSON")


# Numbers are all decoded to 0.
DECODER = json.JSONDecoder(
    object_pairs_hook=Fields, parse_constant=no_constant, parse_int=lambda _: 0, parse_float=lambda _: 0
)


def decoded(text):
    """The messages of a whole text, or None."""
    messages = []
    try:
        characters = text.decode("utf-8")
        at = SPACES.match(characters).end()
        while at < len(characters):
            message, end = DECODER.raw_decode(characters, at)
            messages.append(message)
            at = SPACES.match(characters, end).end()
            if at == end:
                return None
    except ValueError:
        return None
    return messages


def goes_on(beginning):
    """Whether some text begins so: it is enough to end the last token, then a field or element, then all that is open."""
    closing = []
    for token in TOKEN.finditer(beginning):
        if token[0] in CLOSING:
            closing.append(CLOSING[token[0]])
        elif token[0] in CLOSING.values() and closing:
            closing.pop()
    rest = b"".join(reversed(closing)) + b" "
    ends = (one + two + rest for one in TOKEN_ENDS for two in VALUE_ENDS)
    return any(decoded(beginning + end) is not None for end in ends)


def longest_beginning(text):
    low, high = 0, len(text)
    while low < high:
        middle = (low + high + 1) // 2
        low, high = (middle, high) if goes_on(text[:middle]) else (low, middle - 1)
    return text[:low]


def other_fault(beginning, numbers, room):
    """The first refusal but 12 in the beginning of a text."""
    opened, before, values = [], b"", 0
    for token in TOKEN.finditer(beginning):
        word = token[0]
        if word in CLOSING.values():
            opened.pop()
        elif opened and opened[-1] is not None and before in (b"{", b","):
            if token[2] == b'"':
                key, keys = token[1], opened[-1]
                if b"\\" in key or key not in numbers:
                    return 13, token.end() - 1
                if key in keys:
                    return 6, token.end() - 1
                if len(keys) == MOST_FIELDS:
                    return 15, token.end() - 1
                keys.add(key)
        elif word not in (b",", b":"):
            if len(opened) == DEEPEST:
                return 7, token.start()
            if values == room:
                return 11, token.start()
            values += 1
            if word in CLOSING:
                opened.append(set() if word == b"{" else None)
        before = word
    return None


def value(content, numbers, key=0):
    """The value records of a decoded value."""
    if isinstance(content, Fields):
        kind, inner = RECORD, [value(field, numbers, numbers[name.encode()]) for name, field in content]
    elif isinstance(content, list):
        kind, inner = ARRAY, [value(element, numbers) for element in content]
    else:
        kind, inner = {type(None): NULL, bool: BOOLEAN, int: NUMBER, str: STRING}[type(content)], []
    inside = b"".join(inner)
    return struct.pack("<BBHI", kind, 0, key, 1 + len(inside) // 8) + inside


def read(text, book, length):
    """Refusal number, place, and the table as far as it is written."""
    lengths = (len(text), 1), (len(book), 32), (length, 8)
    if any(n % size or n > LONGEST for n, size in lengths):
        return 1, 0, b""
    keys = [book[i : i + 32].rstrip(b"\0") for i in range(0, len(book), 32)]
    if b"" in keys or any(0 in key for key in keys) or keys != sorted(set(keys)):
        return 14, 0, b""
    numbers = {key: number for number, key in enumerate(keys, 1)}
    messages = decoded(text)
    beginning = longest_beginning(text) if messages is None else text
    fault = other_fault(beginning, numbers, length // 8)
    if fault:
        return *fault, b""
    if messages is None:
        return 12, len(beginning), b""
    return 0, 0, b"".join(value(message, numbers) for message in messages)


def answer(text, book, length):
    """Number, place, count, the table without the zeros at its end, and how many these are."""
    number, place, table = read(text, book, length)
    written = table.rstrip(b"\0")
    return number, place, len(table) // 8, written, length - len(written)


def book_of(*keys):
    return b"".join(key.ljust(32, b"\0") for key in keys)


BOOK = book_of(b"a", b"ab", b"b")

# Texts that are refused as 12, by place.
CUT_SHORT = {
    0: [b"\xef\xbb\xbf1 ", b"+1 ", b".5 ", b"]", b"\x0b", b"NaN ", b","],
    1: [b"1", b"1,", b"01 ", b"1\0", b"- ", b"nan", b"-Infinity", b"tRue", b'"', b"[", b"{", b"[,1]", b"{a:1}", b"{1:1}", b"0x1"],
    2: [b"{}{} ", b"{}", b"1. ", b"1.x", b"1e ", b"-01 ", b"[1", b"[1}", b'""', b'"\\x"', b'"\\v"', b"nu"],
    3: [b"nulx", b"1e+ ", b"1.5.2 ", b"[1 2]", b"[1,]", b"1 2", b'"\\u'],
    5: [b'{"a" 1}', b'{"a":}', b'"\\u00g0"'],
    7: [b'{"a":1,}', b'{"a":[1}', b'{"a":1 "b":1}'],
    9: [b'{"a":1,"c'],
}
# The byte of a string at which its UTF-8 or a control character is refused, by place.
BROKEN = {
    1: [b"\x80", b"\xbf", b"\xc0\x80", b"\xc1\xbf", b"\xf5\x80", b"\xff", b"\x00", b"\x1f"],
    2: [b"\xc2", b"\xc2\x7f", b"\xe0\x80", b"\xe0\x9f\xbf", b"\xed\xa0\x80", b"\xf0\x80", b"\xf0\x8f\xbf\xbf", b"\xf4\x90\x80\x80"],
    3: [b"\xe2\x82", b"\xe0\xa0\xc0", b"\xf0\x90"],
    4: [b"\xf0\x90\x80", b"\xf4\x8f\xbf\x7f"],
}
ACCEPTED = [b"", b" \t\r\n", b"1\n", b"-0 ", b"0e0 ", b"1.50E+05 ", b'"\x7f" ', b'"\\/\\uAbCd" ', b"[]\t{}\r\n", b"1 2\n3\r"]
ACCEPTED += [b'"\\ud800" ', b'"\\uDC00\\uD800" ', b'"\\ud800\\n" ', b' { "a" : { "a" : [ ] } , "ab" : null } ', b"true false null "]
KEYS = {
    (13, 2): [b'{"":1} '],
    (13, 3): [b'{"c":1} ', b'{"c"', b'{"A":1} '],
    (13, 4): [b'{"aa":1} ', b'{"ac":x'],
    (13, 8): [b'{"\\u0061":1} '],
    (13, 9): [b'{"a":1,"c":1,"a":1} '],
    (13, 35): [b'{"' + b"a" * 33 + b'":1} '],
    (6, 9): [b'{"a":1,"a":1} ', b'{"a":1,"a"x'],
    (6, 15): [b'{"a":{"b":1},"a":1} '],
    (12, 4): [b'{"a"', b'{"b"x'],
}
# By the length of the table.
LIMITS = [
    (b"[" * 32 + b"]" * 32 + b" ", 256, 0, 0),
    (b"[" * 33, 512, 7, 32),
    (b"[" * 33, 256, 7, 32),
    (b"[" * 32 + b"nulx", 512, 7, 32),
    (b"[" * 32 + b"x", 256, 12, 32),
    (b"[" * 31 + b'{"c":1', 512, 13, 34),
    (b"[" * 31 + b'{"a":1', 512, 7, 36),
    (b"[" * 31 + b'{"a":x', 512, 12, 36),
    (b"1 ", 0, 11, 0),
    (b"[ ] ", 8, 0, 0),
    (b"[1", 8, 11, 1),
    (b"1 nulx", 8, 11, 2),
    (b"1 x", 8, 12, 2),
    (b"x", 0, 12, 0),
    (b"0 " * 8192, 65536, 0, 0),
    (b"0 " * 8193, 65536, 11, 16384),
    (b" " * 65536, 0, 0, 0),
    (b" " * 65537, 0, 1, 0),
    (b"", 7, 1, 0),
    (b"", 65544, 1, 0),
]
WIDE_BOOK = book_of(*(b"%03d" % n for n in range(257)))


def fields(first, last):
    """Fields with keys of the wide book, 8 bytes each with the comma."""
    return b",".join(b'"%03d":0' % n for n in range(first, last + 1))


# The 257th key of an object, by the length of the table. It ends at byte 2053 where the object begins the text.
FULL, ONE_MORE = b"{" + fields(0, 255), b"{" + fields(0, 256) + b"} "
WIDE = [
    (FULL + b"} ", 65536, 0, 0),
    (ONE_MORE, 65536, 15, 2053),
    (FULL + b',"256"', 65536, 15, 2053),
    (FULL + b',"256"x', 65536, 15, 2053),
    (FULL + b',"256', 65536, 12, 2053),
    (FULL + b",} ", 65536, 12, 2049),
    (FULL + b',"257":0} ', 65536, 13, 2053),
    (FULL + b',"25\\u0036":0} ', 65536, 13, 2058),
    (FULL + b',"000":0} ', 65536, 6, 2053),
    (FULL + b',"255":0} ', 65536, 6, 2053),
    (FULL + b',"256":0,"256":0} ', 65536, 15, 2053),
    (FULL + b"} " + ONE_MORE, 65536, 15, 2050 + 2053),
    (b'{"000":' + ONE_MORE, 65536, 15, 7 + 2053),
    (b"[0," + ONE_MORE, 65536, 15, 3 + 2053),
    (b"[" * 30 + ONE_MORE, 65536, 15, 30 + 2053),
    (b"[" * 31 + ONE_MORE, 65536, 7, 31 + 7),
    (b'{"000":' + FULL + b'},"001":' + FULL + b"}} ", 65536, 0, 0),
    (b'{"000":{"000":0},' + fields(1, 255) + b"} ", 65536, 0, 0),
    (b'{"000":{"000":0},' + fields(1, 256) + b"} ", 65536, 15, 8 + 2053),
    (b'{"000":[' + b"0," * 256 + b"0]," + fields(1, 255) + b"} ", 65536, 0, 0),
    (FULL + b"} ", 8 * 257, 0, 0),
    (ONE_MORE, 8 * 257, 15, 2053),
    (ONE_MORE, 8 * 256, 11, 2047),
]
BOOKS = [
    (b"", 0),
    (book_of(b"\x01", b"\x7f", b"\x80", b"\xff" * 32), 0),
    (book_of(b"a", b"a\x01", b"a" * 31, b"a" * 32), 0),
    (book_of(*(b"%04d" % n for n in range(2048))), 0),
    (book_of(*(b"%04d" % n for n in range(2049))), 1),
    (BOOK[:31], 1),
    (bytes(33), 1),
    (bytes(32), 14),
    (book_of(b"a", b""), 14),
    (book_of(b"a\0b"), 14),
    (book_of(b"\0a"), 14),
    (book_of(b"a".ljust(31, b"\0") + b"b"), 14),
    (book_of(b"a", b"a"), 14),
    (book_of(b"ab", b"a"), 14),
    (book_of(b"\x80", b"\x7f"), 14),
]


def known():
    """Inputs with the number and the place that document 02 gives them."""
    yield from ((text, BOOK, 64, 12, place) for place, texts in CUT_SHORT.items() for text in texts)
    yield from ((b'"' + text + b'" ', BOOK, 64, 12, place) for place, texts in BROKEN.items() for text in texts)
    yield from ((text, BOOK, 64, 0, 0) for text in ACCEPTED)
    yield from ((text, BOOK, 64, *fault) for fault, texts in KEYS.items() for text in texts)
    yield from ((text, BOOK, *rest) for text, *rest in LIMITS)
    yield from ((text, WIDE_BOOK, *rest) for text, *rest in WIDE)
    yield from ((b"", book, 0, number, 0) for book, number in BOOKS)
    yield from ((b"x", book, 0, number or 12, 0) for book, number in BOOKS)
    yield b"", bytes(32), 7, 1, 0


def lines(program, texts, seed):
    process = subprocess.Popen([program, texts, seed], stdin=subprocess.PIPE, stdout=subprocess.PIPE, text=True)
    process.stdin.writelines(f"{text.hex()},{book.hex()},{length}\n" for text, book, length, *_ in known())
    process.stdin.close()
    yield from process.stdout
    if process.wait():
        sys.exit(f"{program} ended with {process.returncode}")


def main(program, texts="50000", seed="1"):
    tally = Counter()
    for line, expectation in zip_longest(lines(program, texts, seed), known()):
        text, book, length, number, place, count, written, zeros = line.rstrip("\n").split(",")
        found = int(number), int(place), int(count), bytes.fromhex(written), int(zeros)
        expected = answer(bytes.fromhex(text), bytes.fromhex(book), int(length))
        if found != expected or expectation and found[:2] != expectation[3:]:
            sys.exit(f"{line}expected {expected} {expectation}")
        tally[found[0]] += 1
    print(", ".join(f"{number}: {tally[number]}" for number in sorted(tally)))
    missing = {0, 1, 6, 7, 11, 12, 13, 14, 15} - set(tally)
    if missing:
        sys.exit(f"these numbers never occurred: {missing}")
    print(f"{sum(tally.values())} texts of seed {seed}: the reader of tests/compare answers as Python's json module has it")


if __name__ == "__main__":
    main(*sys.argv[1:])
