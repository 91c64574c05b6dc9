"""Writes the sample log: messages of scanners, scales and diverters as a value table, the list of its keys, and the same messages as JSON
text, a line each, with a key book.

The stored files were made by: python3 sample/make.py sample
A second argument gives another number of messages.
"""
import json
import struct
import sys

NULL, BOOLEAN, NUMBER, STRING, RECORD, ARRAY = range(1, 7)
# As in the key book, where a key's number is its place.
KEYS = sorted(
    """device sequence lane code symbology quality candidates weight unit stable samples target fired timing command
confirm faults""".split()
)
MESSAGES = 400


class Numbers:
    """A fixed sequence of numbers (a linear congruential generator), the same on every machine."""

    def __init__(self, state):
        self.state = state

    def below(self, n):
        self.state = (6364136223846793005 * self.state + 1442695040888963407) % 2**64
        return (self.state >> 33) % n

    def one_in(self, n):
        return self.below(n) == 0

    def shuffled(self, items):
        """The items in another order: fields come in any."""
        rest, out = list(items), []
        while rest:
            out.append(rest.pop(self.below(len(rest))))
        return out


def scanner(numbers):
    message = {"code": None if numbers.one_in(8) else "4006381333931"}
    if message["code"]:
        message["symbology"] = "EAN-13"
        message["quality"] = numbers.below(100)
    if numbers.one_in(6):
        one = {"code": "4006381333931", "quality": 61}
        message["candidates"] = [one] * numbers.below(4)
    return message


def scale(numbers):
    message = {"weight": None if numbers.one_in(10) else numbers.below(30000), "unit": "g", "stable": numbers.one_in(2)}
    if numbers.one_in(3):
        message["samples"] = [numbers.below(30000) for _ in range(numbers.below(6))]
    return message


def diverter(numbers):
    confirm = None if numbers.one_in(9) else 41
    message = {"target": numbers.below(12), "fired": not numbers.one_in(9), "timing": {"command": 12, "confirm": confirm}}
    if numbers.one_in(5):
        message["faults"] = ["jam"] * (1 + numbers.below(2))
    return message


def message(sequence, numbers):
    """One in forty is no record: a device says that it is alive."""
    if numbers.one_in(40):
        return "alive"
    device = [scanner, scanner, scanner, scale, scale, diverter][numbers.below(6)]
    fields = {"device": device.__name__, "sequence": sequence, **device(numbers)}
    if not numbers.one_in(12):
        fields["lane"] = numbers.below(12)
    return dict(numbers.shuffled(fields.items()))


def value(content, key=0):
    """The value records of a JSON value, which is the value of a field if it has a key."""
    if isinstance(content, dict):
        kind, inner = RECORD, [value(field, 1 + KEYS.index(name)) for name, field in content.items()]
    elif isinstance(content, list):
        kind, inner = ARRAY, [value(element) for element in content]
    else:
        kind, inner = {type(None): NULL, bool: BOOLEAN, int: NUMBER, str: STRING}[type(content)], []
    inside = b"".join(inner)
    return struct.pack("<BBHI", kind, 0, key, 1 + len(inside) // 8) + inside


def main(folder, messages=MESSAGES):
    numbers = Numbers(1)
    log = [message(i, numbers) for i in range(int(messages))]
    with open(f"{folder}/log.table", "wb") as table:
        table.write(b"".join(value(content) for content in log))
    with open(f"{folder}/keys.txt", "w", encoding="ascii") as keys:
        keys.writelines(f"{number} {name}\n" for number, name in enumerate(KEYS, 1))
    with open(f"{folder}/log.json", "w", encoding="ascii") as text:
        text.writelines(json.dumps(content, separators=(",", ":")) + "\n" for content in log)
    with open(f"{folder}/keys.book", "wb") as book:
        book.write(b"".join(name.encode().ljust(32, b"\0") for name in KEYS))


main(*sys.argv[1:])
