"""Trials of call 6, answered without the crates: takes the lines of its section in crates/trials/stdin, and prints the answers of texts.py."""
import re
from pathlib import Path

from tables import VALUE, records_in
from texts import LONGEST, read

STDIN = Path(__file__).parent.parent / "crates" / "trials" / "stdin"


def spelled(characters):
    """The bytes of a text in which %hh stands for one."""
    return re.sub(rb"%(..)", lambda match: bytes.fromhex(match[1].decode()), characters.encode())


def trials():
    """Names, texts, books and lengths of tables."""
    section = STDIN.read_text(encoding="ascii").split("\n[6]\n")[1].split("\n[")[0]
    for line in section.split("\n"):
        if ":" in line:
            head, rest = line.split(":", 1)
            keys, text = rest.split("|", 1)
            book = b"".join(spelled(key).ljust(32, b"\0") for key in keys[1:].split(",")[:-1])
            name, table, at_book, at_text = (head.split(" ") + [None] * 3)[:4]
            yield name, cut(spelled(text[1:]), at_text), cut(book, at_book), int(table or LONGEST)


def cut(content, length):
    """As many bytes as a line names, with zeros behind them."""
    return content if length is None else content[: int(length)].ljust(int(length), b"\0")


def records(table):
    found = [f"{kind} {key} {span}" for kind, _, key, span in records_in(table)]
    return ": " + "; ".join(found) if found else ""


if __name__ == "__main__":
    for name, text, book, length in trials():
        number, place, table = read(text, book, length)
        # Behind the records no byte is left.
        print(name, number, place, len(table) // VALUE.size, f"0{records(table)}")
