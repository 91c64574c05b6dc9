"""The tabulate program beside the answers of texts.py: its records or its line of refusal, for the known inputs, the sample and longer ones.

Run by tests/run, which builds the program: python3 tests/tabulate.py crates/tabulate/out/tabulate sample/log.json sample/keys.book
"""
import subprocess
import sys
import tempfile
from pathlib import Path

from texts import BOOK, LONGEST, known, read


def expected(text, book):
    """What is written to standard output and to standard error."""
    number, place, table = read(text, book, LONGEST)
    return table, f"refused {number} {place}\n".encode() if number else b""


def inputs(sample):
    yield sample
    for text, book, *_ in known():
        yield text, book
    for length in LONGEST, LONGEST + 1, 3 * LONGEST:
        yield b" " * length, BOOK
        yield b"1 ", BOOK[:32] + b"b" * (length - 32)


def run(program, text, *book):
    process = subprocess.run([program, *book], input=text, capture_output=True, check=True)
    return process.stdout, process.stderr


def differences(program, sample, folder):
    path = Path(folder) / "keys.book"
    for text, book in inputs(sample):
        path.write_bytes(book)
        if run(program, text, path) != expected(text, book):
            yield text[:40]
    for book in [], [path.with_name("missing")], [folder]:
        written, told = run(program, b"1 ", *book)
        if written or told.count(b"\n") != 1 or told.startswith(b"refused"):
            yield f"a key book that can't be read: {book}"


if __name__ == "__main__":
    _, program, *sample = sys.argv
    sample = [Path(path).read_bytes() for path in sample]
    with tempfile.TemporaryDirectory() as folder:
        different = list(differences(program, sample, folder))
    if different:
        sys.exit(f"{program} writes something else for: {different}")
    print(f"{program} writes the tables and refusals of {len(list(inputs(sample)))} inputs")
