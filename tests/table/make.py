#!/usr/bin/env python3
"""Makes the stored output of the program table: 16 rows of 16 numbers, the mark 255 among them.

The entries are made in two ways that have to agree. One goes over the bytes and splits each into its halves. The other goes over
the numbers 0 to 99 and writes each with two digits, which are the byte's two digits in hexadecimal; the bytes that it never comes
to have the mark. Nothing is taken from the program's output.

make.py           writes the file
make.py --check   compares instead, and exits 1 on a difference
"""

import pathlib
import sys

sys.path.append(str(pathlib.Path(__file__).resolve().parents[1]))
from reference import stored

MARK = 255


def by_bytes():
    halves = [divmod(byte, 16) for byte in range(256)]
    return [10 * high + low if high <= 9 and low <= 9 else MARK for high, low in halves]


def by_numbers():
    entries = [MARK] * 256
    for number in range(100):
        entries[int(f"{number:02}", 16)] = number
    return entries


def printed(entries):
    rows = (entries[first:first + 16] for first in range(0, 256, 16))
    return "".join(" ".join(f"{entry:3}" for entry in row) + "\n" for row in rows).encode()


def main():
    entries = by_bytes()
    assert entries == by_numbers()
    assert (entries[0x09], entries[0x0A], entries[0x10], entries[0x99], entries[0x9A], entries[0xA0]) == (9, MARK, 10, 99, MARK, MARK)
    stored.keep({stored.folder("table") / "stdout": printed(entries)})
    print(f"{sum(entry != MARK for entry in entries)} entries of two digits, {entries.count(MARK)} marks")


if __name__ == "__main__":
    main()
