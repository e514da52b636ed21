#!/usr/bin/env python3
"""Makes what the program capture is run on when it is proved: a file of finished blocks and of one that was cut off, and what the
program has to print of it when it verifies it.

The file is read back before anything is written, and the checks of its blocks are made a second way, by how often each byte is
counted in the second sum. Nothing is taken from the program's output.

make.py           writes the files
make.py --check   compares instead, and exits 1 on a difference
"""

import json
import pathlib
import sys

sys.path.append(str(pathlib.Path(__file__).resolve().parents[1]))
from capture import blocks
from reference import stored

CRATE = stored.ROOT / "crates" / "program_capture"


def payloads():
    """Those of the finished blocks: a line, and payloads at the edges."""
    yield from blocks.parts((stored.ROOT / "samples" / "capture").read_bytes())
    yield b"\0"  # a zero that is used
    yield bytes(blocks.MOST)
    yield b"\xff" * blocks.MOST
    yield bytes(range(255))  # a count of one byte
    yield bytes(range(256))  # and of two
    yield b"last"


def without_sums(place):
    """A payload at a place whose check is two zeros."""
    pairs = (bytes([first, second]) for first in range(256) for second in range(256))
    return next(pair for pair in pairs if blocks.block(place, pair)[-2:] == bytes(2))


def cut_off(data, place, payload, count):
    """Power goes after so many stores of a block."""
    data = bytearray(data)
    for at, byte in blocks.stores(place, payload)[:count]:
        data[at] = byte
    return bytes(data)


def counted_check(data):
    """The check of a block, without adding up sums."""
    return bytes([sum(data) % 255, sum(byte * times for times, byte in zip(range(len(data), 0, -1), data)) % 255])


def main():
    kept = list(payloads())
    kept.append(without_sums(len(kept) + 1))
    night = cut_off(blocks.capture(kept), len(kept) + 1, b"never finished", blocks.BLOCK - 1)
    assert blocks.payloads(night) == kept
    for place in range(1, len(kept) + 2):
        one = bytearray(night[(place - 1) * blocks.BLOCK:place * blocks.BLOCK])
        one[blocks.LAST] = place
        assert one[-2:] == counted_check(one[:-2]) == blocks.check(one[:-2])
    figures = dict(finished=len(kept), bytes=sum(map(len, kept)))
    stored.keep({
        CRATE / "args": b"verify\nnight\n",
        CRATE / "data" / "night": night,
        CRATE / "stdout": json.dumps(figures, separators=(",", ":")).encode() + b"\n",
    })
    print(f"{len(kept)} finished blocks and one that was cut off, {figures['bytes']} bytes")


if __name__ == "__main__":
    main()
