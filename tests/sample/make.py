#!/usr/bin/env python3
"""Makes two samples for the first look. samples/capture is a few seconds of a line: notices, one of them in Big5, quotes, a halt that is lifted,
opening prices, noise between them, a quote whose check byte was damaged on the way, one whose price begins with a 1 where a 0 has to stand, a trade sent alone, beside which the stock's
levels stay what they were, and numbers that never arrived. One code begins with a zero, which a reader that takes codes for numbers
loses. samples/derivatives is a line of the derivatives exchange: index values of both kinds, with contracts of three and of eight
bytes, noise, one with a bad digit in its value, and one that was damaged on the way.

make.py           writes the files
make.py --check   compares instead, and exits 1 on a difference
"""

import pathlib
import sys

sys.path.append(str(pathlib.Path(__file__).resolve().parents[1]))
from reference import stored
from reference.frames import frame, halt, index, notice, packed, patched, quote, slot, table

SAMPLE = stored.ROOT / "samples" / "capture"
DERIVATIVES = stored.ROOT / "samples" / "derivatives"
BIG5 = "今日上午九時開始交易"  # trading has begun at nine this morning


def book(last, trade, levels):
    """The pairs of a quote around a price in ten-thousandths: the trade, if there is one, bids falling and asks rising."""
    prices = ([last] if trade else []) + [last - 5000 * k for k in range(1, levels[0] + 1)] + [last + 5000 * k for k in range(levels[1])]
    return packed("".join(f"{price:010}{(price // 100) % 97 + 1:08}" for price in prices))


def the_line():
    yield frame("05", notice("00", b"Trading opens at 09:00"), "00000001")
    yield frame("12", table(slot(code=b"1101  ", opening="0000425000", highest="0000430000", lowest="0000420000", last="0000425000"), slot(code=b"2330  ", opening="0005980000", highest="0006010000", lowest="0005970000", last="0006000000", total="00012734")), "00000001")
    yield frame("06", quote(0xDA, book(5980000, True, (5, 5)), code=b"2330  ", time="090000012345"), "00000001")
    yield b"\x00\x1b\x00"
    yield frame("06", quote(0xA2, book(425000, True, (2, 1)), code=b"1101  ", time="090000513002"), "00000002")
    damaged = frame("06", quote(0x22, book(1045000, False, (2, 1)), code=b"2317  ", time="090001000000"), "00000003")
    yield damaged[:20] + b"\x99" + damaged[21:]
    price = quote(0x80, book(1045000, True, (0, 0)), code=b"2317  ", time="090001500000")
    yield frame("06", price[:19] + b"\x10" + price[20:], "00000004")
    yield frame("19", halt(code=b"2317  ", halted="090002", resumed="999999", state=b"I"), "00000001")
    yield frame("06", quote(0x00, code=b"2330  ", time="090004271828"), "00000006")
    yield frame("19", halt(code=b"2317  ", halted="090002", resumed="091500", state=b"I"), "00000002")
    yield frame("06", quote(0x80, book(430000, True, (0, 0)), code=b"1101  ", time="090005314159"), "00000007")
    yield frame("05", notice("00", BIG5.encode("big5")), "00000002")
    yield frame("06", quote(0x92, book(1325000, True, (1, 1)), code=b"0050  ", time="090006000000"), "00000008")
    yield frame("06", quote(0x81, book(1330000, True, (0, 0)), code=b"0050  ", time="090006250000"), "00000009")


def the_derivatives_line():
    yield b"\x0d\x0a"
    yield index()
    yield index(b"8", b"2330    ", "08595999", "00598500", 5, b"4", "09000000", "99999999")
    yield index(contract=b"TE ", time="13300095", value="0081A250", sent="13300125", seq="00000008")
    yield patched(index(contract=b"TE ", time="13300095", value="00812500", sent="13300125", seq="00000009"), 22, 0x18)
    yield index(b"8", b"TXF", "13300195", "17230000", 1, sent="13300225", seq="00000001")


def main():
    for path, made in ((SAMPLE, the_line), (DERIVATIVES, the_derivatives_line)):
        line = b"".join(made())
        stored.keep({path: line})
        print(f"{path.name}: {len(line)} bytes")


if __name__ == "__main__":
    main()
