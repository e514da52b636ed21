#!/usr/bin/env python3
"""Makes the stored input of the program listing, a noisy closed line, and its output.

The line is put together from cases, one function each, in the order in which they stand in the file. A case gives parts:
some bytes, and the answer that they are made for. The listing is made a second way, by the reference reader
(tests/reference), and both ways have to agree row for row before anything is written. Nothing is taken from the program's
output.

make.py           writes the two files
make.py --check   compares instead, and exits 1 on a difference
"""

import collections
import itertools
import pathlib
import sys

sys.path.append(str(pathlib.Path(__file__).resolve().parents[1]))
from reference import refusals, stored
from reference.frames import (CYCLE_END, MARK, NINES, NOTICE, frame, good, halt, noise, notice, packed, patched, quote, refused,
                              slot, table)
from reference.reader import read, walk, xor

# ---------------------------------------------------------------------------------------------------------------------
# The listing of moves.

def rows(moves):
    """The moves as rows: a run of skipped bytes is one, with the place and the answer of its first."""
    made = []
    skipping = False
    for at, answer, step, message in moves:
        skipped = 1 <= answer <= 5
        if skipped and skipping:
            made[-1][2] += step
        elif answer == 0:
            made.append([at, answer, step, message["format"], message["seq"]])
        else:
            made.append([at, answer, step, "-", "-"])
        skipping = skipped
    return made


def listing(made):
    accepted = sum(row[2] for row in made if row[1] == 0)
    skipped = sum(row[2] for row in made if 1 <= row[1] <= 5)
    refused = sum(row[2] for row in made if row[1] >= 6)
    lines = ["at,answer,bytes,format,seq"]
    lines += [",".join(map(str, row)) for row in made]
    lines += [f"total,{accepted},{refused},{skipped}"]
    return "".join(line + "\n" for line in lines).encode()


# ---------------------------------------------------------------------------------------------------------------------
# The cases, in the order in which they stand in the line. Between `lengths` and `mixed_runs` come those of reference/refusals.py.

def the_rules_line():
    """The 16 bytes of the listing in docs/RULES.md."""
    yield noise(1, packed("4142"))
    yield 0, packed("1B00140105010000000109190D0A"), 5, 1


def good_notices():
    """All categories, texts of 0, 1 and 60 bytes, texts that nobody judges, and the least and greatest number."""
    yield good("05", notice("00"))
    yield good("05", notice("00", b"x"))
    yield good("05", notice("00", b"Trading opens at 09:00. Sixty bytes of text, the most it has"))
    yield good("05", notice("90", b"Trading in 2330 is halted"))
    yield good("05", notice("09", b"end of the notices"))
    yield good("05", notice("99"))
    yield good("05", notice("99", bytes([0, 27, 127, 128, 255])))
    # A whole notice inside a notice's text belongs to the text.
    yield good("05", notice("00", NOTICE))
    yield good("05", notice("00"), 0)
    yield good("05", notice("00"), 99999999)


def good_quotes():
    """Every reveal byte with bit 0 unset, 00 with no pair to DA with eleven; then bit 0, which goes without levels, and fields
    at their ends."""
    for trade in (0, 1):
        for bids in range(6):
            for asks in range(6):
                yield good("06", quote(trade << 7 | bids << 4 | asks << 1))
    yield good("06", quote(0x01))
    yield good("06", quote(0x81))
    yield good("06", quote(0x81, packed("0999999999" + "99999999"), b"~~~~~~", "235959999999", 0xFF, 0xFF, "99999999"))
    yield good("06", quote(0x81, packed("0000000000" + "00000000"), b"      ", "000000000000", total="00000000"))
    yield good("06", quote(0xA2, code=b"      ", time="000000000000", total="00000000"))
    yield good("06", quote(0xA2, code=b"~~~~~~", time="235959999999", total="99999999"))
    yield good("06", quote(0x80, packed("0999999999" + "99999999")))
    yield good("06", quote(0x80, packed("0000000000" + "00000000")))
    # Limit and status are handed on whole, a 27 too.
    yield good("06", quote(0x22, limit=0xFF, status=0xFF))
    yield good("06", quote(0x22, limit=0x1B, status=0x1B))
    # The day's last frame, without pairs and with one; with bit 0, too.
    for reveal in (0x00, 0x80, 0x01, 0x81):
        yield good("06", quote(reveal, code=b"000000", time=NINES, total="00000000"))


def worked_quotes():
    """The specification's examples 4 and 2 of format six, with the check byte that the rule gives; then 4 as printed."""
    four = quote(0x80, packed("0000335000" + "00000000"), b"1301  ", "094519033017", 0x81, 0x00, "00001558")
    two = quote(0xD0, packed("0000138500" + "00001921" + "0000138500" + "00000540" + "0000138000" + "00000230"
                             + "0000137500" + "00000072" + "0000137000" + "00000069" + "0000136500" + "00000081"),
                b"2002  ", "102733165041", 0xA0, 0x00, "00011921")
    assert xor(frame("06", four, "00008325")[1:-3]) == 0xB9 and xor(frame("06", two, "00064323")[1:-3]) == 0x9C
    yield good("06", four, 8325)
    yield good("06", two, 64323)
    yield noise(5, frame("06", four, "00008325", check=0xC1))


def good_prices():
    """Format twelve with 1 and 10 slots, in the day and after the close, and the ends of a cycle."""
    day = [slot(b"%d  " % (1101 + i), total=f"{8 + i:08}", time=f"0910{i:02}554189") for i in range(10)]
    closed = [slot(b"%d  " % (1101 + i), total=f"{2208 + i:08}", time=NINES) for i in range(10)]
    yield good("12", table(day[0]))
    yield good("12", table(*day))
    yield good("12", table(closed[0]))
    yield good("12", table(*closed))
    # A cycle's end is counted: with one stock before it, alone, in the tenth slot, and after the close.
    yield good("12", table(slot(b"9945  ", "0000045000", "0000048000", "0000044000", "0000045000", "00000042",
                                 "091010117873"), CYCLE_END))
    yield good("12", table(CYCLE_END))
    yield good("12", table(*day[:9], CYCLE_END))
    yield good("12", table(slot(b"9902  ", "0000045000", "0000047000", "0000044000", "0000047000", "00002342", NINES),
                            CYCLE_END))
    # No further rule binds the slot 000000; and times of day and nines may stand in one frame.
    yield good("12", table(slot(b"000000", time=NINES), day[1]))
    # Ends of the fields; a counted slot may have six spaces for its code.
    yield good("12", table(slot(b"      ", "0999999999", "0999999999", "0999999999", "0999999999", "99999999",
                                 "235959999999"), slot(b"~~~~~~", time="000000000000")))


def good_halts():
    """Open and resumed halts, the whole market's, and a round's end."""
    yield good("19", halt())
    yield good("19", halt(b"2417  ", state=b"C"))
    yield good("19", halt(resumed="115700"))
    yield good("19", halt(resumed="115700", state=b"C"))
    yield good("19", halt(halted="080000", resumed="080000"))
    yield good("19", halt(halted="235959", resumed="000000"))
    yield good("19", halt(b"000000"))
    yield good("19", halt(b"000000", resumed="100000", state=b"C"))
    # A round's end; with the code 000000 it had no records, and is no halt of the market.
    yield good("19", halt(b"000002", "999999", "999999"))
    yield good("19", halt(b"000000", "999999", "999999", b"C"))
    yield good("19", halt(b"999999", "999999", "999999", b"C"))
    # The halt of 1234 in docs/RULES.md.
    yield 0, packed("1B00260119010000000131323334202010050099999949FF0D0A"), 19, 1


def bytes_27_in_noise():
    """27 in noise: alone, in rows, and in a row that leads into a frame."""
    yield noise(1, b"no frame \x1bhere")  # 27 and then 6865, which is no length
    yield good("05", notice())
    yield noise(3, packed("1B1B1B1B1B1B1B1B"))  # 1B is no pair of digits; the last two lead into the next frame's 27
    yield good("05", notice())
    yield noise(1, packed("411B421B1B431B1B1B44"))
    yield good("05", notice())
    yield noise(3, packed("1B00"))  # 001B, of the next frame's 27
    yield good("05", notice())
    yield noise(3, packed("1B"))
    yield good("05", notice())


def false_lengths():
    """27 and digits of a length before true frames: the frames under that length are found all the same."""
    # 64 bytes from the false 27 on end inside the third notice: no 0D 0A there.
    yield noise(4, packed("1B0064"))
    yield good("05", notice("00", b"the first under it"))
    yield good("05", notice())
    yield good("05", notice("00", b"that reaches behind it"))
    # 17 bytes: the false end is the true frame's own, and its check byte differs.
    yield noise(5, packed("1B0017"))
    yield 0, NOTICE, 5, 1
    # 1,024 bytes over two frames of format twelve and 274 bytes of noise.
    yield noise(4, packed("1B1024"))
    yield good("12", table(slot()))
    yield good("12", table(CYCLE_END))
    yield noise(1, b"." * 274)
    yield good("05", notice())
    # A false frame around a true one, with a right end and a wrong check byte; the true one is found.
    text = frame("05", notice("00", b"inside"), "00077777")
    around = frame("05", notice("00", b"before" + text + b"behind"))
    around = patched(around, len(around) - 3, around[-3] ^ 0x01)
    first = around.index(text)
    yield noise(5, around[:first])
    yield 0, text, 5, 77777
    yield noise(1, around[first + len(text):])
    yield good("05", notice())
    # But a whole outline is moved past, even refused and with a true frame inside.
    yield refused(7, "02", b"before" + NOTICE + b"behind")
    yield refused(13, "05", notice("01", NOTICE))


def wrong_ends():
    """4: the last two bytes are not 0D 0A. Looked at before the check byte."""
    for end in ("0D0B", "0C0A", "0A0D", "0000", "1B0A"):
        yield noise(4, frame("05", notice("09"), end=packed(end)))
        yield good("05", notice())
    yield noise(4, frame("05", notice("09"), check=0x18, end=packed("0D0B")))
    yield good("05", notice())
    yield noise(4, frame("06", quote(0xA2), end=packed("0A0A")))
    yield good("05", notice())
    # Cut by one byte with more behind it, a frame has no right end.
    yield noise(4, NOTICE[:-1])
    yield good("05", notice())


def wrong_checks():
    """5: right end, other check byte. Looked at before all digits but the length's."""
    yield noise(5, frame("05", notice("09"), check=0x18))
    yield good("05", notice())
    yield noise(5, frame("05", notice("09"), check=0x19 ^ 0x1B))  # byte 1 taken in
    yield good("05", notice())
    yield noise(5, frame("06", quote(0xDA), check=0x1B))
    yield good("05", notice())
    yield noise(5, frame("05", notice("09"), "0000000A", check=0x00))  # a bad digit is not looked at yet
    yield good("05", notice())
    yield noise(5, frame("12", table(slot()), check=0x00))
    yield good("05", notice())
    # One bit of a body turned over.
    quoted = frame("06", quote(0x84))
    yield noise(5, patched(quoted, 30, quoted[30] ^ 0x01))
    yield good("05", notice())


def lengths():
    """3 and its edges: 13 and 1,025 are refused, 14 and 1,024 are not; bad digits in either half."""
    # 13 bytes with a right check byte and end; the same of 14 is a notice.
    yield noise(3, frame("05", b""))
    yield 0, NOTICE, 5, 1
    # 1,024 bytes: whole outlines, of a format that is none of the four, and of format five, which has 74 bytes at the most.
    yield refused(7, "02", b"e" * 1011)
    yield refused(9, "05", notice("00", b"f" * 1010))
    # 1,024 bytes with a wrong end and with a wrong check byte; then 1,025 bytes.
    yield noise(4, frame("02", b"g" * 1011, end=packed("0D0D")))
    yield good("05", notice())
    yield noise(5, frame("02", b"h" * 1011, check=0xFF))
    yield good("05", notice())
    yield noise(3, frame("02", b"i" * 1012))
    yield good("05", notice())
    for length in ("0000", "0001", "0013", "1025", "2000", "9999"):
        yield noise(3, frame("05", notice("09"), length=length))
        yield good("05", notice())
    for length in ("A014", "0A14", "00A4", "001A", "F014", "0F14", "00F4", "001F", "FFFF"):
        yield noise(3, frame("05", notice("09"), length=length))
        yield good("05", notice())


def mixed_runs():
    """Runs of skipped bytes whose later reasons differ from the first one's."""
    yield noise(1, MARK + NOTICE[:-1] + b"\x0b")  # 1, 1, 4, 1 ...
    yield good("05", notice())
    yield noise(3, packed("1BA000") + frame("05", notice(), check=0xEE) + packed("1B1B") + MARK)  # 3, 1, 1, 5, 1 ..., 3, 3
    yield good("05", notice())
    yield noise(4, frame("05", notice(), end=b"\x0d\x0d"))  # 4, 1 ..., then 5
    yield noise(5, frame("05", notice(), check=0xEE))
    yield noise(3, frame("05", b""))  # and 3
    yield good("05", notice())
    yield noise(5, frame("05", notice(), check=0xEE))  # 5, 1 ..., then 4
    yield noise(4, frame("05", notice(), end=b"\x0d\x0d"))
    yield good("05", notice())
    yield refused(13, "05", notice("01"))  # a refused frame between two runs parts them
    yield noise(1, MARK)
    yield refused(13, "05", notice("01"))
    yield noise(3, packed("1B") + MARK)
    yield good("05", notice())


def dense_noise():
    """3,000 bytes drawn from a few that frames begin and end with, so that 3, 4 and 5 come up over and over."""
    alphabet = packed("1B1B1B000000141410240D0A0D0A0109")
    state = 12
    drawn = bytearray(MARK)
    while len(drawn) < 3000:
        state = (state * 1103515245 + 12345) % 2 ** 31
        drawn.append(alphabet[state >> 16 & 15])
        if len(drawn) % 11 == 0:  # and ends, so that false frames find one
            drawn += b"\x0d\x0a"
    yield noise(1, bytes(drawn) + MARK)
    yield good("05", notice())


def many_buffers():
    """Long enough for three more buffers of 65,536 bytes: tables and quotes whose places run through all remainders, so that a
    buffer ends within frames, and a run of noise and of 27s that is longer than any frame at each end of a buffer."""
    for part in range(3):
        for n in range(150):
            yield good("12", table(slot(code=b"%04d  " % (1101 + n))))
            yield good("06", quote(0xA2))
            yield noise(1, b"~" * (n % 7 + 1))
        yield noise(1, b"~" * 2000)
        yield noise(3, b"\x1b" * 100 + b"~~")
        yield noise(1, b"~" * 1500)


def cut_at_the_end():
    """Frames cut by the line's end answer 2, and a closed line skips their bytes one by one."""
    # At the very end a notice, cut inside its text: its own 27 answers 2, and so do those of 1B 00 14 and of 1B 1B.
    cut, _ = frame("05", notice("00", b"cut " + packed("1B0014") + b"here" + packed("1B1B") + b"|")).split(b"|")
    # 1,023 bytes before the line's end, the beginning of an outline of 1,024: its 27 answers 2, too.
    begun = packed("1B1024" "01" "02" "01" "00000001") + b"o" * 400
    inside = frame("05", notice("00", b"found all the same"), "00088888")
    between = b"p" * (1023 - len(begun) - 2 * len(inside) - len(cut))
    yield noise(2, begun)
    yield 0, inside, 5, 88888
    yield noise(1, between)
    yield 0, inside, 5, 88888
    yield noise(2, cut)


CASES = [
    the_rules_line,
    good_notices,
    good_quotes,
    worked_quotes,
    good_prices,
    good_halts,
    bytes_27_in_noise,
    false_lengths,
    wrong_ends,
    wrong_checks,
    lengths,
    *refusals.CASES,
    mixed_runs,
    dense_noise,
    many_buffers,
    cut_at_the_end,
]


def the_line():
    """The whole line, and the rows that its parts are made for."""
    line, made = b"", []
    for case in CASES:
        for answer, data, form, seq in case():
            if 1 <= answer <= 5 and made and 1 <= made[-1][2] <= 5:
                made[-1][3] += len(data)
            else:
                made.append([case.__name__, len(line), answer, len(data), form, seq])
            line += data
    return line, made


# ---------------------------------------------------------------------------------------------------------------------
# The edges in docs/RULES.md that concern frames.

def assert_edges():
    def answer(text):
        return read(packed(text))

    assert answer("") == (2, None, None)
    assert answer("1B 0A") == (2, None, None)
    assert answer("1B 0A 14") == (3, None, None)
    assert answer("41") == (1, None, None)
    number_1 = dict(format=5, seq=1, category=9, text=b"")
    assert answer("1B 00 14 01 05 01 00 00 00 01 09 19 0D 0A") == (0, 14, number_1)
    assert answer("1B 00 14 01 05 01 00 00 00 01 09 18 0D 0A") == (5, None, None)
    assert answer("1B 00 14 01 05 01 00 00 00 01 09 19 0D 0B") == (4, None, None)
    assert answer("1B 00 14 01 05 01 00 00 00 01 09 19 0D") == (2, None, None)
    halted = dict(format=19, seq=1, code=b"1234  ", halted=100500, resumed=999999, state=b"I", round_end=None)
    assert answer("1B 00 26 01 19 01 00 00 00 01 31 32 33 34 20 20 10 05 00 99 99 99 49 FF 0D 0A") == (0, 26, halted)
    for reveal, trade, bids, asks, length in ((0xA2, 1, 2, 1, 68), (0xDA, 1, 5, 5, 131), (0x00, 0, 0, 0, 32)):
        number, size, message = read(frame("06", quote(reveal)))
        assert (number, size) == (0, length)
        assert [len(message[side]) for side in ("trade", "bids", "asks")] == [trade, bids, asks]
    assert read(frame("06", quote(0x60)))[:2] == (10, 86)
    # The trade alone: levels that are not shown are no empty sides.
    for reveal, trade, length in ((0x01, 0, 32), (0x81, 1, 41)):
        number, size, message = read(frame("06", quote(reveal)))
        assert (number, size, len(message["trade"]), message["bids"], message["asks"]) == (0, length, trade, None, None)
    assert read(frame("06", quote(0xA3)))[:2] == (10, 68)
    # 13 and 1,025 are no lengths; 14 and 1,024 pass that check, and wait for their bytes.
    assert [answer(f"1B {length}")[0] for length in ("0013", "1025", "0014", "1024")] == [3, 3, 2, 2]
    # The listing in docs/RULES.md, byte for byte.
    line = packed("41 42 1B 00 14 01 05 01 00 00 00 01 09 19 0D 0A")
    assert listing(rows(walk(line))) == b"at,answer,bytes,format,seq\n0,1,2,-,-\n2,0,14,5,1\ntotal,14,0,2\n"
    assert listing(rows(walk(b""))) == b"at,answer,bytes,format,seq\ntotal,0,0,0\n"


def main():
    assert_edges()
    line, meant = the_line()
    moves = list(walk(line))
    found = rows(moves)
    for (case, *row), other in itertools.zip_longest(meant, found, fillvalue=("no case", None)):
        assert row == other, f"{case} is made for {row}, and the reading says {other}"
    assert sum(step for _, _, step, _ in moves) == len(line)
    occurred = collections.Counter(answer for _, answer, _, _ in moves)
    assert sorted(occurred) == list(range(14)), "every answer has to occur"

    stored.keep_program("listing", line, listing(found))
    counts = ", ".join(f"{answer}: {occurred[answer]}" for answer in sorted(occurred))
    print(f"{len(line)} bytes, {len(found)} rows; places by answer: {counts}")


if __name__ == "__main__":
    main()
