#!/usr/bin/env python3
"""Makes the stored input of the program refusals, a noisy closed line, and its output: a JSON object for each refused frame and for
each run of skipped bytes.

The line is put together from cases, one function each, in the order in which they stand in the file. A case gives parts: some
bytes, the answer that they are made for, and the place of the bad digit that was put in, or None. The objects are made a second
way, by the reference reader (tests/reference), and both ways have to agree object for object. Nothing is taken from the
program's output.

make.py           writes the two files
make.py --check   compares instead, and exits 1 on a difference
"""

import collections
import itertools
import json
import pathlib
import sys

sys.path.append(str(pathlib.Path(__file__).resolve().parents[1]))
from reference import reader, refusals, stored
from reference.frames import MARK, NOTICE, frame, halt, notice, packed, patched, quote, slot, table

BUFFER = 65536  # bytes that the program has in hand at once
SHOWN = 64  # bytes that an object shows at the most
WHY = {
    1: "no frame begins here: the first byte is not 1B",
    2: "the line ends before this frame does",
    4: "the frame does not end in 0D 0A where its length says",
    5: "the check byte is not the exclusive-or of the bytes that it covers",
    6: "the header, bytes 4 to 10, has a bad digit",
    7: "the business is not 01, or the format is not 05, 06, 12 or 19",
    8: "the version is not that of the format",
    9: "the length is not one that the format, or the reveal byte, allows",
    10: "the reveal byte has more than 5 levels on a side, or levels with bit 0 set",
    11: "a packed field of the body has a bad digit",
}
# what can be the matter with the times and with the other fields of a format
TIMES = {
    "06": "the time is no time of day, or twelve nines stand without the code 000000, or that code without them",
    "12": "the time of a slot is no time of day, or twelve nines stand in a slot behind the count",
    "19": "the halt time is no time of day, or the resume time is neither a time of day nor 999999",
}
OTHERS = {
    "05": "the category is not 00, 09, 90 or 99",
    "06": "a code byte is not 32 to 126",
    "12": "the count is not 1 to 10, a code byte is not 32 to 126, or a slot behind the count is not six spaces and zeros",
    "19": "the state is not C or I, a code byte is not 32 to 126, or the code of a round's end is not six digits",
}


def why(answer, place, data):
    """The words for an answer to some bytes."""
    if answer == 3:
        return "the length is below 14 or above 1024" if place is None else "the length has a bad digit"
    if answer in (12, 13):
        return (TIMES if answer == 12 else OTHERS)[data[4:5].hex()]
    return WHY[answer]


# ---------------------------------------------------------------------------------------------------------------------
# Parts: the answer that they are made for, the place of a bad digit or None, and their bytes. The answer and the place of skipped
# bytes are those of the first, and skipped bytes next to each other make one run.

GOOD = 0, None, NOTICE


def skipped(answer, data, place=None):
    """Bytes to skip, and a good notice behind them."""
    yield answer, place, data
    yield GOOD


# ---------------------------------------------------------------------------------------------------------------------
# The cases, in the order in which they stand in the line.

def runs():
    """Runs of noise of all sizes around the bytes that are shown of one."""
    for size in (2, 1, 63, 64, 65, 128, 5000):
        yield from skipped(1, bytes(32 + n % 95 for n in range(size)))
    yield from skipped(1, bytes(b for b in range(256) if b != 27))


def lengths():
    """3: a bad digit in each half of the length, in several, and in what stands behind it; then lengths that are out of range."""
    for at, length in refusals.spoiled("0014"):
        yield from skipped(3, frame("05", notice("09"), length=length), 2 + at)
    for length, place in (("AA14", 2), ("0BCD", 3), ("00EF", 4), ("9F9F", 3), ("999A", 5), ("FFFF", 2), ("1B1B", 3)):
        yield from skipped(3, packed("1B" + length), place)
    yield from skipped(3, packed("1B"), 3)  # 1B00, of the notice's 27
    yield from skipped(3, packed("1B00"), 5)  # 001B, likewise
    yield from skipped(3, packed("1B" * 100), 3)
    for length in ("0000", "0013", "1025", "9999"):
        yield from skipped(3, frame("05", notice("0A"), length=length))
    yield from skipped(3, frame("05", b""))
    yield from skipped(3, frame("02", b"i" * 1012))


def outlines():
    """4 and 5; bad digits and other faults are not looked at yet. Then false lengths with a frame under them, which is found."""
    yield from skipped(4, frame("05", notice("0A"), end=packed("0D0B")))
    yield from skipped(4, frame("02", b"g" * 1011, end=packed("0D0D")))
    yield from skipped(4, NOTICE[:-1])
    yield from skipped(5, frame("05", notice("0A"), check=0x18))
    yield from skipped(5, frame("05", notice("09"), "0000000A", check=0x00))
    yield from skipped(5, frame("12", table(slot()), check=0x00))
    yield from skipped(4, packed("1B0020"))
    yield from skipped(5, packed("1B0017"))
    yield 1, None, MARK


def good_frames():
    """Nothing is printed of them."""
    for form, body in (("05", notice("00", b"\xff" * 60)), ("06", quote(0xDA)), ("06", quote(0x01)), ("12", table(slot())),
                       ("19", halt())):
        yield 0, None, frame(form, body)


def bad_digits(cases=(refusals.bad_headers, refusals.bad_notices, refusals.bad_quotes, refusals.bad_halts,
                      refusals.two_bad_digits)):
    """6 and 11: each half of each packed field."""
    for case in cases:
        for place, (answer, data, _, _) in case():
            yield answer, place, data


def other_refusals():
    """The other answers to whole outlines, which have no place."""
    for case in refusals.CASES:
        for answer, data, _, _ in case():
            if answer not in (6, 11):
                yield answer, None, data
    yield 7, None, frame("02", b"e" * 1011)  # 1,024 bytes


def filled(size):
    """Good notices that take so many bytes together, 14 or more."""
    while size:
        length = size if size <= 74 else 74 if size >= 74 + 14 else 60
        yield 0, None, frame("05", notice("00", b"~" * (length - 14)))
        size -= length


def across(at):
    """From a place on: a run that begins just before the end of a buffer, so that the bytes that are shown stand on both sides of
    it."""
    yield from filled(BUFFER - 30 - at)
    yield from skipped(3, packed("1B0A") + b"across the end of a buffer, " * 200, 3)


def bad_tables():
    """11 in each half of format twelve; the ends of further buffers are within these frames."""
    return bad_digits([refusals.bad_tables])


def mixed_runs():
    """Runs of skipped bytes whose later answers and places differ from the first one's; a refused frame parts two runs."""
    yield from skipped(1, MARK + packed("1BA000") + NOTICE[:-1] + b"\x0b")
    yield from skipped(3, packed("1BA000") + frame("05", notice(), check=0xEE) + packed("1B0A00") + MARK, 2)
    yield from skipped(3, packed("1B0000") + packed("1BA0001B00A0"))
    yield from skipped(4, frame("05", notice(), end=b"\x0d\x0d") + packed("1BA000"))
    yield from skipped(5, frame("05", notice(), check=0xEE) + packed("1B000F"))
    yield 13, None, frame("05", notice("01"))
    yield 1, None, MARK
    yield 13, None, frame("05", notice("01"))
    yield 3, 3, packed("1B0A") + MARK
    yield 11, 20, frame("05", notice("A1"))
    yield GOOD


def cut_at_the_end():
    """A frame that the line's end cuts, with a good one inside; then another, with the beginning of a third in it."""
    yield 2, None, packed("1B1024") + b"o" * 100
    yield GOOD
    yield 1, None, b"p" * 100
    yield 11, 21, frame("05", notice("0A"))
    yield 2, None, frame("05", notice("00", b"cut " + packed("1B0014") + b"here" + packed("1B1BFF") + b"|"))[:-4]


BEFORE = [runs, lengths, outlines, good_frames, bad_digits, other_refusals]
BEHIND = [bad_tables, mixed_runs, cut_at_the_end]


def parts():
    """All parts in their order."""
    made = [part for case in BEFORE for part in case()]
    made += across(sum(len(data) for *_, data in made))
    return made + [part for case in BEHIND for part in case()]


# ---------------------------------------------------------------------------------------------------------------------
# The objects: of the parts, and once more of the moves of the reference reader.

def told(at, answer, place, data, words):
    """The object of a refused frame or a run, with all its bytes; the words for an answer are the exchange's."""
    return dict(at=at, answer=answer, bytes=len(data), place=place, hex=data[:SHOWN].hex(), why=words(answer, place, data))


def joined(pieces):
    """Pieces of a line, given as (answer, place, bytes): a list for each frame and for each run of skipped bytes, with its place on
    the line before it. The answer and the place of a run are those of its first piece."""
    made, at, running = [], 0, False
    for answer, place, data in pieces:
        skips = 1 <= answer <= 5
        if skips and running:
            made[-1][3] += data
        else:
            made.append([at, answer, place, data])
        at, running = at + len(data), skips
    return made


def objects(rows, words=why):
    """The objects of joined pieces; an accepted frame has none."""
    return [told(*row, words) for row in rows if row[1] != 0]


def moves_of(line, moves):
    """The moves over a line as pieces; the place of a bad digit is asked for at each."""
    for at, answer, step, _ in moves:
        yield answer, reader.place(line[at:at + 1024]), line[at:at + step]


def printed(found):
    """The objects as the program prints them."""
    return "".join(json.dumps(row, separators=(",", ":")) + "\n" for row in found)


def assert_edges(line, found):
    """What the line has to have."""
    assert printed(objects(joined([(1, None, b"AB")]))) == (
        '{"at":0,"answer":1,"bytes":2,"place":null,"hex":"4142","why":"no frame begins here: the first byte is not 1B"}\n')
    answers = collections.Counter((row["answer"], row["place"] is not None) for row in found)
    with_place = {answer for answer, has in answers if has}
    assert with_place == {3, 6, 11} and {answer for answer, has in answers if not has} == {*range(1, 14)} - {6, 11}
    runs_of = {row["bytes"] for row in found if row["answer"] <= 5}
    assert {1, 64, 65} <= runs_of and max(runs_of) > 5000
    assert any(row["answer"] == 11 and row["bytes"] == 374 and row["place"] >= 2 * SHOWN for row in found)
    assert any(row["at"] < BUFFER < row["at"] + SHOWN < row["at"] + row["bytes"] and row["answer"] == 3 for row in found)
    assert any(row["at"] < 2 * BUFFER < row["at"] + row["bytes"] and row["answer"] == 11 for row in found)
    assert found[-1]["answer"] == 2 and found[-1]["at"] + found[-1]["bytes"] == len(line)
    # every half of every packed field, by format, and every digit that a price must not begin with
    told_places = collections.defaultdict(set)
    leading = set()
    for row in found:
        if row["place"] is not None:
            text = line[row["at"]:row["at"] + row["bytes"]].hex()
            told_places[text[8:10] if row["answer"] == 11 else row["answer"]].add(row["place"])
            if row["answer"] == 11 and text[row["place"]].isdecimal():
                leading.add(text[row["place"]])
    counts = {kind: len(places) for kind, places in told_places.items()}
    assert counts == {3: 4, 6: 14, "05": 2, "06": 218, "12": 602, "19": 12}, counts
    assert leading == set("123456789"), leading
    # every word that there is
    words = {row["why"] for row in found}
    assert {*WHY.values(), *TIMES.values(), *OTHERS.values()} <= words and len(words) == len(WHY) + len(TIMES) + len(OTHERS) + 2


def main():
    made = parts()
    line = b"".join(data for *_, data in made)
    found = joined(moves_of(line, reader.walk(line)))
    for one, other in itertools.zip_longest(joined(made), found):
        assert one == other, f"made for {one}, and the reading says {other}"
    rows = objects(found)
    assert_edges(line, rows)
    text = printed(rows)

    # What is written is JSON, a whole object a line, with the keys in their order.
    lines = text.split("\n")
    assert lines.pop() == ""
    for shown, row in itertools.zip_longest(lines, rows):
        again = json.loads(shown)
        assert again == row and json.dumps(again) == json.dumps(row), shown

    stored.keep_program("refusals", line, text.encode("ascii"))
    print(f"{len(line)} bytes, {len(rows)} objects; the longest takes {max(map(len, lines))} bytes, all of them {len(text)}")


if __name__ == "__main__":
    main()
