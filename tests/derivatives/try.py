#!/usr/bin/env python3
"""Tries the programs listing, messages and refusals on a line of the derivatives exchange, which the argument derivatives-2015 asks
for; on other arguments, which they do not take; and without one, where a line is the stock exchange's.

The line is put together from cases, one function each, in the order in which they stand in it. A case gives parts: the answer that
some bytes are made for, the place of the bad digit that was put in, or None, the bytes, and the object of a frame to accept, stated
from the fields that went into it. What is to be printed is made a second way, by the reference reader (tests/reference), and both
ways have to agree row for row and object for object. Prints what differs, and ends with status 1 if anything did.

try.py              runs the programs
try.py LINE FOLDER  only writes the line, and into the folder what each program has to print of it
"""

import collections
import itertools
import json
import pathlib
import subprocess
import sys

sys.path.append(str(pathlib.Path(__file__).resolve().parents[1]))
from derivatives import shown
from derivatives.shown import PROGRAMS, WORD, printed
from listing import make as listing_maker
from reference import reader, started, stored
from reference.frames import MARK, index, packed, patched
from reference.refusals import spoiled
from refusals import make as refusals_maker

faults = started.Faults("derivatives")

BUFFER = 65536  # bytes that a program has in hand at once


# ---------------------------------------------------------------------------------------------------------------------
# Parts: the answer that they are made for, the place of a bad digit or None, their bytes, and the object of an accepted frame
# without its place.

KINDS = {"I060": b"5", "I064": b"8"}
NO_TIMES = "24000000", "99000000", "00600000", "12993456", "00006000", "23599900", "99999999"


def good(kind="I060", seq=1, market="1", sent="13:30:00.25", contract="TXF", time="13:29:59.95", value="17234.567", status=0):
    """A frame to accept. Its fields are given as the object shows them, and packed from that."""
    bare = {key: text.replace(":", "").replace(".", "") for key, text in (("sent", sent), ("time", time), ("value", value))}
    data = index(KINDS[kind], contract.encode(), bare["time"], f"{bare['value']:>08}", status, market.encode(), bare["sent"], f"{seq:08}")
    return 0, None, data, dict(kind=kind, seq=seq, market=market, sent=sent, contract=contract, time=time, value=value, status=status)


def refused(answer, place=None, **fields):
    """A frame whose outline is whole."""
    return answer, place, index(**fields), None


def skipped(answer, data, place=None):
    """Bytes to skip, and a good frame behind them."""
    yield answer, place, data, None
    yield good()


# ---------------------------------------------------------------------------------------------------------------------
# The cases, in the order in which they stand in the line.

def worked_frames():
    """One of each kind, put together by hand."""
    yield 1, None, MARK, None
    yield 0, None, packed("1B3135133000250000000702001254584613295995172345670" "0BF0D0A"), dict(
        kind="I060", seq=7, market="1", sent="13:30:00.25", contract="TXF", time="13:29:59.95", value="17234.567", status=0)
    yield 0, None, packed("1B34380900000099999999010017323333302020202008595999005985000559" "0D0A"), dict(
        kind="I064", seq=99999999, market="4", sent="09:00:00.00", contract="2330    ", time="08:59:59.99", value="598.500", status=5)


def all_forms():
    """Both kinds, both markets, both lengths of a contract, every status that has no reserved bit."""
    for kind, market, contract in itertools.product(KINDS, "14", ("TXF", "IX0001  ")):
        for status in range(2 if kind == "I060" else 8):
            yield good(kind, status + 10, market, contract=contract, status=status)


def ends_of_fields():
    """The least and the greatest time, number and value; every byte that a contract may have."""
    yield good(seq=0, sent="00:00:00.00", time="00:00:00.00", value="0.000")
    yield good("I064", 99999999, "4", "23:59:59.99", "~~~~~~~~", "23:59:59.99", "99999.999", 7)
    for value in ("0.001", "0.010", "0.100", "1.000", "10.000", "12345.678", "90000.009"):
        yield good(value=value)
    for contract in ("   ", '"\\"', '\\\\\\', "   A   B", '" "\\ \\"~'):
        yield good("I064", contract=contract)
    for first in range(32, 127, 8):
        yield good(contract="".join(chr(32 + (first - 32 + k) % 95) for k in range(8)))


def lengths():
    """3: a bad digit in each half of the body's length, and lengths that are too great. Nothing else is looked at."""
    for at, length in spoiled("0012"):
        yield from skipped(3, index(length=length), 24 + at)
    yield from skipped(3, index(b"?", length="AFFE", version="FF", check=0, end=b"??"), 24)
    yield from skipped(3, index(length="00A9", sent="AAAAAAAA"), 26)
    for length in ("1008", "1024", "9999"):
        yield from skipped(3, index(length=length))
    yield from skipped(3, index(body=b" " * 1008))
    yield from skipped(3, b"\x1b" * 40, 25)


def outlines():
    """4 and 5: bad digits and other faults are not looked at yet; a length that is not the frame's own."""
    yield from skipped(4, index(end=b"\x0d\x0b"))
    yield from skipped(4, index(end=b"\x0a\x0d", market=b"?", sent="AAAAAAAA"))
    yield from skipped(4, index(body=b" " * 1007, end=b"\x0d\x0d"))
    yield from skipped(4, index(length="0011"))
    yield from skipped(4, index(length="0000"))
    for check in (0, 0xBE, 0xFF):
        yield from skipped(5, index(check=check))
    yield from skipped(5, index(check=0xBF ^ 0x1B))  # byte 1 taken in
    yield from skipped(5, index(check=0, kind=b"?", version="AA"))
    yield from skipped(5, patched(index(), 16, 0x47))
    yield 1, None, b"noise " * 30, None


def bad_headers():
    """6: each half of time, number and version; the transmission code, the kind and the body are not looked at."""
    for at, header in spoiled("13300025" "00000007" "02"):
        yield refused(6, 6 + at, sent=header[:8], seq=header[8:16], version=header[16:])
    yield refused(6, 9, market=b"?", kind=b"?", sent="133A0025", seq="0000000B", body=b"?")
    yield refused(6, 22, sent="99999999", version="A0", time="FFFFFFFF")


def unknown():
    """7: the transmission code, the kind or both; version, length and body are not looked at."""
    for market in (b"0", b"2", b"3", b"5", b"8", b"\x01", b"\x04", b"\x1b", b"\xff"):
        yield refused(7, market=market)
    for kind in (b"1", b"3", b"4", b"6", b"7", b"9", b"\x05", b"\x08", b"\x1b", b"\xff"):
        yield refused(7, kind=kind, version="02")
    yield refused(7, market=b"5", kind=b"1", sent="99999999", version="99", body=b"??")
    yield refused(7, market=b"2", time="AAAAAAAA", contract=b"\0\0\0")


def versions():
    """8: that of the other kind among others; length and body are not looked at."""
    for version in ("00", "01", "03", "20", "99"):
        yield refused(8, version=version)
    for version in ("00", "02", "10", "11"):
        yield refused(8, kind=b"8", version=version)
    yield refused(8, version="01", sent="99999999", body=b"??")


def bodies():
    """9: every length but two; digits, times and bytes are not looked at."""
    for length in (0, 1, 9, 11, 13, 14, 15, 16, 18, 34, 1006, 1007):
        yield refused(9, body=b"\xff" * length)
        yield refused(9, kind=b"8", body=b" " * length, sent="99999999")


def bad_digits():
    """11: each half of time and value, behind a contract of either length; times, contract and status are not looked at."""
    for contract, kind in itertools.product((b"TXF", b"2330    "), (b"5", b"8")):
        first = 28 + 2 * len(contract)
        for at, fields in spoiled("13295995" "17234567"):
            yield refused(11, first + at, kind=kind, contract=contract, time=fields[:8], value=fields[8:])
        yield refused(11, first + 3, kind=kind, contract=b"\xff" * len(contract), time="999A9999", value="FFFFFFFF", sent="99999999", status=0xFF)
        yield refused(11, first + 15, kind=kind, contract=contract, time="24000000", value="0000000F")


def no_times():
    """12: the header's time, the body's, and both; contract and status are not looked at."""
    for time in NO_TIMES:
        yield refused(12, sent=time)
        yield refused(12, time=time, contract=b"2330    ")
        yield refused(12, kind=b"8", sent=time, time=time, contract=b"\0\0\0", status=0xFF)


def other_fields():
    """13: each place of a contract, and each reserved bit."""
    for contract, byte in itertools.product((b"TXF", b"2330    "), (0, 13, 27, 31, 127, 128, 255)):
        for at in range(len(contract)):
            yield refused(13, contract=patched(contract, at, byte))
    for bit in range(1, 8):
        yield refused(13, status=1 << bit)
        yield refused(13, status=1 << bit | 1, contract=b"2330    ")
    for bit in range(3, 8):
        yield refused(13, kind=b"8", status=1 << bit)
        yield refused(13, kind=b"8", status=1 << bit | 7)
    yield refused(13, contract=b"\x7fXF", status=0xFE)


def many_frames(at):
    """From a place on: several buffers full, so that frames lie across their ends, and a run of skipped bytes across the first."""
    for number in range(3 * BUFFER // 63):
        yield good("I060", number, contract="TXF")
        yield good("I064", number, "4", contract="TXFA8   ", status=number % 8)
        if number == (BUFFER - at) // 63 - 1:
            yield 3, 25, packed("1B") * 200, None


def whole_in_others():
    """A false length with good frames under it, which are found; and a frame inside another one's body, which is not."""
    yield from skipped(5, index(length="0026")[:14])  # up to the end of the good one behind it
    yield refused(9, body=index() + index())


def cut_at_the_end():
    """2: a frame that the line's end cuts, with a good one inside, and at the end fewer bytes than a header."""
    yield 2, None, index(length="1007")[:14] + b"o" * 100, None
    yield good()
    yield 13, None, index(status=2), None
    yield 2, None, index(length="1007")[:28], None
    yield 13, None, index(status=2), None
    yield 2, None, index()[:13], None


BEFORE = [worked_frames, all_forms, ends_of_fields, lengths, outlines, bad_headers, unknown, versions, bodies, bad_digits, no_times,
          other_fields]
BEHIND = [whole_in_others, cut_at_the_end]


def parts():
    """All parts in their order."""
    made = [part for case in BEFORE for part in case()]
    made += many_frames(sum(len(data) for _, _, data, _ in made))
    return made + [part for case in BEHIND for part in case()]


# ---------------------------------------------------------------------------------------------------------------------
# What has to hold of the line.

def assert_as_made(made, line):
    """The reader finds what each part was made for, and every answer occurs with its causes."""
    moves = list(reader.walk(line, reader.read_2015))
    wanted = refusals_maker.joined((answer, place, data) for answer, place, data, _ in made)
    for one, other in itertools.zip_longest(wanted, refusals_maker.joined(shown.pieces_of(line, moves))):
        assert one == other, f"made for {one}, and the reading says {other}"
    objects, at = [], 0
    for _, _, data, fields in made:
        objects += [dict(at=at, **fields)] if fields else []
        at += len(data)
    assert [json.dumps(o) for o in objects] == [json.dumps(o) for o in shown.objects(moves)]
    assert {row[1] for row in wanted} == {*range(14)} - {10}
    places = collections.defaultdict(set)
    for _, answer, place, data in wanted:
        places[answer, len(data) if answer == 11 else 0].add(place)
    assert places[3, 0] == {None, 24, 25, 26, 27} and places[6, 0] == {*range(6, 24)}
    assert places[11, 29] == {*range(34, 50)} and places[11, 34] == {*range(44, 60)}
    ends = {BUFFER * n for n in (1, 2, 3)}
    across = {answer for at, answer, _, data in wanted if any(at < end < at + len(data) for end in ends)}
    assert {0, 3} <= across, across
    assert wanted[-1][1] == 2 and [row[1] for row in wanted].count(2) == 3


# ---------------------------------------------------------------------------------------------------------------------
# The programs.

def ran(name, words, given, size=None):
    """Status, output and what was said of a program with these arguments, whose input comes whole or in pieces of a size."""
    with started.Started(["./trivsome", name, *words], subprocess.PIPE) as program:
        for at in range(0, len(given), size or len(given) or 1):
            if not program.takes(given[at:at + (size or len(given))], started.BUILT):
                break
        program.process.stdin.close()
        return program.ends(started.BUILT), bytes(program.out), program.err.decode("utf-8", "replace")


def has_to_print(what, wanted, got):
    status, out, said = got
    if (status, said) != (0, "") or out != wanted:
        at = next((k for k, pair in enumerate(itertools.zip_longest(out, wanted)) if pair[0] != pair[1]), None)
        faults.differs(f"{what}: status {status}, '{said}'; the first other byte of the output is at {at}")


def try_arguments(name):
    """Any other argument, and any second one, is told and nothing else is done."""
    for words in (["derivatives"], ["derivatives-2016"], ["derivatives-201"], ["derivatives-20155"], ["Derivatives-2015"], ["--help"],
                  [""], [WORD, WORD], [WORD, ""], ["", WORD]):
        status, out, said = ran(name, words, b"")
        if (status, out, said) != (1, b"", f"{name}: the only argument is {WORD}\n"):
            faults.differs(f"{name} {words}: status {status}, prints {len(out)} bytes, says '{said}'")


def try_all(line):
    wanted = printed(line)
    short = line[:3000]
    wanted_short = printed(short)
    for name in PROGRAMS:
        has_to_print(f"{name} {WORD}", wanted[name], ran(name, [WORD], line))
        has_to_print(f"{name} {WORD} of no bytes", printed(b"")[name], ran(name, [WORD], b""))
        for size in (1, 13, 1021):
            has_to_print(f"{name} {WORD} in pieces of {size}", wanted_short[name], ran(name, [WORD], short, size))
        given, stored_output = ((stored.folder(name) / file).read_bytes() for file in ("stdin", "stdout"))
        has_to_print(f"{name} without an argument", stored_output, ran(name, [], given))
        # the other exchange's line is noise, and is told as such
        has_to_print(f"{name} {WORD} of a stock exchange's line", printed(given)[name], ran(name, [WORD], given))
        try_arguments(name)
    moves = list(reader.walk(line))
    has_to_print("listing of it without an argument", listing_maker.listing(listing_maker.rows(moves)), ran("listing", [], line))


def main():
    made = parts()
    line = b"".join(data for _, _, data, _ in made)
    assert_as_made(made, line)
    if len(sys.argv) > 1:
        pathlib.Path(sys.argv[1]).write_bytes(line)
        for name, text in printed(line).items():
            (pathlib.Path(sys.argv[2]) / name).write_bytes(text)
        return 0
    try_all(line)
    return faults.status()


if __name__ == "__main__":
    sys.exit(main())
