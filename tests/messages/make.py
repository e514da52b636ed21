#!/usr/bin/env python3
"""Makes the stored input of the program messages, a noisy closed line, and its output, the accepted frames' messages as JSON.

The line is put together from cases, one function each, in the order in which they stand in the file. A case gives parts: some
bytes, and the object that they are made for, stated from the fields that went into the frame, or None for noise and for
frames to refuse. The objects are made a second way, by the reference reader (tests/reference), and both ways have to agree
object for object. The text is the standard library's JSON, read back before anything is written. Nothing is taken from the
program's output.

make.py           writes the two files
make.py --check   compares instead, and exits 1 on a difference
"""

import itertools
import json
import pathlib
import sys

sys.path.append(str(pathlib.Path(__file__).resolve().parents[1]))
from reference import frames, reader, refusals, stored
from reference.frames import NINES, packed

SPARE = 4096  # the program writes its buffer out when less than this is left, so no object may be longer

# ---------------------------------------------------------------------------------------------------------------------
# Frames with the objects that they are made for. Fields are given as the object shows them, and packed from that.

numbers = itertools.count(1)


def numbered(form, body, fields, seq=None):
    """A frame, and its object without its place. Frames that are given no number are numbered 1, 2 and so on as they come."""
    seq = next(numbers) if seq is None else seq
    return frames.frame(form, body, f"{seq:08}"), dict(format=int(form), seq=seq, **fields)


def notice(category="00", text=b"", seq=None):
    return numbered("05", packed(category) + text, dict(category=category, text="".join(f"{b:02x}" for b in text)), seq)


def ten_digits(shown):
    """A price as ten digits, the first of them no digit of the field."""
    whole, part = shown.split(".")
    assert len(part) == 4
    return f"{whole:>06}{part}"


def twelve_digits(shown):
    return NINES if shown is None else shown.replace(":", "").replace(".", "")


def timed(shown, nines):
    """The time of a quote or slot, and what its nines mean where it has no other."""
    return {"time": None, nines: True} if shown is None else {"time": shown}


def pair(shown, quantity):
    return dict(price=shown, quantity=quantity)


def ladder(n, first=99):
    """So many pairs that differ in price and in quantity."""
    return [pair(f"{first + k}.{5 * k:04}", 7 ** k) for k in range(n)]


def quote(trade=None, bids=(), asks=(), code="2330  ", time="09:04:15.061278", limit=0, status=16, total=16423, seq=None):
    """A quote; its reveal byte is the one for its pairs. Sides that are not shown are None, both of them."""
    shown = bids is not None
    assert shown == (asks is not None)
    pairs = ([trade] if trade else []) + ([*bids, *asks] if shown else [])
    reveal = (128 if trade else 0) + (16 * len(bids) + 2 * len(asks) if shown else 1)
    body = code.encode() + packed(twelve_digits(time)) + bytes([reveal, limit, status]) + packed(f"{total:08}")
    body += b"".join(packed(ten_digits(p["price"]) + f"{p['quantity']:08}") for p in pairs)
    fields = dict(code=code, **timed(time, "last"), reveal=reveal, limit=limit, status=status, total=total, trade=trade,
                  bids=list(bids) if shown else None, asks=list(asks) if shown else None)
    return numbered("06", body, fields, seq)


FOUR = "open", "high", "low", "last"


def slot(code="1101  ", four=("12.5000", "12.8000", "12.4000", "12.5000"), total=8, time="09:10:03.554189"):
    return dict(code=code, **dict(zip(FOUR, four)), total=total, **timed(time, "closing"))


def prices(*slots, seq=None):
    body = packed(f"{len(slots):02}")
    for s in slots:
        body += s["code"].encode() + packed("".join(ten_digits(s[key]) for key in FOUR))
        body += packed(f"{s['total']:08}" + twelve_digits(s["time"]))
    body += (b" " * 6 + bytes(30)) * (10 - len(slots))
    return numbered("12", body, dict(count=len(slots), slots=list(slots)), seq)


def six_digits(shown):
    return "999999" if shown is None else shown.replace(":", "")


def halt(code="2330  ", halted="09:12:00", resume=None, state="I", seq=None):
    body = code.encode() + packed(six_digits(halted) + six_digits(resume)) + state.encode()
    return numbered("19", body, dict(code=code, event="halt", halted=halted, resume=resume, state=state), seq)


def round_end(records, state="C", seq=None):
    code = f"{records:06}"
    body = code.encode() + packed("9" * 12) + state.encode()
    return numbered("19", body, dict(code=code, event="round-end", records=records, state=state), seq)


# ---------------------------------------------------------------------------------------------------------------------
# The cases, in the order in which they stand in the line.

def notices():
    """All categories, texts of 0, 1 and 60 bytes, every byte that there is, and the least and greatest number."""
    yield notice("09")
    yield notice("00", b"x")
    yield notice("90", b"Trading opens at 09:00. Sixty bytes of text, the most it has")
    yield notice("99", b'"\\\n')
    for first in range(0, 256, 60):
        yield notice("00", bytes(range(first, min(first + 60, 256))))
    yield notice("00", frames.NOTICE)  # a whole notice inside a notice's text belongs to the text
    yield notice("00", seq=0)
    yield notice("00", seq=99999999)


def quotes_by_reveal():
    """Every reveal byte that is allowed: 00 with no pair to DA with eleven, and 01 and 81, which show no levels."""
    for trade, bids, asks in itertools.product((0, 1), range(6), range(6)):
        yield quote(pair("100.0000", 1) if trade else None, ladder(bids)[::-1], ladder(asks, 105))
    for trade in (None, pair("100.0000", 1)):
        yield quote(trade, None, None)


def trades_alone():
    """A burst: trades alone, then the last one with levels; the trade alone at the ends of its fields, and in the day's last
    frame, and the same without bit 0, whose sides are empty. Levels beside the trade alone have no object."""
    for k in range(5):
        yield quote(pair(f"100.{5000 - k:04}", k + 1), None, None, time=f"09:04:15.06127{k}", total=16423 + k)
    yield quote(pair("100.4995", 6), ladder(5)[::-1], ladder(5, 105), time="09:04:15.061275", total=16428)
    for sides in (None, ()):
        for trade in (None, pair("0.0000", 0), pair("99999.9999", 99999999)):
            yield quote(trade, sides, sides, '"\\~\\" ', "23:59:59.999999", 255, 255, 99999999)
            yield quote(trade, sides, sides, "000000", None, 0, 0, 0)
    for reveal, listed in ((0xA3, 4), (0xA3, 1), (0x11, 1), (0x03, 0), (0xDB, 11)):
        yield frames.frame("06", frames.quote(reveal, frames.levels(listed))), None


def quotes_at_their_ends():
    """The day's last frame, times, prices, quantities and bytes of flags at their ends, and codes of all bytes."""
    yield quote(code="000000", time=None, status=0, total=0)
    yield quote(pair("0.0000", 0), [pair("0.0001", 1), pair("0.0010", 10)], [pair("99999.9999", 99999999)], "000000", None)
    for time in ("00:00:00.000000", "23:59:59.999999", "09:00:00.000001", "10:20:30.405060", "01:02:03.040506"):
        yield quote(time=time)
    for shown in ("0.0000", "0.0001", "0.0100", "1.0000", "9.9999", "10.0001", "12345.6789", "99999.9999"):
        yield quote(pair(shown, 99999999), [pair(shown, 0)], [pair(shown, 10)])
    for byte in (1, 27, 34, 92, 99, 100, 127, 128, 255):
        yield quote(limit=byte, status=255 - byte, total=10 ** (byte % 8))
    yield quote(total=99999999)
    for first in range(32, 127, 5):
        yield quote(code="".join(chr(b) for b in range(first, first + 6) if b < 127).ljust(6))
    for code in ('""""""', "\\" * 6, '\\"\\"\\"', '"    "', "a\\u00b", "      "):
        yield quote(pair("1.2500", 3), code=code)


def price_tables():
    """One to ten slots, closing prices, the end of a cycle, codes with marks, and the longest object that there is."""
    for n in range(1, 11):
        yield prices(*[slot(f"{1101 + k}  ", total=k) for k in range(n)])
    yield prices(slot(time=None))
    yield prices(slot(), slot("1102  ", time=None), slot('1"\\3  ', ("0.0000", "99999.9999", "0.0001", "5.0500"), 99999999))
    zeros = ("0.0000",) * 4
    yield prices(slot("000000", zeros, 0, "00:00:00.000000"))
    yield prices(*[slot(f"{k:06}", time=None) for k in range(1, 10)], slot("000000", zeros, 0, None))
    yield prices(slot("      ", zeros, 0, "00:00:00.000000"), slot("      ", zeros, 0, "00:00:00.000000"))
    for time in ("23:59:59.999999", None):
        yield prices(*[slot('"\\"\\"\\', ("99999.9999",) * 4, 99999999, time)] * 10, seq=99999999)


def halts():
    """Halts open and resumed, of a stock and of the market, sent at once and in a cycle; ends of rounds."""
    for state in "CI":
        yield halt(state=state)
        yield halt(resume="11:57:00", state=state)
        yield halt("000000", "00:00:00", "23:59:59", state)
        yield halt('"\\    ', "10:05:00", None, state)
        for records in (0, 2, 10, 123456, 999999):
            yield round_end(records, state)


def many_buffers():
    """Long enough for buffers of 65,536 bytes in and out, with frames of all sizes at their ends."""
    for n in range(80):
        yield prices(*[slot(f"{1101 + k}  ", total=n * k) for k in range(n % 10 + 1)])
        yield quote(pair("100.0000", n), ladder(n % 6)[::-1], ladder(n % 5, 105))
        yield b"~" * (17 * n % 701), None
        yield halt(halted=f"10:{n % 60:02}:00", resume=f"11:00:{n % 60:02}" if n % 3 else None)
        yield notice("00", b"~" * (n % 61))


def between():
    """Noise, and a frame for each answer that refuses one, over and over."""
    refused = [data for case in refusals.CASES for answer, data, _, _ in case() if answer != 0]
    damaged = frames.frame("05", b"\x09", check=0xEE), frames.frame("05", b"\x09", end=b"\x0d\x0d")
    noises = [b"{}\n", packed("1B00131B"), *damaged, b""]
    for n in itertools.count():
        yield refused[n % len(refused)] if n % 2 else noises[n // 2 % len(noises)]


def cut_at_the_end():
    """A frame found inside another that the line's end cuts, which has no object."""
    yield packed("1B1024") + b"o" * 20, None
    yield notice("00", b"found all the same")
    yield quote(pair("100.0000", 1))
    data, _ = prices(slot())
    yield data[:-1], None


NOISY = [notices, quotes_by_reveal, trades_alone, quotes_at_their_ends, price_tables, halts]


def the_line():
    """The whole line, and the objects that its parts are made for."""
    line, made, others = b"AB", [], between()
    for case in NOISY + [many_buffers, cut_at_the_end]:
        for data, told in case():
            if told is not None:
                made.append(dict(at=len(line), **told))
            line += data
            if case in NOISY:
                line += next(others)
    return line, made


# ---------------------------------------------------------------------------------------------------------------------
# The objects once more, from the messages of the reference reader.

def clock(n):
    """HHMMSS."""
    return f"{n // 10000:02}:{n // 100 % 100:02}:{n % 100:02}"


def time_keys(n, nines):
    """The key time, and behind twelve nines the key that says what they mean."""
    keys = dict(time=f"{clock(n // 10 ** 6)}.{n % 10 ** 6:06}")
    if n == 999999999999:
        keys.update({"time": None, nines: True})
    return keys


def price_of(n):
    return f"{n // 10000}.{n % 10000:04}"


def pairs_of(listed):
    return [pair(price_of(p), quantity) for p, quantity in listed]


def side_of(listed):
    """The levels of a side, or None where they are not shown."""
    return None if listed is None else pairs_of(listed)


def slot_of(code, four, total, time):
    return dict(code=code.decode("ascii"), **dict(zip(FOUR, map(price_of, four))), total=total, **time_keys(time, "closing"))


def object_of(at, m):
    told = dict(at=at, format=m["format"], seq=m["seq"])
    if m["format"] == 5:
        told.update(category=f"{m['category']:02}", text=m["text"].hex())
    if m["format"] == 6:
        told.update(code=m["code"].decode("ascii"), **time_keys(m["time"], "last"), reveal=m["reveal"], limit=m["limit"],
                    status=m["status"], total=m["total"], trade=(pairs_of(m["trade"]) + [None])[0], bids=side_of(m["bids"]),
                    asks=side_of(m["asks"]))
    if m["format"] == 12:
        told.update(count=m["count"], slots=[slot_of(*fields) for fields in m["slots"][:m["count"]]])
    if m["format"] == 19:
        told.update(code=m["code"].decode("ascii"))
        if m["round_end"] is not None:
            told.update(event="round-end", records=m["round_end"])
        else:
            told.update(event="halt", halted=clock(m["halted"]), resume=None if m["resumed"] == 999999 else clock(m["resumed"]))
        told.update(state=m["state"].decode("ascii"))
    return told


def objects(moves):
    return [object_of(at, message) for at, answer, _, message in moves if answer == 0]


def printed(found):
    """The objects as the program prints them."""
    return "".join(json.dumps(told, separators=(",", ":")) + "\n" for told in found)


def main():
    line, meant = the_line()
    moves = list(reader.walk(line))
    found = objects(moves)
    for one, other in itertools.zip_longest(meant, found):
        assert one == other, f"made for {one}, and the reading says {other}"
    text = printed(found)

    # What is written is JSON, a whole object a line, with the keys in their order.
    lines = text.split("\n")
    assert lines.pop() == ""
    for shown, told in itertools.zip_longest(lines, meant):
        assert len(shown) < SPARE
        again = json.loads(shown)
        assert again == told and json.dumps(again) == json.dumps(told), shown
    for meaning in ('"time":null,"last":true,"reveal":', '"time":null,"closing":true}', '"trade":null,"bids":null,"asks":null}',
                    '},"bids":null,"asks":null}', '"trade":null,"bids":[],"asks":[]}', '},"bids":[],"asks":[]}'):
        assert text.count(meaning) > 1, f"no object has {meaning}"
    assert {answer for _, answer, _, _ in moves} == set(range(14)), "every answer has to occur"
    assert min(len(line), len(text)) > 65536

    stored.keep_program("messages", line, text.encode("ascii"))
    print(f"{len(line)} bytes, {len(found)} objects; the longest takes {max(map(len, lines))} bytes, all of them {len(text)}")


if __name__ == "__main__":
    main()
