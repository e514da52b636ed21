#!/usr/bin/env python3
"""Makes the stored input of the program board, a noisy closed line, and its output, the board behind it, as JSON.

The line is put together from cases, one function each, in the order in which they stand in the file. A case gives parts: some
bytes, what they do, and a row's object. What they do is the place of the row that they change, to that object; LAST for the
day's last frame; REFUSED where no row is left for the stock; or None where no frame of format six is accepted. Objects are
stated from the fields that went into the frame, and by the case the last trade, and the sides where a quote shows none. The
board is made a second way: the reference reader (tests/reference) finds the messages, and a plain list keeps the rows. Both ways
have to agree message for message. The text is the standard library's JSON, read back before anything is written. Nothing is
taken from the program's output.

make.py           writes the two files
make.py --check   compares instead, and exits 1 on a difference
"""

import itertools
import json
import pathlib
import sys

sys.path.append(str(pathlib.Path(__file__).resolve().parents[1]))
from messages import make as messages
from messages.make import SPARE, ladder, pair
from reference import frames, reader, refusals, stored

ROWS = 256
REST = range(108, ROWS)  # the places that only the cases full and much use
LAST, REFUSED = "the day's last", "refused with 52"
KEYS = "code", "time", "limit", "status", "total", "trade", "bids", "asks"

# ---------------------------------------------------------------------------------------------------------------------
# Parts of the line, and what they are made for.


def row(place, last, **fields):
    """A quote that changes the row at a place, which then shows this last trade."""
    data, told = messages.quote(**fields)
    return data, place, dict({key: told[key] for key in KEYS}, trade=last)


def traded(place, trade, **fields):
    """The same of a quote with a trade, which is the last then."""
    return row(place, trade, trade=trade, **fields)


def alone(place, last, bids=(), asks=(), **fields):
    """A quote that shows no levels and changes the row at a place, which then shows this last trade, and keeps these sides."""
    data, does, shown = row(place, last, bids=None, asks=None, **fields)
    return data, does, dict(shown, bids=list(bids), asks=list(asks))


def traded_alone(place, trade, bids=(), asks=(), **fields):
    """The same of a quote with a trade."""
    return alone(place, trade, bids, asks, trade=trade, **fields)


def rowless(**fields):
    return messages.quote(**fields)[0], REFUSED, None


def last_of_day(**fields):
    return messages.quote(code="000000", time=None, **fields)[0], LAST, None


def others(code):
    """Frames of the other formats, of a stock."""
    yield messages.prices(messages.slot(code))
    yield messages.halt(code)
    yield messages.notice("00", code.encode())


def no_message(data):
    return data, None, None


BIDS, ASKS = ladder(5)[::-1], ladder(5, 105)
TRADE = pair("100.0000", 1)

# ---------------------------------------------------------------------------------------------------------------------
# The cases, in the order in which they stand in the line.


def in_order_of_coming():
    """Rows stand in the order in which their stocks first came, whatever their codes, times and numbers."""
    yield row(0, None, code="2330  ", time="09:00:03.000000", seq=30)
    yield traded(1, pair("42.5000", 80), code="1101  ", time="09:00:02.000000", bids=BIDS[:2], asks=ASKS[:1], seq=20)
    yield row(2, None, code="0050  ", time="09:00:01.000000", seq=10)
    yield row(3, None, code="910322", bids=BIDS[:1])
    yield traded(0, pair("598.0000", 49), code="2330  ", bids=BIDS, asks=ASKS)
    yield row(2, None, code="0050  ", asks=ASKS[:3], limit=1, status=0, total=7)


def last_trades():
    """The last that was sent stays over quotes without one; one of price 0 and quantity 0 is a trade, too."""
    yield row(4, None, code="2317  ", bids=BIDS, asks=ASKS)
    yield row(4, None, code="2317  ")
    yield traded(4, pair("104.5000", 3), code="2317  ")
    yield row(4, pair("104.5000", 3), code="2317  ", bids=BIDS, asks=ASKS)
    yield row(4, pair("104.5000", 3), code="2317  ", asks=ASKS[:2])
    yield traded(4, pair("105.0000", 99999999), code="2317  ", bids=BIDS[:4])
    yield traded(5, pair("77.7000", 7), code="2454  ")
    yield row(4, pair("105.0000", 99999999), code="2317  ", bids=BIDS[:1], total=0)
    yield traded(5, pair("0.0000", 0), code="2454  ", bids=BIDS, asks=ASKS)
    yield row(5, pair("0.0000", 0), code="2454  ", bids=BIDS, asks=ASKS[:1])
    yield traded(6, pair("0.0000", 0), code="1216  ")
    yield row(7, None, code="1301  ", bids=[pair("0.0000", 0)], asks=[pair("0.0000", 0)] * 5)


def sides():
    """A side is the last quote's alone: shorter than before, or empty. Then a stock for each number of levels on each side."""
    yield traded(8, TRADE, code="2881  ", bids=BIDS, asks=ASKS)
    yield row(8, TRADE, code="2881  ", bids=BIDS[:2], asks=ASKS[:4])
    yield row(8, TRADE, code="2881  ", asks=ASKS)
    yield row(8, TRADE, code="2881  ", bids=ASKS[:3])
    yield row(8, TRADE, code="2881  ")
    for place, (bids, asks) in enumerate(itertools.product(range(6), range(6)), 9):
        code = f"S{bids}{asks}   "
        yield row(place, None, code=code, bids=ASKS[:5 - asks], asks=BIDS[:5 - bids])
        yield traded(place, pair("1.0000", place), code=code, bids=BIDS[:5 - bids], asks=ASKS[:5 - asks])
        yield row(place, pair("1.0000", place), code=code, bids=BIDS[:bids], asks=ASKS[:asks])


def late_ones():
    """The order on the line counts: an earlier time, a lower number and the same quote again overwrite."""
    yield traded(45, TRADE, code="3008  ", time="13:30:00.000000", seq=900, total=50, bids=BIDS)
    yield row(45, TRADE, code="3008  ", time="09:00:00.000000", seq=800, total=10, asks=ASKS)
    yield traded(45, pair("99.0000", 2), code="3008  ", time="08:59:59.999999", seq=900, total=9)
    yield traded(45, pair("99.0000", 2), code="3008  ", time="08:59:59.999999", seq=900, total=9)
    yield row(45, pair("99.0000", 2), code="3008  ", time="00:00:00.000000", seq=1, total=8)


def at_their_ends():
    """Times, prices, quantities and bytes of flags at their ends, a stock for each."""
    place = itertools.count(46)
    for time in ("00:00:00.000000", "23:59:59.999999", "09:00:00.000001", "10:20:30.405060", "01:02:03.040506"):
        yield row(next(place), None, code=f"T{time[-5:]}", time=time)
    for shown in ("0.0001", "0.0100", "1.0000", "9.9999", "10.0001", "12345.6789", "99999.9999"):
        yield traded(next(place), pair(shown, 0), code=shown[:6], bids=[pair(shown, 99999999)], asks=[pair(shown, 10)])
    for byte in (1, 27, 34, 92, 99, 100, 127, 128, 255):
        yield row(next(place), None, code=f"B{byte}".ljust(6), limit=byte, status=255 - byte, total=10 ** (byte % 8))
    yield row(next(place), None, code="TOTAL ", total=99999999)


def codes():
    """Codes of all bytes, of marks, of spaces alone, and codes that are nearly another's."""
    place = itertools.count(68)
    for first in range(32, 127, 5):
        yield row(next(place), None, code="".join(chr(b) for b in range(first, first + 6) if b < 127).ljust(6))
    for code in ('""""""', "\\" * 6, '\\"\\"\\"', '"    "', "a\\u00b", "      "):
        yield traded(next(place), pair("1.2500", 3), code=code, asks=ASKS[:2])
    for code in ("00000 ", " 00000", "000001", "100000", " 2330 ", "2330 0", "02330 ", "330   ", "s00   "):
        yield row(next(place), None, code=code)


def trades_alone():
    """Levels that are not shown: the row keeps its sides, and a row that was never shown any has none. Time, limit, status, total
    and the trade are the frame's. Levels that come behind them are the row's; refused ones beside the trade are not."""
    # A burst on a row with levels, in two parts; then levels, none, and trades alone that keep none.
    yield traded(102, pair("100.0000", 1), code="BURST ", bids=BIDS, asks=ASKS, time="09:00:00.000000", total=1)
    for k in range(2, 6):
        yield traded_alone(102, pair(f"100.{k:04}", k), BIDS, ASKS, code="BURST ", time=f"09:00:00.00000{k}", limit=k, total=k)
    yield alone(102, pair("100.0005", 5), BIDS, ASKS, code="BURST ", time="09:00:00.000007", status=0)
    yield traded(102, pair("100.0006", 6), code="BURST ", bids=BIDS[:2], asks=ASKS[:3], total=6)
    yield traded_alone(102, pair("0.0000", 0), BIDS[:2], ASKS[:3], code="BURST ", total=7)
    yield row(102, pair("0.0000", 0), code="BURST ", asks=ASKS[:1])
    yield traded_alone(102, pair("1.0000", 8), asks=ASKS[:1], code="BURST ", time="08:00:00.000000", total=0)  # late
    # Left with kept sides; with sides that were shown empty; never shown; shown at last; refused behind levels.
    yield row(103, None, code="KEPT  ", bids=BIDS, asks=ASKS[:4])
    yield alone(103, None, BIDS, ASKS[:4], code="KEPT  ", limit=255, status=255, total=99999999)
    yield traded(104, TRADE, code="SHOWN0", bids=BIDS, asks=ASKS)
    yield row(104, TRADE, code="SHOWN0")
    yield traded_alone(104, pair("2.0000", 2), code="SHOWN0")
    yield traded_alone(105, pair("3.0000", 3), code="NEVER ")
    yield alone(105, pair("3.0000", 3), code="NEVER ", time="09:30:00.000000")
    yield alone(106, None, code="ATLAST", total=0)
    yield traded_alone(106, pair("4.0000", 4), code="ATLAST")
    yield row(106, pair("4.0000", 4), code="ATLAST", bids=BIDS[:1], asks=ASKS[:2])
    yield row(107, None, code="LEVELS", bids=BIDS[:3], asks=ASKS)
    for reveal, listed in ((0xA3, 4), (0xA3, 1), (0x11, 1), (0x03, 0), (0xDB, 11)):
        yield no_message(frames.frame("06", frames.quote(reveal, frames.levels(listed), b"LEVELS")))
        yield no_message(frames.frame("06", frames.quote(reveal, frames.levels(listed), b"NO ROW")))


def no_messages():
    """Other formats, refused and damaged frames of stocks that have a row, and the day's last frame."""
    for code in ("2330  ", "1101  ", "9999  "):
        yield from map(no_message, (data for data, _ in others(code)))
    yield last_of_day(status=0, total=0)
    yield last_of_day(trade=TRADE, bids=BIDS, asks=ASKS)
    yield last_of_day(trade=TRADE, bids=None, asks=None)
    for case in refusals.CASES:
        yield from (no_message(data) for _, data, _, _ in case())
    for code in (b"2330  ", b"9999  "):
        good = frames.frame("06", frames.quote(0xDA, code=code))
        yield no_message(good[:-1])
        yield no_message(good[1:])
        yield no_message(frames.patched(good, len(good) - 3, good[-3] ^ 1))  # 5
        yield no_message(frames.patched(good, len(good) - 1, 0x0B))  # 4
    yield no_message(b"~" * 3000)


def full():
    """A row for each of 256 stocks, and no row for the next; the others still change."""
    for place in REST:
        yield row(place, None, code=f"F{place:03}  ", total=place)
    for k in range(40):
        yield rowless(code=f"N{k:03}  ", trade=TRADE)
    yield rowless(code="n000  ")
    yield rowless(code="N000  ", trade=TRADE, bids=None, asks=None)
    yield rowless(code="N001  ", bids=None, asks=None)
    yield traded(255, pair("2.5500", 255), code="F255  ", bids=BIDS)
    yield rowless(code="N000  ", bids=BIDS, asks=ASKS)
    yield traded_alone(255, pair("2.5600", 1), BIDS, code="F255  ")
    yield row(108, None, code="F108  ", asks=ASKS)
    yield row(0, pair("598.0000", 49), code="2330  ", time="13:30:00.000000")
    yield last_of_day()
    yield rowless(code="N001  ")


def much():
    """All rows from one place on change over and over, with as much to print as there is; so buffers of 65,536 bytes fill."""
    most = [pair("99999.9999", 99999999)] * 5
    for turn in range(4):
        for place in reversed(REST):
            yield traded(place, pair("99999.9999", turn), code=f"F{place:03}  ", bids=most, asks=most, limit=255, status=255)
        yield no_message(b"~" * 701)
        yield rowless(code=f"M{turn:03}  ")
        yield last_of_day(trade=TRADE)
    for place in REST[::2]:
        yield row(place, pair("99999.9999", 3), code=f"F{place:03}  ", bids=BIDS, asks=most, total=place)
    for place in REST[::40]:
        yield traded_alone(place, pair("0.0001", place), BIDS, most, code=f"F{place:03}  ")
        yield alone(place + 1, pair("99999.9999", 3), most, most, code=f"F{place + 1:03}  ")


def cut_at_the_end():
    """A quote inside a frame that the line's end cuts changes its row; one that is cut does not."""
    yield no_message(frames.packed("1B1024") + b"o" * 20)
    yield traded(1, pair("43.0000", 33), code="1101  ")
    yield no_message(messages.quote(code="2330  ", trade=TRADE)[0][:-1])


NOISY = [in_order_of_coming, last_trades, sides, late_ones, at_their_ends, codes, trades_alone]
CASES = NOISY + [no_messages, full, much, cut_at_the_end]


def the_line():
    """The whole line, and for each message of format six where it stands, what it does and the row's object."""
    line, made, noises = b"AB", [], messages.between()
    for case in CASES:
        for data, does, shown in case():
            if does is not None:
                made.append((len(line), does, shown))
            line += data
            if case in NOISY:
                line += next(noises)
    return line, made


# ---------------------------------------------------------------------------------------------------------------------
# The same once more, from the messages of the reference reader.


def taken(moves):
    """What each message of format six does to a board that was clear before the first."""
    rows = []
    for at, answer, _, message in moves:
        if answer != 0 or message["format"] != 6:
            continue
        told = messages.object_of(at, message)
        place = next((i for i, old in enumerate(rows) if old["code"] == told["code"]), len(rows))
        if message["code"] == b"000000":
            yield at, LAST, None
        elif place == ROWS:
            yield at, REFUSED, None
        else:
            old = rows[place] if place < len(rows) else dict(trade=None, bids=[], asks=[])
            kept = [] if told["trade"] else ["trade"]
            kept += ["bids", "asks"] if told["bids"] is None else []
            rows[place:place + 1] = [{key: old[key] if key in kept else told[key] for key in KEYS}]
            yield at, place, rows[place]


def objects(made):
    """The rows that messages leave, and behind them how many were refused."""
    rows = {}
    for _, does, shown in made:
        if shown is not None:
            rows[does] = shown
    refused = sum(does == REFUSED for _, does, _ in made)
    return [rows[place] for place in range(len(rows))] + [dict(refused=52, count=refused)] * (refused > 0)


def printed(moves):
    """What the program prints of a line."""
    return messages.printed(objects(list(taken(moves))))


def main():
    line, meant = the_line()
    found = list(taken(reader.walk(line)))
    for one, other in itertools.zip_longest(meant, found):
        assert one == other, f"made for {one}, and the reading says {other}"
    text = printed(reader.walk(line))

    # What is written is JSON, a whole object a line, with the keys in their order.
    lines = text.split("\n")
    assert lines.pop() == ""
    for shown, told in itertools.zip_longest(lines, objects(meant)):
        assert len(shown) < SPARE
        again = json.loads(shown)
        assert again == told and json.dumps(again) == json.dumps(told), shown
    assert len(lines) == ROWS + 1
    assert min(len(line), len(text)) > 65536

    stored.keep_program("board", line, text.encode("ascii"))
    counts = [sum(does == wanted for _, does, _ in meant) for wanted in (LAST, REFUSED)]
    print(f"{len(line)} bytes, {len(meant)} messages, {counts[0]} of them the day's last, {counts[1]} refused; the longest row"
          f" takes {max(map(len, lines))} bytes, all of them {len(text)}")


if __name__ == "__main__":
    main()
