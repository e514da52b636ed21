#!/usr/bin/env python3
"""Makes tests/library/quotes and board, what examples/quotes.c and examples/board.c have to print of samples/capture.

The frames are found and read by the reference reader (tests/reference); nothing is taken from the library.

make.py               writes the files
make.py --check       compares instead, and exits 1 on a difference
make.py quotes FILE   prints the quotes of any file
make.py board FILE    prints its board
make.py many          writes a line of more stocks than a board has rows
"""

import pathlib
import sys

sys.path.append(str(pathlib.Path(__file__).resolve().parents[1]))
from reference import frames, reader, stored

FOLDER = stored.ROOT / "tests" / "library"
SAMPLE = stored.ROOT / "samples" / "capture"
ROWS = 256
MANY = 300


def shown(price, quantity):
    return f"{price // 10000}.{price % 10000:04} x {quantity}"


def best(pairs):
    return shown(*pairs[0]) if pairs else "none"


def named(trade, bids, asks):
    return f"trade {best(trade)} bid {best(bids)} ask {best(asks)}\n"


def accepted(line):
    messages = (message for _, answer, _, message in reader.walk(line) if answer == 0)
    return [m for m in messages if m["format"] == 6]


def shows_levels(message):
    """Bit 0 of the reveal byte is clear: a side with no level is an empty one."""
    return message["reveal"] & 1 == 0


def quoted(m):
    return named(m["trade"], m["bids"], m["asks"]) if shows_levels(m) else f"trade {best(m['trade'])} levels not shown\n"


def quotes(line):
    return "".join(f"{m['code'].decode('ascii')} {m['seq']} " + quoted(m) for m in accepted(line))


def board(line):
    """Each stock's last quote, in the order in which the stocks came, with the last trade that any quote of it had, and the sides
    of its last quote that showed its levels."""
    rows = {}
    for m in accepted(line):
        code = m["code"]
        if code != b"000000" and (code in rows or len(rows) < ROWS):
            trade, bids, asks = rows.get(code, ([], [], []))
            if shows_levels(m):
                bids, asks = m["bids"], m["asks"]
            rows[code] = m["trade"] or trade, bids, asks
    return "".join(f"{code.decode('ascii')} " + named(*row) for code, row in rows.items())


def many():
    """Each stock comes twice, with any two of these reveal bytes. Rows keep the first quote's trade, its sides, both or neither."""
    first, second = [0xDA, 0x00, 0x80, 0x24, 0x12, 0x81, 0x01], [0x00, 0x80, 0x24, 0x81, 0x01]
    codes = [f"S{i:03}  ".encode("ascii") for i in range(MANY)]
    bodies = [frames.quote(first[i % len(first)], code=code) for i, code in enumerate(codes)]
    bodies += [frames.quote(second[i % len(second)], code=code) for i, code in enumerate(codes)]
    bodies.insert(MANY, frames.quote(0x80, code=b"000000", time=frames.NINES))
    return b"".join(frames.frame("06", body, f"{i + 1:08}") for i, body in enumerate(bodies))


PRINTED = {"quotes": quotes, "board": board}


def main():
    words = sys.argv[1:]
    if words == ["many"]:
        sys.stdout.buffer.write(many())
    elif words and words[0] in PRINTED:
        sys.stdout.write(PRINTED[words[0]](pathlib.Path(words[1]).read_bytes()))
    else:
        texts = {name: printed(SAMPLE.read_bytes()) for name, printed in PRINTED.items()}
        stored.keep({FOLDER / name: text.encode() for name, text in texts.items()})
        print(", ".join(f"{name}: {text.count(chr(10))} lines" for name, text in texts.items()))


if __name__ == "__main__":
    main()
