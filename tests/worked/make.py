#!/usr/bin/env python3
"""Makes the stored input and output of the program worked from the exchange's worked examples.

The tables hold the fields as the exchange's specification B.12.07 prints them. Each record's bytes and its expected line are
both made from those fields; no bytes are decoded here, and nothing is taken from the program's output.

make.py           writes the two files
make.py --check   compares instead, and exits 1 on a difference
"""

import pathlib
import sys

sys.path.append(str(pathlib.Path(__file__).resolve().parents[1]))
from reference import stored

# Format six, examples 1 to 4. Times and prices as the text gives them; the check byte as printed, and by the rule.
SIX = [
    dict(seq=4567, code="2330  ", time="09:04:15.061278", reveal=0xD6, limit=0x00, status=0x00, total=16423,
         trade=("99.50", 1234),
         bids=[("99.50", 250), ("99.00", 175), ("98.50", 477), ("97.50", 669), ("97.00", 125)],
         asks=[("100.00", 80), ("100.50", 675), ("101.50", 460)],
         length=113, printed=0xFC, right=0x7B),
    dict(seq=64323, code="2002  ", time="10:27:33.165041", reveal=0xD0, limit=0xA0, status=0x00, total=11921,
         trade=("13.85", 1921),
         bids=[("13.85", 540), ("13.80", 230), ("13.75", 72), ("13.70", 69), ("13.65", 81)],
         asks=[],
         length=86, printed=0x69, right=0x9C),
    dict(seq=41234, code="1504  ", time="09:50:23.271534", reveal=0x8A, limit=0x44, status=0x00, total=650,
         trade=("11.50", 17),
         bids=[],
         asks=[("11.50", 70), ("11.55", 35), ("11.60", 46), ("11.65", 28), ("11.70", 19)],
         length=86, printed=0xA5, right=0x46),
    dict(seq=8325, code="1301  ", time="09:45:19.033017", reveal=0x80, limit=0x81, status=0x00, total=1558,
         trade=("33.50", 0),
         bids=[],
         asks=[],
         length=41, printed=0xC1, right=0xB9),
]

# Example 5, which prints reveal 0xD6 beside the bits 1 101 000 0, which are D0: both.
EXAMPLE_5 = dict(seq=4567, code="2330  ", time="09:04:15.061278", reveal=0xD0, limit=0x00, status=0x00, total=16423,
                 trade=("99.50", 1234),
                 bids=[("0.0", 250), ("99.00", 175), ("98.50", 477), ("97.50", 669), ("97.00", 125)],
                 asks=[],
                 length=86, printed=0xA2, right=0xB7)
EXAMPLE_5_D6 = dict(EXAMPLE_5, reveal=0xD6, right=0xB1)

# No example sends the trade alone. By format six's page bit 0 of the reveal byte then is set: example 4 so, and example 1, whose
# levels are refused beside it. The bit is in the check byte, too.
TRADE_ONLY = dict(SIX[3], reveal=0x81, right=0xB8)
TRADE_ONLY_LEVELS = dict(SIX[0], reveal=0xD7, right=0x7A)

# Format nineteen, both tables: number, code, halted, resumed, state. Rows that the tables repeat are taken once.
NINETEEN = """
09:12:00   00000001 2330 091200 999999 I
09:12:00   00000002 2417 091200 999999 I
09:12:00   00000003 000002 999999 999999 I
09:20:00   00000001 2330 091200 999999 C
09:20:00   00000002 2417 091200 999999 C
09:20:00   00000003 000002 999999 999999 C
09:30:00   00000001 2330 091200 999999 C
09:30:00   00000002 2417 091200 999999 C
09:30:00   00000003 000002 999999 999999 C
11:20:00   00000001 2330 091200 999999 C
11:20:00   00000002 2417 091200 999999 C
11:20:00   00000003 000002 999999 999999 C
11:27:00   00000001 2330 091200 115700 I
11:27:00   00000002 000001 999999 999999 I
11:30:00   00000001 2330 091200 115700 C
11:30:00   00000002 2417 091200 999999 C
11:30:00   00000003 000002 999999 999999 C
17:00:00   00000001 2330 091200 115700 C
17:00:00   00000002 2417 091200 999999 C
17:00:00   00000003 000002 999999 999999 C

08:00:00   00000001 2330 080000 080000 I
08:00:00   00000002 2331 080000 081200 I
08:00:00   00000003 2417 080000 999999 I
08:00:00   00000004 2882 080000 999999 I
08:00:00   00000005 000004 999999 999999 I
08:10:00   00000001 2330 080000 080000 C
08:10:00   00000002 2331 080000 081200 C
08:10:00   00000003 2417 080000 999999 C
08:10:00   00000004 2882 080000 999999 C
08:10:00   00000005 000004 999999 999999 C
09:10:00   00000001 2330 080000 080000 C
09:10:00   00000002 2331 080000 081200 C
09:10:00   00000003 2417 080000 999999 C
09:10:00   00000004 2882 080000 999999 C
09:10:00   00000005 000004 999999 999999 C
09:13:00   00000001 2417 080000 094300 I
09:13:00   00000002 000001 999999 999999 I
09:20:00   00000001 2330 080000 080000 C
09:20:00   00000002 2331 080000 081200 C
09:20:00   00000003 2417 080000 094300 C
09:20:00   00000004 2882 080000 999999 C
09:20:00   00000005 000004 999999 999999 C
17:00:00   00000001 2330 080000 080000 C
17:00:00   00000002 2331 080000 081200 C
17:00:00   00000003 2417 080000 094300 C
17:00:00   00000004 2882 080000 999999 C
17:00:00   00000005 000004 999999 999999 C
"""

# Format twelve: code, opening, highest, lowest, last, total, time.
END = ("000000", "000000000", "000000000", "000000000", "000000000", "00000000", "000000000000")
SECOND = ("000145000", "000148000", "000144000", "000145000", "00003422", "999999999999")
TWELVE = [
    # Record 93 of the day's table, which ends a cycle.
    (93, [("9945", "000045000", "000048000", "000044000", "000045000", "00000042", "091010117873"), END]),
    # Record 1 after the close. The table leaves slots 03 to 08 out: they have codes of ours and slot 02's values.
    (1, [("1101", "000125000", "000128000", "000124000", "000125000", "00002208", "999999999999"),
         ("1102",) + SECOND,
         ("1103",) + SECOND, ("1104",) + SECOND, ("1105",) + SECOND,
         ("1106",) + SECOND, ("1107",) + SECOND, ("1108",) + SECOND,
         ("1109", "000095000", "000098000", "000094000", "000094000", "00001210", "999999999999"),
         ("1110", "000072200", "000073400", "000072100", "000072300", "00001148", "999999999999")]),
    # Record 93 after the close.
    (93, [("9902", "000045000", "000047000", "000044000", "000047000", "00002342", "999999999999"), END]),
]

# Format five: the 14-byte notice of docs/RULES.md, and a notice of our own.
FIVE = [(1, "09", ""), (2, "90", "Trading opens at 09:00")]
NOTICE_01 = "1B 00 14 01 05 01 00 00 00 01 09 19 0D 0A"


def packed(digits):
    """Decimal digits, two to a byte; an odd number has a zero before it."""
    return bytes.fromhex(digits.zfill((len(digits) + 1) // 2 * 2))


def xor(data):
    x = 0
    for b in data:
        x ^= b
    return x


def frame(fmt, version, seq, body, check=None):
    """The common frame around a body, with its own check byte unless another is given."""
    inner = packed(f"{len(body) + 13:04}") + packed("01" + fmt + version) + packed(f"{seq:08}") + body
    return b"\x1b" + inner + bytes([xor(inner) if check is None else check]) + b"\r\n"


def price_digits(text):
    whole, part = text.split(".")
    return whole.zfill(5) + part.ljust(4, "0")


def price_text(text):
    whole, part = text.split(".")
    return whole + "." + part.ljust(4, "0")


def digits_price(digits):
    return digits[:-4].lstrip("0").rjust(1, "0") + "." + digits[-4:]


def clock(t):
    return f"{t[:2]}:{t[2:4]}:{t[4:6]}"


def moment(t):
    return "closed" if t == "9" * 12 else clock(t) + "." + t[6:]


def six_frame(q, check):
    body = q["code"].encode() + packed(q["time"].replace(":", "").replace(".", ""))
    body += bytes([q["reveal"], q["limit"], q["status"]]) + packed(f"{q['total']:08}")
    for price, quantity in [q["trade"]] + q["bids"] + q["asks"]:
        body += packed(price_digits(price)) + packed(f"{quantity:08}")
    f = frame("06", "04", q["seq"], body, check)
    assert len(f) == q["length"] and xor(f[1:-3]) == q["right"]
    return f


def six_line(q):
    def pairs(name, listed):
        return f" {name} " + (" ".join(f"{price_text(p)}x{n}" for p, n in listed) or "-")

    line = f"six {q['seq']} [{q['code']}] {q['time']}"
    line += f" reveal {q['reveal']:02X} limit {q['limit']:02X} status {q['status']:02X} total {q['total']}"
    line += pairs("trade", [q["trade"]])
    if q["reveal"] & 1:
        return line + " levels not shown"
    return line + pairs("bids", q["bids"]) + pairs("asks", q["asks"])


def nineteen_rows():
    seen = []
    for row in NINETEEN.split("\n"):
        fields = tuple(row.split()[1:])
        if fields and fields not in seen:
            seen.append(fields)
    return seen


def nineteen_frame(row):
    seq, code, halted, resumed, state = row
    return frame("19", "01", int(seq), code.ljust(6).encode() + packed(halted) + packed(resumed) + state.encode())


def nineteen_line(row):
    seq, code, halted, resumed, state = row
    head = f"nineteen {int(seq)} [{code:6}]"
    if halted == resumed == "999999":
        return f"{head} round end {int(code)} {state}"
    if resumed == "999999":
        return f"{head} halted {clock(halted)} open {state}"
    return f"{head} halted {clock(halted)} resumed {clock(resumed)} {state}"


def twelve_frame(seq, slots):
    unused = ("", "0" * 9, "0" * 9, "0" * 9, "0" * 9, "0" * 8, "0" * 12)
    body = packed(f"{len(slots):02}")
    for code, *numbers in slots + [unused] * (10 - len(slots)):
        body += code.ljust(6).encode() + b"".join(packed(n) for n in numbers)
    f = frame("12", "03", seq, body)
    assert len(f) == 374
    return f


def twelve_line(seq, slots):
    def slot(s):
        code, *prices, total, time = s
        return f"[{code:6}] {' '.join(digits_price(p) for p in prices)} {int(total)} {moment(time)}"

    return f"twelve {seq} count {len(slots)}: " + "; ".join(slot(s) for s in slots)


def records():
    """Every record: its bytes and its line."""
    for q in SIX:
        yield six_frame(q, q["printed"]), "answer 5"
        yield six_frame(q, None), six_line(q)
    yield six_frame(EXAMPLE_5_D6, EXAMPLE_5_D6["printed"]), "answer 5"
    yield six_frame(EXAMPLE_5, None), six_line(EXAMPLE_5)
    yield six_frame(EXAMPLE_5_D6, None), "answer 9 length 86"
    yield six_frame(TRADE_ONLY, None), six_line(TRADE_ONLY)
    yield six_frame(TRADE_ONLY_LEVELS, None), "answer 10 length 113"
    for row in nineteen_rows():
        yield nineteen_frame(row), nineteen_line(row)
    for seq, slots in TWELVE:
        yield twelve_frame(seq, slots), twelve_line(seq, slots)
    for seq, category, text in FIVE:
        yield frame("05", "01", seq, packed(category) + text.encode()), f"five {seq} category {category} [{text}]"


def main():
    made = list(records())
    assert bytes.fromhex(NOTICE_01) in [f for f, _ in made]
    given = b"".join(len(f).to_bytes(2, "big") + f for f, _ in made)
    stored.keep_program("worked", given, b"".join(line.encode() + b"\n" for _, line in made))


if __name__ == "__main__":
    main()
