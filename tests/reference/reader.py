"""The reference reader: the rules of docs/RULES.md and the exchanges' specifications once more, in plain Python.

It shares nothing with the crates, nor with the second program. What a maker stores as a program's expected output is made with
it, beside what each part of the line was made for, and both have to agree.
"""

# ---------------------------------------------------------------------------------------------------------------------
# The reading of the stock exchange's frames: the rows of "What a reading answers" in their order. An answer is (number, length, message); the length is
# None for 1 to 5, and the message is None unless the number is 0.

ESC = 27
FORMATS = {  # format: version, least length, greatest length
    5: (1, 14, 74),
    6: (4, 32, 131),
    12: (3, 374, 374),
    19: (1, 26, 26),
}


def digits(data):
    """The number that packed digits say, or None if a half is above 9."""
    text = data.hex()
    return int(text) if text.isdecimal() else None


def price(data):
    """A price has nine digits in five bytes; the first half has to be 0."""
    return None if data[0] >= 0x10 else digits(data)


def xor(data):
    x = 0
    for b in data:
        x ^= b
    return x


def time_of_day(time, fraction):
    """Whether a number HHMMSS, with so many digits of fraction behind it, is a time of day."""
    clock = time // 10 ** fraction
    return clock // 10000 <= 23 and clock // 100 % 100 <= 59 and clock % 100 <= 59


def printable(code):
    return all(32 <= b <= 126 for b in code)


def read(data):
    """What a reading says of the bytes from a place on."""
    if len(data) == 0:
        return 2, None, None
    if data[0] != ESC:
        return 1, None, None
    if len(data) < 3:
        return 2, None, None
    length = digits(data[1:3])
    if length is None or not 14 <= length <= 1024:
        return 3, None, None
    if len(data) < length:
        return 2, None, None
    if data[length - 2:length] != b"\x0d\x0a":
        return 4, None, None
    if data[length - 3] != xor(data[1:length - 3]):
        return 5, None, None
    answer, message = read_whole(data[:length])
    return answer, length, message


def read_whole(whole):
    """Rows 6 to 13, for a frame whose outline is whole."""
    if digits(whole[3:10]) is None:
        return 6, None
    business, form, version, seq = (digits(whole[a:b]) for a, b in ((3, 4), (4, 5), (5, 6), (6, 10)))
    if business != 1 or form not in FORMATS:
        return 7, None
    right_version, least, greatest = FORMATS[form]
    if version != right_version:
        return 8, None
    if not least <= len(whole) <= greatest:
        return 9, None
    body = whole[10:-3]
    answer, fields = {5: read_five, 6: read_six, 12: read_twelve, 19: read_nineteen}[form](body)
    if answer != 0:
        return answer, None
    return 0, dict(format=form, seq=seq, **fields)


def read_five(body):
    category = digits(body[:1])
    if category is None:
        return 11, None
    if category not in (0, 9, 90, 99):
        return 13, None
    return 0, dict(category=category, text=body[1:])


def read_six(body):
    code, reveal, limit, status = body[:6], body[12], body[13], body[14]
    trade, bids, asks, trade_only = reveal >> 7, reveal >> 4 & 7, reveal >> 1 & 7, reveal & 1
    if bids > 5 or asks > 5:
        return 10, None
    if trade_only and bids + asks > 0:
        return 10, None
    if len(body) != 19 + 9 * (trade + bids + asks):
        return 9, None
    time, total = digits(body[6:12]), digits(body[15:19])
    pairs = [(price(body[i:i + 5]), digits(body[i + 5:i + 9])) for i in range(19, len(body), 9)]
    if None in (time, total) or any(None in pair for pair in pairs):
        return 11, None
    nines = time == 999999999999
    if nines != (code == b"000000") or not nines and not time_of_day(time, 6):
        return 12, None
    if not printable(code):
        return 13, None
    # sides that are not shown are None, and sides without a level are empty
    sides = (None, None) if trade_only else (pairs[trade:trade + bids], pairs[trade + bids:])
    return 0, dict(code=code, time=time, reveal=reveal, limit=limit, status=status, total=total, trade=pairs[:trade],
                   bids=sides[0], asks=sides[1])


def read_twelve(body):
    count = digits(body[:1])
    raw = [body[1 + 36 * i:37 + 36 * i] for i in range(10)]
    codes = [s[:6] for s in raw]
    prices = [[price(s[k:k + 5]) for k in (6, 11, 16, 21)] for s in raw]
    totals = [digits(s[26:30]) for s in raw]
    times = [digits(s[30:36]) for s in raw]
    if count is None or None in totals or None in times or any(None in p for p in prices):
        return 11, None
    for i in range(10):
        closing = i < count and times[i] == 999999999999
        if not closing and not time_of_day(times[i], 6):
            return 12, None
    if not 1 <= count <= 10:
        return 13, None
    if not all(printable(code) for code in codes[:count]):
        return 13, None
    if any(s != b"      " + bytes(30) for s in raw[count:]):
        return 13, None
    return 0, dict(count=count, slots=list(zip(codes, prices, totals, times)))


def read_nineteen(body):
    code, halted, resumed, state = body[:6], digits(body[6:9]), digits(body[9:12]), body[12:]
    if None in (halted, resumed):
        return 11, None
    round_end = halted == resumed == 999999
    if not round_end:
        if not time_of_day(halted, 0):
            return 12, None
        if resumed != 999999 and not time_of_day(resumed, 0):
            return 12, None
    if state not in (b"C", b"I"):
        return 13, None
    if round_end and not all(48 <= b <= 57 for b in code):
        return 13, None
    if not printable(code):
        return 13, None
    return 0, dict(code=code, halted=halted, resumed=resumed, state=state, round_end=int(code) if round_end else None)


# ---------------------------------------------------------------------------------------------------------------------
# The place of a bad digit: a frame's halves are the letters of its hex text, laid under a picture of the frame. In a picture 9
# stands for a digit, 0 for the half that a price begins with, which has to be 0, and x for a half that is no digit.

TIME, SHORT_TIME, PRICE, QUANTITY, CODE = "9" * 12, "9" * 6, "0" + "9" * 9, "9" * 8, "x" * 12
HEAD = "xx" + "9999"
HEADER = "x" * 6 + "99" + "99" + "99" + "9" * 8


def picture(whole):
    """The picture of a frame up to its body's end, the bytes before the body aside."""
    form, reveal = digits(whole[4:5]), whole[22:23]
    pairs = sum(reveal[0] >> shift & mask for shift, mask in ((7, 1), (4, 7), (1, 7))) if form == 6 else 0
    body = {
        5: "99",
        6: CODE + TIME + "xxxxxx" + QUANTITY + (PRICE + QUANTITY) * pairs,
        12: "99" + (CODE + PRICE * 4 + QUANTITY + TIME) * 10,
        19: CODE + SHORT_TIME * 2,
    }
    return "x" * 20 + body[form]


def place(data):
    """Where the first bad digit is that a reading answers 3, 6 or 11 for, in halves from the first byte; None if there is none."""
    answer, length, _ = read(data)
    if answer not in (3, 6, 11):
        return None
    return first_bad({3: HEAD, 6: HEADER}.get(answer) or picture(data[:length]), data)


def first_bad(shown, data):
    """The first half that is not what a picture has there, or None."""
    for at, (wanted, half) in enumerate(zip(shown, data.hex())):
        if wanted == "9" and half in "abcdef" or wanted == "0" and half != "0":
            return at
    return None


# ---------------------------------------------------------------------------------------------------------------------
# The derivatives exchange, as it was in 2015: index values, I060 and I064. The same answers in the same order; 10 is none of them.

KINDS = {b"5": ("I060", 2, 1), b"8": ("I064", 1, 3)}  # kind: name, version, how many bits of the status are free


def read_2015(data):
    """What a reading says of the bytes from a place on a line of this exchange."""
    if len(data) == 0:
        return 2, None, None
    if data[0] != ESC:
        return 1, None, None
    if len(data) < 14:
        return 2, None, None
    body = digits(data[12:14])
    if body is None or body + 17 > 1024:
        return 3, None, None
    length = body + 17
    if len(data) < length:
        return 2, None, None
    if data[length - 2:length] != b"\x0d\x0a":
        return 4, None, None
    if data[length - 3] != xor(data[1:length - 3]):
        return 5, None, None
    answer, message = read_index(data[:length])
    return answer, length, message


def read_index(whole):
    """Rows 6 to 13, for a frame whose outline is whole."""
    if digits(whole[3:12]) is None:
        return 6, None
    market, kind, body = whole[1:2], whole[2:3], whole[14:-3]
    if market not in (b"1", b"4") or kind not in KINDS:
        return 7, None
    name, version, free = KINDS[kind]
    if digits(whole[11:12]) != version:
        return 8, None
    if len(body) not in (12, 17):
        return 9, None
    contract, time, value, status = body[:-9], digits(body[-9:-5]), digits(body[-5:-1]), body[-1]
    if None in (time, value):
        return 11, None
    sent = digits(whole[3:7])
    if not time_of_day(sent, 2) or not time_of_day(time, 2):
        return 12, None
    if not printable(contract) or status >> free:
        return 13, None
    return 0, dict(format=name, seq=digits(whole[7:11]), market=market, sent=sent, contract=contract, time=time, value=value,
                   status=status)


def place_2015(data):
    """Where the first bad digit is, as `place` says it of the other exchange."""
    answer, length, _ = read_2015(data)
    if answer not in (3, 6, 11):
        return None
    return first_bad({3: "xx" * 12 + "9999", 6: "xxxxxx" + "9" * 18}.get(answer) or "xx" * (length - 12) + "9" * 16, data)


# ---------------------------------------------------------------------------------------------------------------------
# The walk of a closed line.

def walk(line, reading=read):
    """Every move over a closed line by an exchange's reading: place, answer, bytes, message."""
    at = 0
    while at < len(line):
        answer, length, message = reading(line[at:at + 1024])  # no frame is longer
        step = 1 if length is None else length
        yield at, answer, step, message
        at += step
