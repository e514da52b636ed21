"""Frames to refuse, by the answers 6 to 13: each has a whole outline and is made for one answer. One is good, the near side of
a rule. Behind them stand frames with a bad digit in each half of each packed field, and the place of it.
"""

from .frames import NINES, UNUSED, good, halt, levels, notice, packed, patched, quote, refused, shown, slot, table


def refused_6():
    """A bad digit in each half of bytes 4 to 10, also before another business and format."""
    for half in range(14):
        header = list("01" "05" "01" "00000001")
        header[half] = "A" if half % 2 else "F"
        header = "".join(header)
        yield refused(6, header[2:4], notice("09"), business=header[:2], version=header[4:6], seq=header[6:])
    yield refused(6, "99", notice("0A"), business="99", seq="0000000B")


def refused_7():
    """Another business, or another format; before the version and the length."""
    for business in ("00", "02", "10", "99"):
        yield refused(7, "05", notice("09"), business=business)
    for form in ("00", "01", "04", "07", "11", "13", "17", "18", "20", "50", "99"):
        yield refused(7, form, notice("09"))
    yield refused(7, "23", quote(0xFE, b""), version="99")


def refused_8():
    """Another version; before the length."""
    yield refused(8, "05", notice("09"), version="00")
    yield refused(8, "05", notice("09"), version="02")
    yield refused(8, "06", quote(0xA2), version="03")
    yield refused(8, "06", quote(0xA2), version="05")
    yield refused(8, "12", table(slot()), version="02")
    yield refused(8, "12", table(slot()), version="30")
    yield refused(8, "19", halt(), version="02")
    yield refused(8, "19", halt(), version="10")
    yield refused(8, "19", halt() + b"x", version="04")


def refused_9_range():
    """A length outside the format's range; before the reveal byte and the digits."""
    yield refused(9, "05", notice("00", b"j" * 61))
    yield refused(9, "05", notice("0A", b"j" * 200))
    yield refused(9, "06", b"k")
    yield refused(9, "06", quote()[:-1])  # 31 bytes
    yield refused(9, "06", quote(0xDA) + b"k")  # 132 bytes
    yield refused(9, "06", quote(0x60, b"")[:-1])
    yield refused(9, "06", quote(0x60, levels(11)) + b"k")
    yield refused(9, "06", quote(0xEE, levels(13)))
    yield refused(9, "06", quote(0xA3, b"")[:-1])
    yield refused(9, "06", quote(0xDB) + b"k")
    yield refused(9, "12", packed("01"))
    yield refused(9, "12", table(slot())[:-1])  # 373 bytes
    yield refused(9, "12", table(slot()) + b"\x00")  # 375 bytes
    yield refused(9, "19", halt()[:-1])  # 25 bytes
    yield refused(9, "19", halt() + b"I")  # 27 bytes
    yield refused(9, "19", b"l")


def refused_10():
    """Six or seven levels on a side, or levels where only the trade is sent; before the length that they would call for, and
    before the digits."""
    for reveal in (0x60, 0x70, 0x0C, 0x0E, 0x66, 0xEE, 0xFF, 0x5C, 0xE2):
        yield refused(10, "06", quote(reveal, levels(min(shown(reveal), 11))))
    yield refused(10, "06", quote(0x60, b""))
    yield refused(10, "06", quote(0x0E, b"m"))
    yield refused(10, "06", quote(0x70, levels(7), b"\x00" * 6, "AAAAAAAAAAAA", total="BBBBBBBB"))
    # Bit 0 with a level on one side or on both, with the trade and without, with the length that it would call for.
    for reveal in (0x11, 0x03, 0x13, 0x5B, 0x91, 0x83, 0xA3, 0xDB):
        yield refused(10, "06", quote(reveal))
    # With the length of the trade alone, of no pair, of all pairs, and of no pairs that there are.
    for listed in (levels(1), b"", levels(11), b"m", levels(11)[:-1]):
        yield refused(10, "06", quote(0xA3, listed))
    # Before bad digits, a wrong time, a wrong code, and all of these at once; in the day's last frame, too.
    yield refused(10, "06", quote(0xA3, time="A90415061278"))
    yield refused(10, "06", quote(0xA3, patched(levels(4), 0, 0x10)))
    yield refused(10, "06", quote(0xA3, time="250000000000"))
    yield refused(10, "06", quote(0xA3, code=b"000000"))
    yield refused(10, "06", quote(0xA3, code=b"\x1f2330 "))
    yield refused(10, "06", quote(0x11, b"", b"\x00" * 6, "AAAAAAAAAAAA", total="BBBBBBBB"))
    yield refused(10, "06", quote(0x83, code=b"000000", time=NINES))


def refused_9_reveal():
    """A length that the reveal byte does not call for; before the digits."""
    yield refused(9, "06", quote(0xA2, levels(3)))
    yield refused(9, "06", quote(0xA2, levels(5)))
    yield refused(9, "06", quote(0xA2, levels(4)[:-1]))
    yield refused(9, "06", quote(0xA2, levels(4) + b"n"))
    yield refused(9, "06", quote(0x00, levels(1)))
    yield refused(9, "06", quote(0x01, b"n"))
    yield refused(9, "06", quote(0x01, levels(1)))
    yield refused(9, "06", quote(0x80, b""))
    yield refused(9, "06", quote(0x81, b""))
    yield refused(9, "06", quote(0x81, levels(2)))
    yield refused(9, "06", quote(0xDA, levels(10)))
    yield refused(9, "06", quote(0xD6, levels(6)))  # the specification's example 5 prints D6 where its length calls for D0
    yield refused(9, "06", quote(0x10, b"", time="A00000000000"))


def refused_11_five_six_nineteen():
    """A bad digit in a packed field of the body; before times and all else."""
    for category in ("0A", "A0", "1B", "FF"):
        yield refused(11, "05", notice(category))
    for time in ("A90415061278", "0904150612F8", "09041506127F"):
        yield refused(11, "06", quote(0xA2, time=time))
    for total in ("A0016423", "0001642B"):
        yield refused(11, "06", quote(0xA2, total=total))
    # In the trade's pair and in the last ask's: a bad digit in the price, a price's first half that is not 0, a quantity.
    for place in (0, 3):
        for offset, byte in ((0, 0x10), (0, 0x90), (0, 0xA0), (0, 0x0A), (4, 0x0F), (5, 0xA0), (8, 0x0E)):
            yield refused(11, "06", quote(0xA2, patched(levels(4), 9 * place + offset, byte)))
    yield refused(11, "06", quote(0x81, patched(levels(1), 0, 0x10)))
    # The day's last frame with a bad digit; a bad digit, a wrong time and a wrong code at once.
    yield refused(11, "06", quote(code=b"000000", time=NINES, total="9999999C"))
    yield refused(11, "06", quote(code=b"\x00" * 6, time="250000000000", total="C0000000"))
    for halted, resumed in (("A91200", "999999"), ("09120A", "999999"), ("091200", "F99999"), ("091200", "99999F"),
                            ("999999", "99999A"), ("250000", "0A0000")):
        yield refused(11, "19", halt(halted=halted, resumed=resumed, state=b"x"))


def refused_11_twelve():
    """Digits of all ten slots are looked at, whatever the count."""
    body = table(slot(), slot(b"1102  "))
    for count in ("0A", "A1"):
        yield refused(11, "12", table(slot(), count=count))
    # Slot, offset in the slot, byte: opening, highest, lowest, last with a first half that is not 0, total, time.
    for place, offset, byte in ((0, 6, 0x10), (0, 11, 0x10), (0, 16, 0x10), (0, 21, 0x10), (0, 7, 0xA0), (0, 26, 0xA0),
                                (0, 35, 0x0A), (1, 25, 0x0F), (2, 6, 0x10), (2, 29, 0x0A), (9, 21, 0x20), (9, 30, 0xA0),
                                (9, 35, 0x0F)):
        yield refused(11, "12", patched(body, 1 + 36 * place + offset, byte))
    # A bad digit in the last slot, a wrong time in the first, a wrong count.
    yield refused(11, "12", patched(table(slot(time="250000000000"), count="12"), 360, 0x0A))


def refused_12():
    """A time that breaks its rule; before all other fields."""
    for time in ("240000000000", "006000000000", "000060000000", "236059999999", "990000000000", "999999000000",
                 "999999999998", "099999999999"):
        yield refused(12, "06", quote(0xA2, time=time))
    # Nines stand exactly with the code 000000.
    yield refused(12, "06", quote(0x00, time=NINES))
    yield refused(12, "06", quote(0x00, code=b"00000 ", time=NINES))
    yield refused(12, "06", quote(0x00, code=b"000000"))
    yield refused(12, "06", quote(0x00, code=b"000000", time="999999999998"))
    yield refused(12, "06", quote(0x00, code=b"\x7f" * 6, time=NINES))
    yield refused(12, "06", quote(0x81, time="240000000000"))
    yield refused(12, "06", quote(0x01, time=NINES))
    for time in ("240000000000", "006000000000", "000060000000", "999999000000", "999999999998"):
        yield refused(12, "12", table(slot(), slot(b"1102  ", time=time)))
    # Nines in a slot after the count, the next one and the last; under a count of 00 no slot is counted.
    body = table(slot(time=NINES))
    yield refused(12, "12", body[:37 + 30] + packed(NINES) + body[37 + 36:])
    yield refused(12, "12", body[:361 - 6] + packed(NINES))
    yield refused(12, "12", table(slot(time=NINES), count="00"))
    # No time of day in an unused slot; a wrong time and a wrong code, unused slot and count.
    yield refused(12, "12", body[:361 - 6] + packed("000060000000"))
    yield refused(12, "12", table(slot(b"\x00" * 6), slot(time="240000000000"), count="11"))
    for halted in ("240000", "006000", "000060", "999998"):
        yield refused(12, "19", halt(halted=halted))
        yield refused(12, "19", halt(halted="091200", resumed=halted))
    # Nines for the halt alone; and a wrong time with a wrong state and code.
    yield refused(12, "19", halt(halted="999999", resumed="115700"))
    yield refused(12, "19", halt(b"000002", halted="999999", resumed="999998"))
    yield refused(12, "19", halt(b"\x00" * 6, halted="240000", state=b"x"))


def refused_13():
    """Every other field: category, codes, count, unused slots, state, and the code of a round's end."""
    for category in ("01", "08", "10", "19", "89", "91", "98"):
        yield refused(13, "05", notice(category, b"text"))
    for byte in (0, 27, 31, 127, 128, 255):
        yield refused(13, "06", quote(0xA2, code=patched(b"2330  ", 5, byte)))
    yield refused(13, "06", quote(0xA2, code=b"\x1f2330 "))
    yield refused(13, "06", quote(0x81, code=b"2330 \x7f"))
    # Counts of 00 and above 10; nines are times under a count above 10, which all slots are under.
    yield refused(13, "12", table(slot(), count="00"))
    yield refused(13, "12", table(count="00"))
    yield refused(13, "12", table(*[slot(time=NINES)] * 10, count="11"))
    yield refused(13, "12", table(*[slot()] * 10, count="99"))
    yield refused(13, "12", table(slot(b"1101 \x1b")))
    yield refused(13, "12", table(*[slot()] * 9, slot(b"\x7f1110 ")))
    # A count that leaves a filled slot out, and one that takes an unused one in, which is no fault: spaces are a code.
    yield refused(13, "12", table(slot(), slot(b"1102  "), count="01"))
    yield good("12", table(slot(), count="02"))
    # An unused slot's code of zero bytes, code 000000, price, total, time, and the tenth slot's last byte.
    body = table(slot())
    yield refused(13, "12", body[:37] + b"\x00" * 6 + body[43:])
    yield refused(13, "12", body[:37] + b"000000" + body[43:])
    for offset in (37 + 10, 37 + 15, 37 + 20, 37 + 25, 37 + 29, 37 + 35, 360):
        yield refused(13, "12", patched(body, offset, 0x01))
    for state in (b"c", b"i", b"X", b"\x00", b"\x1b"):
        yield refused(13, "19", halt(state=state))
    yield refused(13, "19", halt(b"000002", "999999", "999999", b"x"))
    yield refused(13, "19", halt(b"2330 \x1f"))
    yield refused(13, "19", halt(b"\x7f330  ", resumed="115700"))
    for code in (b"2     ", b"00000A", b" 00002", b"00000/", b"00000:", b"\x00\x00\x00\x00\x00\x02"):
        yield refused(13, "19", halt(code, "999999", "999999"))


CASES = [
    refused_6,
    refused_7,
    refused_8,
    refused_9_range,
    refused_10,
    refused_9_reveal,
    refused_11_five_six_nineteen,
    refused_11_twelve,
    refused_12,
    refused_13,
]


# ---------------------------------------------------------------------------------------------------------------------
# Bad digits with their places, which are counted in halves from a frame's first byte: the body begins at place 20. Each is given as
# a place and a frame.

PAIRS, PAIR = 58, 18  # where format six's pairs begin, and how many halves one takes
SLOTS, SLOT = 22, 72  # the same of format twelve's slots
FIELDS = {"opening": 12, "highest": 22, "lowest": 32, "last": 42, "total": 52, "time": 60}  # within a slot


def spoiled(digits, turn=0):
    """Packed digits with a bad one in each place in turn, and that place; a price's leading 0 is spoiled by one of 1 to 9 too."""
    for at in range(len(digits)):
        yield at, digits[:at] + "ABCDEF"[(at + turn) % 6] + digits[at + 1:]
    if len(digits) == 10:
        yield 0, "123456789"[turn % 9] + digits[1:]


def bad_headers():
    """Business, format, version and number, places 6 to 19, of a notice; its category is bad as well and is not looked at."""
    for at, header in spoiled("01" "05" "01" "00000001"):
        yield 6 + at, refused(6, header[2:4], notice("0A"), business=header[:2], version=header[4:6], seq=header[6:])


def bad_notices():
    for at, category in spoiled("09"):
        yield 20 + at, refused(11, "05", notice(category, b"\xff\xaatext"))


def bad_quotes():
    """A quote of eleven pairs, and the trade alone; flags above 9 are no digits."""
    flags = dict(limit=0xFF, status=0xAB)
    for at, time in spoiled("090415061278"):
        yield 32 + at, refused(11, "06", quote(0xDA, time=time, **flags))
    for at, total in spoiled("00016423"):
        yield 50 + at, refused(11, "06", quote(0xDA, total=total, **flags))
    for reveal in (0xDA, 0x81):
        for n in range(shown(reveal)):
            before, behind = levels(n), levels(shown(reveal))[9 * n + 9:]
            for at, price in spoiled("0000995000", n):
                pair = packed(price + "00000250")
                yield PAIRS + PAIR * n + at, refused(11, "06", quote(reveal, before + pair + behind, **flags))
            for at, quantity in spoiled("00000250", n):
                pair = packed("0000995000" + quantity)
                yield PAIRS + PAIR * n + 10 + at, refused(11, "06", quote(reveal, before + pair + behind, **flags))


def bad_tables():
    """The count, and all fields of all ten slots, whether they are counted or not."""
    good_slot = dict(opening="0000125000", highest="0000128000", lowest="0000124000", last="0000125000", total="00000008",
                     time="091003554189")
    for at, count in spoiled("02"):
        yield 20 + at, refused(11, "12", table(slot(), slot(), count=count))
    for n in range(10):
        for field, offset in FIELDS.items():
            for at, digits in spoiled(good_slot[field], n + offset):
                slots = [slot()] * 2 + [UNUSED] * 8
                slots[n] = slot(**{**good_slot, field: digits})
                yield SLOTS + SLOT * n + offset + at, refused(11, "12", table(*slots, count="02"))


def bad_halts():
    for at, halted in spoiled("091200"):
        yield 32 + at, refused(11, "19", halt(halted=halted, state=b"\xff"))
    for at, resumed in spoiled("115700"):
        yield 38 + at, refused(11, "19", halt(resumed=resumed))


def two_bad_digits():
    """The lower place is told, whatever is behind it, and whatever stands before it that is no digit."""
    yield 7, refused(6, "FF", notice("0A"), business="0B", seq="0000000A")
    yield 21, refused(11, "05", notice("0F", b"\xff" * 60))
    yield 43, refused(11, "06", quote(0x81, packed("1F00000000" "A0000000"), b"\xff" * 6, "25000000000A", 0xFF, 0xFF, "AAAAAAAA"))
    yield 50, refused(11, "06", quote(0x81, packed("1F00000000" "A0000000"), b"\xff" * 6, limit=0xFF, total="A000000B"))
    yield 58, refused(11, "06", quote(0x81, packed("1F00000000" "A0000000")))
    yield 59, refused(11, "06", quote(0x81, packed("0F00000000" "A0000000")))
    yield 75, refused(11, "06", quote(0xA2, packed("0000000000" "0000000F") + packed("9000000000" "00000000") + levels(2)))
    yield 20, refused(11, "12", table(slot(total="FFFFFFFF"), count="A0"))
    yield 89, refused(11, "12", table(slot(b"\xff" * 6, time="2500000F0000"), slot(opening="1000000000")))
    yield 43, refused(11, "19", halt(b"\xff" * 6, "240000", "99999A", b"\xff"))
