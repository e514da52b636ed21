"""Frames to build lines with, good ones and damaged. Packed fields are strings of digits, so that a bad digit can be put in as
a letter.
"""

import itertools

from .reader import xor

VERSION = {"05": "01", "06": "04", "12": "03", "19": "01"}
NINES = "9" * 12
packed = bytes.fromhex


def frame(form, body, seq="00000001", version=None, business="01", length=None, check=None, end=b"\x0d\x0a"):
    """The common frame around a body; a length, check byte or end that is given stands in for the right one."""
    length = length or f"{len(body) + 13:04}"
    inner = packed(length + business + form + (version or VERSION.get(form, "01")) + seq) + body
    return b"\x1b" + inner + bytes([xor(inner) if check is None else check]) + end


def notice(category="00", text=b""):
    return packed(category) + text


def levels(n):
    """So many pairs: price 99.50, 100.00 and so on, with 101, 102 and so on trading units."""
    return b"".join(packed(f"{995000 + 5000 * k:010}{101 + k:08}") for k in range(n))


def shown(reveal):
    """How many pairs a reveal byte calls for."""
    return (reveal >> 7) + (reveal >> 4 & 7) + (reveal >> 1 & 7)


def quote(reveal=0x00, listed=None, code=b"2330  ", time="090415061278", limit=0, status=0x10, total="00016423"):
    listed = levels(shown(reveal)) if listed is None else listed
    return code + packed(time) + bytes([reveal, limit, status]) + packed(total) + listed


def slot(code=b"1101  ", opening="0000125000", highest="0000128000", lowest="0000124000", last="0000125000",
         total="00000008", time="091003554189"):
    return code + packed(opening + highest + lowest + last + total + time)


UNUSED = slot(b"      ", "0" * 10, "0" * 10, "0" * 10, "0" * 10, "0" * 8, "0" * 12)
CYCLE_END = slot(b"000000", "0" * 10, "0" * 10, "0" * 10, "0" * 10, "0" * 8, "0" * 12)


def table(*slots, count=None):
    """A body of format twelve: the slots, then unused ones up to ten; the count is theirs unless another is given."""
    count = count or f"{len(slots):02}"
    return packed(count) + b"".join(slots) + UNUSED * (10 - len(slots))


def halt(code=b"2330  ", halted="091200", resumed="999999", state=b"I"):
    return code + packed(halted + resumed) + state


def index(kind=b"5", contract=b"TXF", time="13295995", value="17234567", status=0, market=b"1", sent="13300025", seq="00000007",
          version=None, body=None, length=None, check=None, end=b"\x0d\x0a"):
    """A frame of the derivatives exchange; a body, length, check byte or end that is given stands in for the right one."""
    body = contract + packed(time + value) + bytes([status]) if body is None else body
    inner = market + kind + packed(sent + seq + (version or {b"8": "01"}.get(kind, "02")) + (length or f"{len(body):04}")) + body
    return b"\x1b" + inner + bytes([xor(inner) if check is None else check]) + end


def patched(data, at, byte):
    """The same bytes with another one at a place."""
    return data[:at] + bytes([byte]) + data[at + 1:]


# ---------------------------------------------------------------------------------------------------------------------
# Parts of a line: the answer that they are made for, their bytes, and the format and number that an accepted frame shows.

numbers = itertools.count(1)


def good(form, body, seq=None):
    """A frame to accept. Frames that are given no number are numbered 1, 2 and so on as they come."""
    seq = next(numbers) if seq is None else seq
    return 0, frame(form, body, f"{seq:08}"), int(form), seq


def refused(answer, form, body, **other):
    """A frame whose outline is whole, and the answer that refuses it."""
    return answer, frame(form, body, **other), "-", "-"


def noise(answer, data):
    """Bytes that are all skipped, and the answer at the first of them."""
    return answer, data, "-", "-"


NOTICE = frame("05", notice("09"))  # the notice of 14 bytes in docs/RULES.md
MARK = packed("4142")  # two bytes of plain noise, "AB"
