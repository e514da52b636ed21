"""Captures in Python: written from payloads, read back, and stored byte by byte."""

PLACES, BLOCK, MOST = 128, 512, 504
SIZE = PLACES * BLOCK
FULL = PLACES * MOST
LAST = 3  # where in a block the last byte of its number is


class Refused(Exception):
    """34, or 33 with the place of the first bad block."""

    def __init__(self, answer, place=None):
        super().__init__(answer, place)
        self.answer, self.place = answer, place


def check(data):
    """Fletcher-16: the sum of the bytes and the sum of these sums, both modulo 255."""
    first = second = 0
    for byte in data:
        first = (first + byte) % 255
        second = (second + first) % 255
    return bytes([first, second])


def sealed(number, used, payload):
    """A block of any number and count, with the check that belongs to it."""
    data = number.to_bytes(4, "big") + used.to_bytes(2, "big") + payload.ljust(MOST, b"\0")
    return data + check(data)


def block(place, payload):
    assert 1 <= place <= PLACES and 1 <= len(payload) <= MOST
    return sealed(place, len(payload), payload)


def parts(data):
    """The payloads as which the program keeps its input."""
    return [data[at:at + MOST] for at in range(0, len(data), MOST)]


def capture(payloads):
    return b"".join(block(place, payload) for place, payload in enumerate(payloads, 1)).ljust(SIZE, b"\0")


def payloads(data):
    """Those of the finished blocks, in order."""
    if len(data) != SIZE:
        raise Refused(34)
    found = []
    for place in range(1, PLACES + 1):
        one = data[(place - 1) * BLOCK:place * BLOCK]
        if one[:4] == bytes(4):
            continue
        used = int.from_bytes(one[4:6], "big")
        if not 1 <= used <= MOST or len(found) != place - 1 or one != block(place, one[6:6 + used]):
            raise Refused(33, place)
        found.append(one[6:6 + used])
    return found


def stores(place, payload):
    """What an append stores, in its order: each byte at its place in the capture, the last of the number after all others."""
    start, data = (place - 1) * BLOCK, block(place, payload)
    return [(start + at, data[at]) for at in [*range(LAST + 1, BLOCK), *range(LAST), LAST]]
