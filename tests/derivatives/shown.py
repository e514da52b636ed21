"""What the programs listing, messages and refusals have to print of a line of the derivatives exchange, by the moves of the
reference reader (tests/reference).
"""

from listing import make as listing_maker
from messages import make as messages_maker
from reference import reader
from refusals import make as refusals_maker

WORD = "derivatives-2015"  # the argument that asks for such a line
PROGRAMS = "listing", "messages", "refusals"  # that take it
WHY = {
    6: "the header, bytes 4 to 12, has a bad digit",
    7: "the transmission code is not 1 or 4, or the kind is not 5 or 8",
    8: "the version is not the one of this kind",
    9: "the body is not 12 or 17 bytes long",
    12: "a time is no time of day",
    13: "a contract byte is not 32 to 126, or a reserved status bit is set",
}


def why(answer, place, data):
    """The words for an answer to some bytes."""
    if answer == 3 and place is None:
        return "the frame would be longer than 1024 bytes"
    return WHY.get(answer) or refusals_maker.why(answer, place, data)


def hundredths(n):
    return f"{n // 1000000:02}:{n // 10000 % 100:02}:{n // 100 % 100:02}.{n % 100:02}"


def object_of(at, m):
    """The object of a message that the reader read."""
    return dict(at=at, kind=m["format"], seq=m["seq"], market=m["market"].decode("ascii"), sent=hundredths(m["sent"]),
                contract=m["contract"].decode("ascii"), time=hundredths(m["time"]),
                value=f"{m['value'] // 1000}.{m['value'] % 1000:03}", status=m["status"])


def objects(moves):
    return [object_of(at, message) for at, answer, _, message in moves if answer == 0]


def pieces_of(line, moves):
    """The moves as pieces; the place of a bad digit is asked for at each."""
    for at, answer, step, _ in moves:
        yield answer, reader.place_2015(line[at:at + 1024]), line[at:at + step]


def printed(line):
    """What each program has to print of a line."""
    moves = list(reader.walk(line, reader.read_2015))
    joined = refusals_maker.joined(pieces_of(line, moves))
    return {
        "listing": listing_maker.listing(listing_maker.rows(moves)),
        "messages": messages_maker.printed(objects(moves)).encode("ascii"),
        "refusals": refusals_maker.printed(refusals_maker.objects(joined, why)).encode("ascii"),
    }
