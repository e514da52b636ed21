#!/usr/bin/env python3
"""Tries the programs on a line that stays open, of either exchange: what is known of it is shown while the input is still open,
and before a read that fails is told; a board is shown when the line has ended, and not before. What is known is made by the
reference reader; the rows and objects are those of tests/listing, tests/messages, tests/refusals, tests/board and
tests/derivatives. Prints what differs, and ends with status 1 if anything did.
"""

import dataclasses
import itertools
import os
import pathlib
import socket
import sys
import tty
import typing

sys.path.append(str(pathlib.Path(__file__).resolve().parents[1]))
from board import make as board_maker
from derivatives import shown as derivatives
from listing import make as listing_maker
from messages import make as messages_maker
from reference import frames, reader, started, stored
from refusals import make as refusals_maker

faults = started.Faults("live")


# ---------------------------------------------------------------------------------------------------------------------
# What a program has to print of a line by its moves, and what of it is known while more may come.

def listing_of(line, moves):
    return listing_maker.listing(listing_maker.rows(moves))


def listing_known(line, moves):
    """No total, and no run of skipped bytes that may go on."""
    made = listing_maker.rows(moves)
    if made and 1 <= made[-1][1] <= 5:
        made.pop()
    return b"".join(listing_maker.listing(made).splitlines(True)[:-1])


def messages_of(line, moves):
    return messages_maker.printed(line.objects(moves)).encode()


def refusals_of(line, moves):
    return refusals_maker.printed(refusals_maker.objects(refused(line, moves), line.why)).encode()


def refusals_known(line, moves):
    """No run of skipped bytes that may go on."""
    made = refused(line, moves)
    if made and 1 <= made[-1][1] <= 5:
        made.pop()
    return refusals_maker.printed(refusals_maker.objects(made, line.why)).encode()


def refused(line, moves):
    """The frames and the runs of skipped bytes of a line that begins as the whole one does."""
    return refusals_maker.joined(line.pieces_of(line.whole, moves))


def board_of(line, moves):
    return board_maker.printed(moves).encode()


def nothing(line, moves):
    return b""


PROGRAMS = {
    "listing": (listing_of, listing_known),
    "messages": (messages_of, messages_of),
    "refusals": (refusals_of, refusals_known),
    "board": (board_of, nothing),
}


# ---------------------------------------------------------------------------------------------------------------------
# The lines in their pieces. Each piece is written when what is known of those before it has been seen.

def stock_pieces():
    sample = (stored.ROOT / "samples" / "capture").read_bytes()
    yield sample[:410]  # a notice and a table, both whole
    yield sample[410:550]  # a quote; then noise, and the beginning of a quote
    yield sample[550:612]  # its end
    yield sample[612:670]  # a damaged quote but for its last byte
    yield sample[670:745]  # that, a refused quote, a halt, and the beginning of a quote
    yield sample[745:]
    yield frames.frame("06", frames.quote(), "00000010", version="03")  # refused
    yield frames.frame("06", frames.quote(0x81, code=b"0050  "), "00000010")  # the trade alone; the row keeps its sides
    yield frames.frame("05", frames.notice("00", b"alone"), "00000003")
    yield b"".join(frames.frame("06", frames.quote(0xDA), f"{n:08}") for n in range(11, 1011))  # 131,000 bytes
    yield b"~" * 3000 + frames.frame("19", frames.halt(), "00000003")
    yield b"~~" + frames.NOTICE[:-1]  # cut when the line ends


def derivatives_pieces():
    sample = (stored.ROOT / "samples" / "derivatives").read_bytes()
    long = frames.index(b"8", b"2330    ", status=5, seq="00000011")
    yield sample[:31]  # noise and a short I060
    yield sample[31:65]  # a long I064
    yield sample[65:78]  # of the next frame a byte less than its header
    yield sample[78:93]  # all but its last byte
    yield sample[93:94]  # that byte: it is refused for a bad digit
    yield sample[94:137]  # a damaged frame, and the header of the next
    yield sample[137:]
    yield frames.index(check=0xBE)[:-1]  # a damaged frame but for its last byte
    yield b"\x0a" + frames.index(status=2)  # that, and a refused frame
    for refused in (dict(sent="1330002F"), dict(kind=b"6"), dict(version="01"), dict(body=b""), dict(time="24000000")):
        yield frames.index(**refused)
    yield frames.index(length="1007")[:-1]  # claims more than comes for a while
    yield long * 40  # the end of what it claimed, so that the frames under it are found
    yield b"".join(frames.index(seq=f"{n:08}") + long for n in range(2100))  # 132,300 bytes
    yield b"~" * 3000 + frames.index(seq="00000012")
    yield b"~~" + long[:-1]  # cut when the line ends


@dataclasses.dataclass
class Line:
    programs: list  # that read it
    words: list  # behind a program's name
    pieces: list
    fails: tuple  # behind so many bytes a read fails
    read: typing.Callable  # by its exchange: a reading, the objects of messages, moves with their bytes, the words for an answer
    objects: typing.Callable
    pieces_of: typing.Callable
    why: typing.Callable

    def __post_init__(self):
        self.whole = b"".join(self.pieces)

    def moves(self, data):
        return list(reader.walk(data, self.read))

    def known(self, data):
        """The moves while the line is open: those before the first that waits for more bytes."""
        return list(itertools.takewhile(lambda move: move[1] != 2, self.moves(data)))


LINES = [
    Line(list(PROGRAMS), [], list(stock_pieces()), (36, 555, 971), reader.read, messages_maker.objects, refusals_maker.moves_of,
         refusals_maker.why),
    Line(list(derivatives.PROGRAMS), [derivatives.WORD], list(derivatives_pieces()), (31, 78, 152), reader.read_2015,
         derivatives.objects, derivatives.pieces_of, derivatives.why),
]


def parted(text, wanted):
    """Where two outputs part."""
    same = len(os.path.commonprefix([text, wanted]))
    behind = slice(same, same + 60)
    return f"{len(text)} bytes instead of {len(wanted)}, the same up to {same}: {text[behind]!r}, not {wanted[behind]!r}"


# ---------------------------------------------------------------------------------------------------------------------
# The tests.

def stays_open(name, line):
    """The rows of all that is known are shown while the line is open; then it is closed."""
    whole, known = PROGRAMS[name]
    command = " ".join([name, *line.words])
    with started.Started(["./trivsome", name, *line.words], started.PIPE) as program:
        data = b""
        for piece in line.pieces:
            data += piece
            if not program.takes(piece):
                return faults.differs(f"{command} does not take the first {len(data)} bytes: {bytes(program.err)}")
            wanted = known(line, line.known(data))
            if not program.shows(lambda out: len(out) >= len(wanted)) or program.out != wanted:
                return faults.differs(f"{command}, of {len(data)} bytes of an open line: {parted(bytes(program.out), wanted)}")
        program.process.stdin.close()
        wanted = whole(line, line.moves(line.whole))
        if program.ends() != 0:
            faults.differs(f"{command} does not end with its line, or with status {program.process.returncode}: {bytes(program.err)}")
        elif program.out != wanted:
            faults.differs(f"{command}, of the whole line: {parted(bytes(program.out), wanted)}")


def hung_up(data):
    """Of a terminal whose other side is gone a read gives its bytes, then fails."""
    given, other = os.openpty()
    tty.setraw(other)
    os.write(other, data)
    os.close(other)
    return given


def broken_off(data):
    """So it is with a connection whose other side went without reading what it was sent."""
    given, other = socket.socketpair()
    given.send(b"unread")
    other.sendall(data)
    other.close()
    return given.detach()


def read_fails(name, line, given, data):
    """What is known is shown, then the failure told."""
    wanted = PROGRAMS[name][1](line, line.known(data))
    stdin = given(data)
    with started.Started(["./trivsome", name, *line.words], stdin) as program:
        os.close(stdin)
        status = program.ends()
        told = f"{' '.join([name, *line.words])}, {given.__name__} after {len(data)} bytes"
        if status != 1:
            faults.differs(f"{told}: status {status} instead of 1")
        if b"cannot read standard input" not in program.err:
            faults.differs(f"{told}: standard error does not say so: {bytes(program.err)}")
        if program.out != wanted:
            faults.differs(f"{told}: {parted(bytes(program.out), wanted)}")


def main():
    runs = {name: started.runs(name) for name in PROGRAMS}
    for name in PROGRAMS:
        if not runs[name]:
            faults.differs(f"{name} does not run")
    for line in LINES:
        for name in line.programs:
            if not runs[name]:
                continue
            stays_open(name, line)
            for given, size in itertools.product((hung_up, broken_off), line.fails):
                read_fails(name, line, given, line.whole[:size])
    return faults.status()


if __name__ == "__main__":
    sys.exit(main())
