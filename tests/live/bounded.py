#!/usr/bin/env python3
"""Tries the two test programs, which take 65,536 bytes at most: they take as many, in pieces too, and print all there is to
tell of them; they say so where they are given more, or cannot read or write. Prints what differs, and ends with status 1 if
anything did.
"""

import os
import pathlib
import socket
import sys
import tempfile

sys.path.append(str(pathlib.Path(__file__).resolve().parents[1]))
from reference import frames, started, stored
from worked import make as examples

faults = started.Faults("bounded")
MOST = 65_536

# what a fresh ledger tells, and a record of no bytes with its line: they fill up what is left of an input
FRESH = b"highest 0 heard 0 missing 0 runs 0 floor 0 given-up 0\nrun 0 23\n"
NOTHING, NO_BYTES = b"\x00\x00", b"answer 2\n"


def filled(part, told, rest, told_of_rest):
    """As many of a part as there is room for, then of a small one, and what is to be printed of them."""
    count, left = divmod(MOST, len(part))
    assert left % len(rest) == 0
    left //= len(rest)
    return part * count + rest * left, told * count + told_of_rest * left


def record(frame):
    return len(frame).to_bytes(2, "big") + frame


def arrivals():
    """Number 7 again and again, and what the ledger tells of it."""
    count = MOST // 2
    told = b"7 new\n" + b"7 repeat\n" * (count - 1) + b"highest 7 heard 1 missing 6 runs 1 floor 0 given-up 0\nrun 0 1-6\nrun 1 23\n"
    return b"7\n" * count, told


def longest_lent():
    """Records whose every second number is missing, from the largest number down: 64 runs, so 3 has no room."""
    top = 99_999_999
    ends = range(top, top - 128, -1)
    runs = [(1, ends[-1])] + [(n, n) for n in reversed(ends[1:-1:2])]
    told = f"lent 22\nlent give-up 1-{ends[-1]}\nhighest {top} heard 64 missing {top - 64} runs 64 floor 0 given-up 0\n"
    told += "".join(f"run {place} {first}-{last}\n" for place, (first, last) in enumerate(runs)) + "run 64 23\n"
    line = " ".join(map(str, ends)) + "\n"
    given, printed = filled(line.encode(), told.encode(), b"\n", FRESH)
    return given, printed + FRESH


def wrong_checks():
    """Notices whose check byte is wrong."""
    return filled(record(frames.frame("05", frames.notice("09"), check=0xEE)), b"answer 5\n", NOTHING, NO_BYTES)


def longest_line():
    """The example with the longest line."""
    frame, line = max(examples.records(), key=lambda made: len(made[1]))
    return filled(record(frame), line.encode() + b"\n", NOTHING, NO_BYTES)


# inputs of as many bytes as are taken, and what is to be printed of them; the first is used for the other tries, too
INPUTS = {
    "numbers": {
        "arrivals": arrivals(),
        "empty lines": (b"\n" * MOST, FRESH * (MOST + 1)),
        "the longest records": longest_lent(),
    },
    "worked": {
        "records of no bytes": filled(NOTHING, NO_BYTES, NOTHING, NO_BYTES),
        "wrong check bytes": wrong_checks(),
        "the longest lines": longest_line(),
    },
}


def ran(name, stdin, stdout=started.PIPE):
    """The status of a program, what it printed, and what it said."""
    with started.Started(["./trivsome", name], stdin, stdout) as program:
        return program.ends(), bytes(program.out), program.err.decode("ascii", "replace")


def of_bytes(name, given, stdout=started.PIPE):
    with tempfile.TemporaryFile() as file:
        file.write(given)
        file.seek(0)
        return ran(name, file, stdout)


def of_folder(name):
    stdin = os.open(stored.ROOT, os.O_RDONLY)
    try:
        return ran(name, stdin)
    finally:
        os.close(stdin)


def of_connection(name, kind, pieces, is_broken=False):
    """The same of pieces on a connection, which ends behind them, or breaks: that is said once, and then it has ended."""
    ours, theirs = socket.socketpair(socket.AF_UNIX, kind)
    with ours:
        with theirs:
            for piece in pieces:
                theirs.sendall(piece)
            if is_broken:
                ours.sendall(b"?")  # what one end has not read when it closes
        return ran(name, ours)


def on_full_disk(name, given):
    with open("/dev/full", "wb") as full:
        return of_bytes(name, given, full)


def on_full_pipe(name, given):
    """The same of an output that takes some bytes and then no more."""
    reader, writer = os.pipe()
    with open(reader, "rb") as taken:
        with open(writer, "wb") as full:
            os.set_blocking(writer, False)
            status, _, said = of_bytes(name, given, full)
        return status, taken.read(), said


def has_to_print(what, told, status, out, said):
    if (status, out, said) != (0, told, ""):
        faults.differs(f"{what}: status {status}, {len(out)} bytes instead of {len(told)}, {said!r}")


def has_to_fail(what, words, result, told=b""):
    """It says nothing but these words, and has printed no more than the beginning of what there is to tell."""
    status, out, said = result
    if (status, said) != (1, words + "\n"):
        faults.differs(f"{what}: status {status} instead of 1, and on standard error {said!r} instead of '{words}'")
    if not told.startswith(out):
        faults.differs(f"{what}: prints {out[:40]!r}.., which is not the beginning of what there is to tell")


def try_most(name, inputs):
    """As many bytes as are taken, from a file and in pieces."""
    for what, (given, told) in inputs.items():
        assert len(given) == MOST
        has_to_print(f"{name} of {what}", told, *of_bytes(name, given))
    pieces = [given[at:at + 4093] for at in range(0, MOST, 4093)]
    has_to_print(f"{name} of pieces", told, *of_connection(name, socket.SOCK_SEQPACKET, pieces))


def try_input(name, given):
    """More bytes than are taken, and an input that cannot be read, from the first byte on or later."""
    for more in (1, 16, MOST):
        has_to_fail(f"{name} of {MOST + more} bytes", f"{name}: more than 65,536 bytes", of_bytes(name, given + given[:more]))
    words = f"{name}: cannot read standard input"
    has_to_fail(f"{name} of a folder", words, of_folder(name))
    broken = of_connection(name, socket.SOCK_STREAM, [given[:1000]], is_broken=True)
    has_to_fail(f"{name} of a line that breaks", words, broken)


def try_output(name, given, told):
    """An output that takes some bytes or none, of text that fills the buffer and of text that does not."""
    words = f"{name}: cannot write standard output"
    has_to_fail(f"{name} on a full pipe", words, on_full_pipe(name, given), told)
    if os.path.exists("/dev/full"):
        has_to_fail(f"{name} on a full disk, of much", words, on_full_disk(name, given))
        has_to_fail(f"{name} on a full disk, of little", words, on_full_disk(name, given[:1000]))
    else:
        print("bounded: left out, a full disk: no /dev/full")


def tried(name, inputs):
    given, told = next(iter(inputs.values()))
    try_most(name, inputs)
    try_input(name, given)
    try_output(name, given, told)


def main():
    for name, inputs in INPUTS.items():
        if started.runs(name):
            tried(name, inputs)
        else:
            faults.differs(f"{name} does not run")
    return faults.status()


if __name__ == "__main__":
    sys.exit(main())
