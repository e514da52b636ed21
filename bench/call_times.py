"""The calls: what bench/calls times, as tables."""

import subprocess
import sys

import machine

# what an item of a part is
ITEMS = {
    "reading": "a frame read, its message whole into memory that is used again",
    "refused": "a frame with a bad digit read by its format's call, and the place told",
    "the answer alone": "a place read for its answer (the second program has one reading for all)",
    "writing": "a message written into a buffer that is used again",
    "arrivals": "an arrival at a ledger, which looks over its whole record at each",
    "board": "a message of 11 pairs on a full board, or a row asked for (the second program lends its own)",
    "capture": "a payload appended, or read at its place, or how many are finished: each looks over all 65,536 bytes",
    "walk": "a frame of a line in memory, walked for its tally",
    "index values": "one read whole, or for its answer, or written; a frame of a line of them walked for its tally",
    "digits": "a packed byte read alone (the second program works it out of its halves), or a table of 256",
}


def build():
    machine.built(machine.ROOT / "native" / "build", "library")
    return machine.cargo("bench/calls", "bench-calls")


def run(program, quick):
    calls = subprocess.Popen([program] + ["--quick"] * quick, stdout=subprocess.PIPE, text=True)
    before = None
    for row in calls.stdout:
        part, name, *figures = row.rstrip("\n").split("\t")
        size, proved, second = map(float, figures)
        if part != before:
            print(f"{'' if before is None else chr(10)}{part}: {ITEMS[part]}")
            print(f"  {'':34} {'bytes':>6} {'proved ns':>10} {'second ns':>10} {'ratio':>6} {'proved MB/s':>12} {'second MB/s':>12}")
            before = part
        row = f"  {name:34} {format(size, '.0f') if size else '-':>6} {proved:10.1f} {second:10.1f} {proved / second:6.2f}"
        print(row + "".join(f" {size / each * 1000:12.0f}" for each in (proved, second) if size))
    if calls.wait():
        sys.exit("bench: the calls could not be timed")
