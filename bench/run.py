#!/usr/bin/env python3
"""Times the proved library and programs beside the second program's, in one run on this machine, and prints tables.

run.py [--quick] [calls | listing | messages | refusals | gaps | board]

calls     reading and writing of each format, frames refused for a bad digit, arrivals at a ledger, a full board, a capture, a line walked, index values, and packed digits, call by call
listing, messages, refusals, gaps, board
          the programs on whole lines: good frames of growing length, and the worst lines; the first three also on lines of the
          derivatives exchange
--quick   smaller and fewer, done in seconds once all is built

Before anything is timed both sides' answers, messages and outputs are compared; a difference ends the run with status 1. The
proved side is code of this machine, as native/build makes it.
"""

import argparse
import sys

import call_times
import line_times
import machine


def main():
    wanted = argparse.ArgumentParser(description=__doc__, formatter_class=argparse.RawDescriptionHelpFormatter)
    wanted.add_argument("--quick", action="store_true")
    wanted.add_argument("part", nargs="?", choices=["calls", *line_times.NAMES])
    wanted = wanted.parse_args()
    sys.stdout.reconfigure(line_buffering=True)
    parts = {"calls": call_times, **{name: line_times.Program(name) for name in line_times.NAMES}}
    parts = [part for name, part in parts.items() if wanted.part in (None, name)]
    made = [part.build() for part in parts]
    print(machine.described())
    for part, programs in zip(parts, made):
        print()
        part.run(programs, wanted.quick)


if __name__ == "__main__":
    main()
