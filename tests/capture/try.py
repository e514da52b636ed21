#!/usr/bin/env python3
"""Tries the program capture. By hand: what it keeps, shows and says, of sound files and of others. Cut off, by a kill at a random
moment, after any number of stores, and by a power loss behind any call: what is found is what was finished before, and the next
append takes the first place that is not finished. What a file holds is read in Python, by the program and by the second program,
and they have to agree. Prints what differs, and ends with status 1 if anything did.

try.py [SEED]    with other random bytes and moments
"""

import pathlib
import sys

sys.path.append(str(pathlib.Path(__file__).resolve().parents[1]))
from capture import by_hand, cut_off, runs


def main():
    print(f"capture: seed {runs.SEED}")
    runs.build()
    for one in by_hand.TRIES + cut_off.TRIES:
        one()
    return runs.faults.status()


if __name__ == "__main__":
    sys.exit(main())
