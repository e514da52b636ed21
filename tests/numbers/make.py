#!/usr/bin/env python3
"""Makes the stored input and output of the program numbers: series of arrivals and give-ups, and what a ledger has to say of them.

The ledger here is a plain set of numbers and a floor. What is missing is found between the numbers of the sorted set; no record
and no figures are kept, and nothing is taken from the program's output. Of records lent to the calls all small ones are tried:
right are those that some series leaves, which is found by trying all series.

make.py           writes the two files
make.py --check   compares instead, and exits 1 on a difference
"""

import itertools
import pathlib
import sys

sys.path.append(str(pathlib.Path(__file__).resolve().parents[1]))
from reference import stored

MOST = 99_999_999
GIVE_UP = "give-up"


class Ledger:
    def __init__(self, numbers=(), floor=0):
        self.numbers, self.floor = set(numbers), floor

    def runs(self, more=()):
        """The unbroken runs of the numbers above the floor, to the highest, that are not in the set, rising, as first and last."""
        found, below = [], self.floor
        for n in sorted(self.numbers.union(more)):
            if n > below + 1:
                found.append((below + 1, n - 1))
            below = max(below, n)
        return found

    def arrive(self, n):
        """What the arrival of n is answered; a new number goes into the set."""
        if n < 1 or n > MOST:
            return "21"
        if n <= self.floor:
            return "25"
        if n in self.numbers:
            return "repeat"
        if len(self.runs([n])) > 64:
            return "22"
        self.numbers.add(n)
        return "new"

    def give_up(self):
        """What giving the lowest run up is answered; its last number is the floor."""
        gaps = self.runs()
        if not gaps:
            return "24"
        self.floor = gaps[0][1]
        return "%d-%d" % gaps[0]

    def take(self, event):
        """What an arrival or a give-up is answered."""
        return self.give_up() if event == GIVE_UP else self.arrive(event)

    def after(self, *events):
        """The ledger that a series leaves of a copy."""
        other = Ledger(self.numbers, self.floor)
        for event in events:
            other.take(event)
        return other

    def given_up(self):
        return self.floor - sum(n <= self.floor for n in self.numbers)

    def told(self):
        gaps, highest, heard = self.runs(), max(self.numbers, default=0), len(self.numbers)
        missing = sum(last - first + 1 for first, last in gaps)
        assert heard + missing + self.given_up() == highest
        yield "highest %d heard %d missing %d runs %d floor %d given-up %d" % (
            highest, heard, missing, len(gaps), self.floor, self.given_up())
        for place, (first, last) in enumerate(gaps):
            yield "run %d %d-%d" % (place, first, last)
        yield "run %d 23" % len(gaps)

    def record(self):
        """The ends, the floor and how many numbers were given up. An end is a number behind which the next is on the other side:
        settled, which is in the set or not above the floor, or missing. They stand from the top down."""
        def settled(n):
            return n <= self.floor or n in self.numbers
        near = {n - back for n in self.numbers | {self.floor} for back in (0, 1)}
        ends = [n for n in sorted(near, reverse=True) if n > 0 and settled(n) != settled(n + 1)]
        return tuple(ends), self.floor, self.given_up()


# ---------------------------------------------------------------------------------------------------------------------
# Series of arrivals and give-ups.

def shuffled(count, below, seed):
    """Numbers from 0 to below - 1 in no order, by a small generator, so that they are the same everywhere."""
    x = seed
    for _ in range(count):
        x = (x * 1103515245 + 12345) % 2147483648
        yield x // 65536 % below


def broken(every, numbers):
    """Numbers with a give-up behind each so many."""
    for place, n in enumerate(numbers, 1):
        yield n
        if place % every == 0:
            yield GIVE_UP


def again(numbers):
    """Each number before and behind a give-up."""
    for n in numbers:
        yield from (n, GIVE_UP, n)


def series():
    evens = list(range(2, 129, 2))
    yield []                                                             # a fresh ledger
    yield [5, 2, 5]                                                      # the edge in docs/RULES.md
    yield evens                                                          # 64 runs
    yield evens + [130, 129, 1, 131]                                     # the 65th is refused, a filled run gives its room back
    yield list(range(1, 21))                                             # in order
    yield [10, 3, 7, 1, 2, 5, 4, 6, 8, 9, 11]                            # late ones, until none is missing
    yield [0, 100_000_000, 1, 0, 100_000_000, 999_999_999]               # outside the allowed numbers
    yield [MOST, 1, MOST, MOST - 1, 50_000_000, 49_999_999, 50_000_001]  # the largest number, and both sides of a late one
    yield [7, 7, 7, 3, 3, 7, 5, 5]                                       # repeats are not heard again
    yield evens + [130, 131, 3, 130, 131, 133, 5, 133, 128, 200, 64]     # refused ones that are taken once there is room
    yield evens + [127, 125, 1, 132, 140, 150, 160]                      # three runs filled, three more opened, no fourth
    yield [200] + list(range(2, 140, 2)) + [199, 1, 198]                 # a long run taken apart, until there is no room
    yield [9, 4, 6, 5, 3, 7, 8, 2, 1]                                    # a run's first, last, middle and only number
    yield list(shuffled(900, 420, 7))                                    # mixed, with 0 among them
    yield list(shuffled(700, 150, 11))                                   # nearly all filled

    yield [5, 2, 5, GIVE_UP, 1, 0, 2, GIVE_UP, 2, 5, GIVE_UP, 8]         # the edge once more, both runs given up
    yield [GIVE_UP, 1, GIVE_UP, 2, 3, GIVE_UP, 5, 4, GIVE_UP]            # none to give up
    yield evens + [130, GIVE_UP, 130, 132, 129, 132]                     # the 65th is new once there is room
    yield evens + list(again(range(130, 400, 2)))                        # the same room again and again, until all are other runs
    yield evens + [GIVE_UP] * 66 + [128, 127, 129, 131]                  # all given up, and none left
    yield [9, 4, GIVE_UP, 3, 4, 2, 1, 0, 6, 5, GIVE_UP, 8, 7, 9, 4]      # at the floor and below it, recorded or not
    yield [20, 5, GIVE_UP, 7, 9, 6, 8, GIVE_UP, 15, GIVE_UP, 17, 19, 18, 16]  # late ones above the floor, and at a run's two sides
    yield [3, 3, GIVE_UP, 3, 5, 4, GIVE_UP, 7, GIVE_UP, 7, 6, 5]         # a run filled is none to give up
    yield [MOST, GIVE_UP, MOST, MOST - 1, 1, 0, 100_000_000, GIVE_UP]    # all but the largest number
    yield [MOST, 1, 50_000_000, GIVE_UP, 50_000_001, 49_999_999, MOST - 1, GIVE_UP, GIVE_UP, 50_000_001, MOST]
    yield [200] + list(again(range(2, 140, 2))) + [150, 160, GIVE_UP, 170]  # a long run given up in the end
    yield list(broken(23, shuffled(900, 420, 13)))                       # mixed
    yield list(broken(9, (n + place for place, n in enumerate(shuffled(600, 90, 17)))))  # rising, with much that comes late


# ---------------------------------------------------------------------------------------------------------------------
# Records of their own.

def all_left(most):
    """The ledgers that all series of numbers up to some number leave."""
    found, waiting = {}, [Ledger()]
    while waiting:
        one = waiting.pop()
        key = frozenset(one.numbers), one.floor
        if key not in found:
            found[key] = one
            waiting += [one.after(event) for event in (GIVE_UP, *range(1, most + 1))]
    return list(found.values())


# series whose records are tried, too
RIGHT = [
    [MOST],
    range(1, 130, 2),
    range(2, 129, 2),
    [*range(1, 6), 9, GIVE_UP],
    [*range(1, 8), 9, GIVE_UP],
    [9, GIVE_UP],
    [6, 8, 9, GIVE_UP],
    [1, 2, 4, 6, 9, GIVE_UP, GIVE_UP],
    [2, 4, 6, 9, GIVE_UP, GIVE_UP, 7],
    [*range(2, 129, 2), GIVE_UP, 130],
    [*range(4, 131, 2), GIVE_UP, 132],
    [MOST, GIVE_UP],
    [MOST - 2, MOST, GIVE_UP],
    [MOST - 2, MOST, GIVE_UP, GIVE_UP],
]

# records that no series leaves: ends, floor, and how many were given up
WRONG = [
    ((MOST + 1, 5), 0, 0),
    ((9, 0, 0, 0, 0, 0, 0, 1), 0, 0),
    (tuple(range(128, 0, -1)) + (1,), 0, 0),
    ((0,) * 128 + (1,), 0, 0),
    ((9,), 8, 0),                            # a floor, and none given up
    ((9,), 0, 8),                            # some given up, and no floor
    ((9,), 8, 9),                            # more than there are up to the floor
    ((9,), 9, 1),                            # the highest
    ((9,), 10, 1),                           # above it
    ((), 1, 1),                              # nothing recorded
    ((9, 5, 3), 4, 1),                       # in a missing run
    ((9, 5), 3, 3),                          # in the lowest one, from 1
    ((9, 5), 4, 4),                          # before its last number
    ((9, 5), 5, 5),                          # an end at the floor
    ((9, 5, 3), 5, 2),                       # and one below it
    ((9, 5, 3), 3, 1),                       # the number after the floor is missing
    ((9, 5, 3, 2), 1, 1),                    # the floor is missing
    (tuple(range(129, 0, -1)), 1, 1),        # 64 runs
    (tuple(range(129, 1, -1)), 1, 1),
    ((MOST,), MOST, 1),
    ((MOST,), MOST, MOST),
    ((MOST,), MOST - 1, MOST),
    ((MOST,), MOST + 1, 1),
    ((MOST, MOST - 1), MOST - 1, MOST - 1),
    ((9,), MOST - 1, 1),
    ((9,), 999_999_999, 999_999_999),
    ((9,), 8, 999_999_999),
]

# other forms of a line, and the records that they are
FORMS = {
    "9/8 3": ((9,), 8, 3),
    "9 /8 3 77 5": ((9,), 8, 3),
    "9 5 3/ 4 1": ((9, 5, 3), 4, 1),
    "9 / 8": ((9,), 8, 0),
    "0 / 1 1": ((), 1, 1),
    " ".join(map(str, range(128, -1, -1))): (tuple(range(128, 0, -1)), 0, 0),
}


def line(ends, floor, given):
    """A record as a line; one of several ends needs no slash where there is nothing behind it."""
    words = [str(e) for e in ends]
    if len(words) < 2 or floor or given:
        words += ["/", str(floor), str(given)]
    return " ".join(words)


def lent(left):
    """Lines and the records that they are: those above, all of up to four ends from 0 to 4 without a floor, and all whose ends are
    in order with a floor up to 4."""
    for ends in itertools.chain(itertools.product(range(5), repeat=2), itertools.product(range(5), repeat=4)):
        yield line(ends, 0, 0), (ends, 0, 0)
    for floor, count in itertools.product(range(5), range(5)):
        for ends in itertools.combinations(range(4, 0, -1), count):
            for given in range(floor == 0, floor + 2):
                yield line(ends, floor, given), (ends, floor, given)
    rights = [Ledger().after(*events).record() for events in RIGHT]
    assert all(one in left for one in rights) and not any(one in left for one in WRONG)
    for one in rights + WRONG:
        yield line(*one), one
    yield from FORMS.items()


def answered(ledger):
    """What the calls answer to a record, by a ledger that has it."""
    if ledger is None:
        yield from ("lent 20", "lent give-up 20", "highest 20 heard 20 missing 20 runs 20 floor 20 given-up 20", "run 0 20")
        return
    yield "lent " + ledger.after().arrive(3)
    yield "lent give-up " + ledger.after().give_up()
    yield from ledger.told()


def without_zeros(ends):
    used = tuple(ends)
    while used and used[-1] == 0:
        used = used[:-1]
    return used


# ---------------------------------------------------------------------------------------------------------------------
# The files.

def files():
    lines_in, lines_out = [], []
    for events in series():
        ledger = Ledger()
        for event in events:
            lines_in.append(str(event))
            lines_out.append("%s %s" % (event, ledger.take(event)))
        lines_in.append("")
        lines_out.extend(ledger.told())
    left = {}
    for one in all_left(4) + [Ledger().after(*events) for events in RIGHT]:
        other = left.setdefault(one.record(), one)
        assert list(answered(one)) == list(answered(other)), "one record, and two answers"
    for text, (ends, floor, given) in lent(left):
        lines_in.append(text)
        lines_out.extend(answered(left.get((without_zeros(ends), floor, given))))
    lines_out.extend(Ledger().told())
    return ["".join(one + "\n" for one in lines).encode() for lines in (lines_in, lines_out)]


if __name__ == "__main__":
    stored.keep_program("numbers", *files())
