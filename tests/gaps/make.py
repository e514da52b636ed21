#!/usr/bin/env python3
"""Makes the stored input of the program gaps, a noisy closed line, and what it has to print of it, the numbers of format six that
are missing, as JSON: tests/gaps/give-up with that argument, else the crate's own output.

The line is put together from cases, one function each, in the order in which they stand in the file. A case gives parts: some
bytes, and what is to become of the number in them without the argument and with it: "new", "repeat", 21, 22, 25, or None where no
frame of format six is accepted. The reports are made a second way: the reference reader (tests/reference) finds the frames, and a
plain set keeps the numbers. Both ways have to agree arrival for arrival before anything is written. Nothing is taken from the
program's output.

make.py           writes the three files
make.py --check   compares instead, and exits 1 on a difference
"""

import collections
import itertools
import json
import pathlib
import sys

sys.path.append(str(pathlib.Path(__file__).resolve().parents[1]))
from reference import frames, reader, stored

MOST_RUNS = 64

# ---------------------------------------------------------------------------------------------------------------------
# A plain ledger: the set of the numbers that are recorded, and the floor.


class Ledger:
    def __init__(self):
        self.numbers, self.floor = set(), 0

    def missing_runs(self, more=()):
        """The runs of numbers above the floor and below the highest that are not there, lowest first: first and last of each."""
        stand = [self.floor] + sorted(n for n in self.numbers.union(more) if n > self.floor)
        return [(low + 1, high - 1) for low, high in zip(stand, stand[1:]) if high - low > 1]

    def arrive(self, n):
        """What an arrival is answered; a new number is put into the set."""
        if n == 0:
            return 21
        if n <= self.floor:
            return 25
        if n in self.numbers:
            return "repeat"
        if len(self.missing_runs([n])) > MOST_RUNS:
            return 22
        self.numbers.add(n)
        return "new"

    def arrive_giving_up(self, n):
        """The same where the lowest run is given up for a number that is answered 22, which then arrives again."""
        answer = self.arrive(n)
        if answer != 22:
            return answer
        self.floor = self.missing_runs()[0][1]
        return self.arrive(n)

    def figures(self):
        highest, runs = max(self.numbers, default=0), self.missing_runs()
        missing = sum(last - first + 1 for first, last in runs)
        given_up = self.floor - sum(n <= self.floor for n in self.numbers)
        assert len(self.numbers) + missing + given_up == highest
        return dict(highest=highest, heard=len(self.numbers), missing=missing, floor=self.floor, given_up=given_up)


def report(ledger, answers):
    """The objects: the missing runs, the answers that refused arrivals, the figures; as the standard library's JSON."""
    told = [dict(first=first, last=last, count=last - first + 1) for first, last in ledger.missing_runs()]
    told += [dict(refused=answer, count=answers[answer]) for answer in (21, 22, 25) if answers[answer]]
    told += [ledger.figures()]
    return "".join(json.dumps(one, separators=(",", ":")) + "\n" for one in told).encode()


# ---------------------------------------------------------------------------------------------------------------------
# The cases, in the order in which they stand in the line.

def six(answer, n, reveal=0xA2, giving_up=None):
    """A frame of format six and what its number is answered: where runs are given up, something else if that is said."""
    return frames.frame("06", frames.quote(reveal), f"{n:08}"), answer, giving_up or answer


def last_of_day(answer, n):
    return frames.frame("06", frames.quote(code=b"000000", time=frames.NINES), f"{n:08}"), answer, answer


def other(form, body, n):
    return nothing(frames.frame(form, body, f"{n:08}"))


def nothing(data):
    return data, None, None


def beginning():
    """The first frame is not number 1; then some in order, one twice."""
    yield six("new", 4)
    for n in (5, 6, 7):
        yield six("new", n)
    yield six("repeat", 7)
    yield six("repeat", 4)


def late_ones():
    """A run shrinks from below, from above and in its middle, and goes."""
    yield six("new", 20)  # 8 to 19 are missing
    yield six("new", 8)
    yield six("new", 19)
    yield six("new", 12)
    yield six("repeat", 12)
    yield six("new", 2)  # 1 and 3
    yield six("new", 3)
    for n in (9, 10, 11):
        yield six("new", n)
    yield six("repeat", 10)


def no_arrivals():
    """Number 0, other formats, and frames of format six that are refused or cut up, with numbers that would else count."""
    yield six(21, 0)
    yield other("05", frames.notice("09", b"text"), 13)
    yield other("12", frames.table(frames.slot()), 14)
    yield other("19", frames.halt(), 15)
    yield other("05", frames.notice("00"), 99999999)
    yield other("19", frames.halt(), 0)
    yield nothing(frames.frame("06", frames.quote(0xA2), "00000013", version="03"))  # 8
    yield nothing(frames.frame("06", frames.quote(0x60), "00000014"))  # 10
    yield nothing(frames.frame("06", frames.quote(0xA3), "00000014"))  # 10
    yield nothing(frames.frame("06", frames.quote(0x03, b""), "00000014"))  # 10
    yield nothing(frames.frame("06", frames.quote(time="240000000000"), "00000015"))  # 12
    yield nothing(frames.frame("06", frames.quote(), "00000016", check=0xEE))  # 5
    yield nothing(frames.frame("06", frames.quote(), "00000017")[1:])
    yield six(21, 0)
    yield nothing(b"~" * 3000)


def all_sizes():
    """Some, few and no pairs, and the trade alone, in falling order."""
    for n, reveal in zip(range(300, 200, -1), itertools.cycle((0x00, 0x80, 0xDA, 0x52, 0x81, 0x1A, 0x01))):
        yield six("new", n, reveal)


def many_runs():
    """Every second number up to 64 runs; then a new run is refused, whether below, between or above, and the rest is not. Where
    runs are given up there is room for each, and those below the floor come too late."""
    for n in range(302, 422, 2):
        yield six("new", n)
        yield six("repeat", n)
    # 1, 13 to 18, 21 to 200, and 60 runs of one number
    yield six("new", 423)  # 421 and 422
    yield six(22, 100, giving_up="new")  # for 1
    yield six(22, 425, giving_up="new")  # for 13 to 18
    yield six(22, 99999999, giving_up="new")  # for 21 to 99
    yield six("repeat", 423)
    yield six(21, 0)
    yield six("new", 424)
    yield six("new", 422)
    yield six(22, 15, giving_up=25)
    yield six("new", 13, giving_up=25)
    yield six("new", 18, giving_up=25)
    yield six("new", 421)  # 63 runs
    yield six("new", 16, giving_up=25)  # 64 again: 14 to 15, and 17
    yield six(22, 426, giving_up="new")
    yield six(22, 100, giving_up="repeat")
    yield six("new", 17, giving_up=25)
    yield six("new", 100, giving_up="repeat")
    yield other("05", frames.notice("90"), 50)
    yield six("new", 301)


def much_in_order():
    """Enough to fill buffers of 65,536 bytes; the frames come in order and close runs as they repeat what was heard."""
    heard = set(range(302, 421, 2)) | {421, 422, 423, 424, 301}
    for n in range(340, 424):
        yield six("repeat" if n in heard else "new", n, 0xDA)
    for n in range(425, 1500):
        yield six("new", n, giving_up="repeat" if n < 427 else "new")
        if n % 50 == 0:
            yield six("repeat", n - 50)
            yield nothing(b"~" * (n % 9))


def the_highest():
    """The largest number, and the day's last frame, which counts."""
    yield six("new", 99999999, giving_up="repeat")
    yield last_of_day("new", 1500)
    yield last_of_day("repeat", 1500)
    yield six("new", 50000000)
    yield six("repeat", 99999999)
    yield last_of_day(21, 0)
    yield six("new", 99999998)


def full_again():
    """64 runs once more. Where some were given up there are 62: 101 to 200, 303 to 339, 1501 to 1997, and so on."""
    for n in range(39):
        yield six("new", 2000 + 7 * n * n)
    yield six(22, 1998, giving_up="new")
    yield six("new", 1999)
    yield six(22, 60000000, giving_up="new")


def much_refused():
    """Many that there is no room for. Two fill the ledger where runs are given up, the next 38 take a run each: 21 of those named,
    and 17 of those between 2,000 + 7 n n."""
    for n in range(60000002, 60000082, 2):
        yield six(22, n, giving_up="new")


def too_late():
    """At the floor and below it, heard before or not; the one above it; and one of the lowest run, which is given up for it."""
    floor = 2000 + 7 * 17 * 17 - 1
    yield six("new", floor, giving_up=25)
    yield six("repeat", floor, giving_up=25)
    yield six(22, 150, giving_up=25)
    yield six("repeat", 360, giving_up=25)
    yield six("repeat", floor + 1)
    yield six(21, 0)
    lowest = range(floor + 2, 2000 + 7 * 18 * 18)
    yield six(22, lowest[70], giving_up=25)
    yield six("new", lowest[-1], giving_up=25)
    yield six("new", lowest[0], giving_up=25)
    yield six("repeat", lowest[-1] + 1)
    yield six(22, 60000100, giving_up="new")


def cut_at_the_end():
    """A frame that the line's end cuts does not arrive; one inside it does."""
    yield nothing(frames.packed("1B1024") + b"o" * 20)
    yield six("new", 1501, giving_up=25)
    data, *_ = six(None, 70000000)
    yield nothing(data[:-1])


CASES = [
    beginning, late_ones, no_arrivals, all_sizes, many_runs, much_in_order, the_highest, full_again, much_refused, too_late,
    cut_at_the_end
]


def answered(arrivals, ledger, arrive, meant, wanted):
    """The answers to all arrivals at a ledger; each has to be the one that is meant, and each of those wanted to occur."""
    found = [(at, arrive(n)) for at, n in arrivals]
    for (case, *one), other in itertools.zip_longest(meant, found, fillvalue=("no case", None)):
        assert one == list(other), f"{case} is made for {one}, and the set says {other}"
    answers = collections.Counter(answer for _, answer in found)
    assert set(answers) == wanted, f"{set(answers)} occur, and not {wanted}"
    assert len(ledger.missing_runs()) == MOST_RUNS
    return answers


def main():
    line, told, given_up = b"AB", [], []
    for case in CASES:
        for data, answer, giving_up in case():
            if answer is not None:
                told.append((case.__name__, len(line), answer))
                given_up.append((case.__name__, len(line), giving_up))
            line += data
    assert len(line) > 65536
    arrivals = [(at, message["seq"]) for at, answer, _, message in reader.walk(line) if answer == 0 and message["format"] == 6]

    plain, short = Ledger(), Ledger()
    answers = answered(arrivals, plain, plain.arrive, told, {"new", "repeat", 21, 22})
    others = answered(arrivals, short, short.arrive_giving_up, given_up, {"new", "repeat", 21, 25})

    crate = stored.folder("gaps")
    stored.keep({
        crate / "stdin": line,
        crate / "stdout": report(plain, answers),
        stored.ROOT / "tests" / "gaps" / "give-up": report(short, others),
    })
    for ledger, counts in ((plain, answers), (short, others)):
        counts = ", ".join(f"{answer}: {n}" for answer, n in sorted(counts.items(), key=str))
        print(f"{len(line)} bytes, {len(ledger.missing_runs())} missing runs; arrivals by answer: {counts}")


if __name__ == "__main__":
    main()
