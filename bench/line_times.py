"""Programs on whole lines, from a file to a file: the proved ones and the second program's."""

import filecmp
import pathlib
import random
import shutil
import subprocess
import sys
import time

import machine

WORK = machine.ROOT / "target" / "bench"
MB = 10 ** 6
NAMES = "listing", "messages", "refusals", "gaps", "board"
DERIVATIVES = "derivatives-2015"  # the word for a line of the derivatives exchange
TAKE_WORDS = "listing", "messages", "refusals"  # the programs that take such a word


# ---------------------------------------------------------------------------------------------------------------------
# The lines.

def packed(number, digits):
    return bytes.fromhex(str(number).zfill(digits + digits % 2))


def quote(seq, chance):
    """A quote of 113 bytes: a trade, four bids and four asks."""
    body = b"%-6d" % chance.randrange(1000, 10000) + packed(90415061278, 12) + bytes([0xC8, 0, 0]) + packed(chance.randrange(10 ** 8), 8)
    body += b"".join(packed(chance.randrange(10 ** 9), 9) + packed(chance.randrange(10 ** 8), 8) for _ in range(9))
    return around(packed(13 + len(body), 4) + b"\x01\x06\x04" + packed(seq, 8) + body)


def around(inner):
    """The frame around what its check byte covers."""
    check = 0
    for byte in inner:
        check ^= byte
    return b"\x1b" + inner + bytes([check]) + b"\r\n"


def index_value(seq, chance):
    """An index value of 29 bytes: I060 with a short contract."""
    body = b"TXF" + packed(9041506, 8) + packed(chance.randrange(10 ** 8), 8) + b"\0"
    return around(b"15" + packed(9041512, 8) + packed(seq, 8) + b"\x02" + packed(len(body), 4) + body)


def spoiled(frame, behind=0):
    """The same frame with a bad digit in the low half of its body's last byte, or so many before it, and its check byte right."""
    at = len(frame) - 4 - behind
    bad = frame[at] | 0x0F
    return frame[:at] + bytes([bad]) + frame[at + 1:-3] + bytes([frame[-3] ^ frame[at] ^ bad]) + frame[-2:]


def lines(quick, most):
    """The word for the exchange, if it needs one, name, what is repeated, and how many bytes of it, for good frames some MB at most."""
    chance = random.Random(1)
    quotes = [quote(seq, chance) for seq in range(1, 2001 if quick else 20001)]
    good, bad = b"".join(quotes), b"".join(map(spoiled, quotes))
    # 27s that each claim about a thousand bytes up to a right end, so that each check byte is worked out
    false_frames = b"".join(b"\x1b" + packed(1024 - 3 * n, 4) for n in range(10)) + b"\r\n"
    for size in [1, 10] if quick else [1, 10, 100, 200, 1000]:
        if size <= most:
            yield [], "good frames of 113 bytes", good, size * MB
    size = (2 if quick else 20) * MB
    yield [], "the same with a bad digit each", bad, size
    yield [], "noise without a 27", bytes(range(28, 255)), size
    yield [], "all 27s", b"\x1b", size
    yield [], "false lengths of 1,024", b"\x1b\x10\x24", size
    yield [], "false frames with right ends", false_frames, size
    values = [index_value(seq, chance) for seq in range(1, 2001 if quick else 20001)]
    yield [DERIVATIVES], "index values of 29 bytes", b"".join(values), 5 * size
    yield [DERIVATIVES], "index values, a bad digit each", b"".join(spoiled(value, 1) for value in values), size


def write(path, block, size):
    block *= max(1, MB // len(block))
    with open(path, "wb") as file:
        for at in range(0, size, len(block)):
            file.write(block[:size - at])


# ---------------------------------------------------------------------------------------------------------------------

def timed(command, line, output):
    with open(line, "rb") as source, open(output, "wb") as sink:
        start = time.perf_counter()
        subprocess.run(command, stdin=source, stdout=sink, check=True)
        return time.perf_counter() - start


def memory(command, line):
    """The most memory of a run: what the system says when all but the last bytes of the line are read."""
    with open(line, "rb") as source, subprocess.Popen(command, stdin=subprocess.PIPE, stdout=subprocess.DEVNULL) as run:
        shutil.copyfileobj(source, run.stdin, MB)
        run.stdin.flush()
        try:
            status = pathlib.Path(f"/proc/{run.pid}/status").read_text()
        except OSError:
            status = ""
    most = [row.split()[1] for row in status.splitlines() if row.startswith("VmHWM")]
    return f"{int(most[0]) / 1000:.1f} MB" if most else "-"


def one(commands, name, line, rounds):
    """Compares both on a line, times each in its turn, and prints a row."""
    outputs = WORK / "proved", WORK / "second"
    turn = lambda: [timed(command, line, output) for command, output in zip(commands, outputs)]
    turn()
    if not filecmp.cmp(*outputs, shallow=False):
        sys.exit(f"bench: the outputs for {name} differ: {outputs[0]} and {outputs[1]}")
    rows = [turn() for _ in range(rounds)]
    proved, second = map(min, zip(*rows))
    length = line.stat().st_size
    print(f"  {name:32} {length / MB:6.0f} {proved:9.3f} {second:9.3f} {proved / second:6.2f} {length / proved / MB:7.0f} {proved / length * 1e9:8.2f}"
          + "".join(f" {memory(command, line):>9}" for command in commands))


class Program:
    """A program by its name."""

    def __init__(self, name):
        self.name = name
        self.most = 1000 if name == "listing" else 100  # messages prints five times what it reads, refusals twice

    def build(self):
        return machine.built(machine.ROOT / "native" / "build", "program", self.name), machine.cargo("second", self.name)

    def run(self, programs, quick):
        WORK.mkdir(parents=True, exist_ok=True)
        print(f"{self.name}: a line in a file, what is printed into a file")
        print(f"  {'':32} {'MB':>6} {'proved s':>9} {'second s':>9} {'ratio':>6} {'MB/s':>7} {'ns/byte':>8} {'memory':>9} {'second':>9}")
        line = WORK / "line"
        try:
            for words, name, block, size in lines(quick, self.most):
                if words and self.name not in TAKE_WORDS:
                    continue
                if shutil.disk_usage(WORK).free < 12 * size + 1000 * MB:
                    print(f"  {name:32} {size / MB:6.0f} left out: the disk has no room for it")
                    continue
                write(line, block, size)
                one([[program, *words] for program in programs], name, line, 3 if quick or size >= 500 * MB else 5)
        finally:
            line.unlink(missing_ok=True)
        for output in ("proved", "second"):
            (WORK / output).unlink(missing_ok=True)
