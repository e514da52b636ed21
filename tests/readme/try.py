#!/usr/bin/env python3
"""Runs the lines of README.md that a reader would paste, each found by its first words, and looks at what they print. A line that
is not there is a fault, and so is one that begins with ./trivsome or socat and is not tried here. Where a tool is missing that
only such a line needs, the line is left out, and that is said. Prints what differs, and ends with status 1 if anything did.

try.py          takes the lines of README.md
try.py FILE     takes those of another page
"""

import dataclasses
import functools
import os
import pathlib
import re
import shlex
import shutil
import subprocess
import sys
import tempfile
import time

sys.path.append(str(pathlib.Path(__file__).resolve().parents[1]))
import network
from messages import make as messages_maker
from reference import frames, reader, started, stored

faults = started.Faults("readme")


@dataclasses.dataclass
class Line:
    begins: str  # the first words of one line of the page, and of no other
    prints: str  # what has to stand in its output, as a regular expression
    needs: tuple = ()  # tools that may be missing
    seconds: int = 20


MESSAGES = "./trivsome messages < samples/capture"
LINES = [
    Line(MESSAGES + "  ", r'"code":"0050  "', seconds=started.BUILT),
    Line("./trivsome install ~/trivsome  ", r"^installed in \S+/trivsome: ", seconds=started.BUILT),
    Line(MESSAGES + " | python3 -c 'import pandas, sys; print(", r"(?m)^\d+ +6 +8 +0050 +09:00:06\.000000$", ("pandas",)),
    Line(MESSAGES + " | python3 -c 'import pandas, sys; m = ", r"(?m)^\d+ +132\.5000 +59 +8 +0050 +09:00:06\.000000$", ("pandas",)),
    Line(MESSAGES + " | python3 -c 'import json, sys;", r"(?m)^Trading opens at 09:00\n今日上午九時開始交易$"),
    Line("./trivsome gaps < samples/capture | jq ", r'^"first","last","count"\n3,5,3\n$', ("jq",)),
    Line("./trivsome refusals < samples/capture | jq ", r'(?m)^\[671,11,58,"a packed field of the body has a bad digit"\]$', ("jq",)),
    Line("./trivsome board < samples/capture | jq ", r'(?m)^"0050  ","09:00:06\.250000","133\.0000","132\.0000","132\.5000"$', ("jq",)),
    Line("./trivsome messages derivatives-2015 < samples/derivatives  ", r'^{"at":2,"kind":"I060","seq":7,"market":"1","sent":"13:30:00\.25","contract":"TXF",'),
    Line("./trivsome listing derivatives-2015 < samples/derivatives  ", r"(?m)^2,0,29,I060,7\n31,0,34,I064,99999999$", seconds=started.BUILT),
    Line("./trivsome refusals derivatives-2015 < samples/derivatives  ", r'(?m)^{"at":65,"answer":11,"bytes":29,"place":46,"hex":'),
    Line("./trivsome capture append ~/night < samples/capture  ", r"^$", seconds=started.BUILT),
    Line("./trivsome capture show ~/night | ./trivsome listing  ", r"(?m)^total,868,41,62$", seconds=started.BUILT),
    Line("./trivsome capture verify ~/night  ", r'^{"finished":2,"bytes":971}\n$'),
    Line("./trivsome library", r"libtrivsome\.a", seconds=started.BUILT),
    Line("cc -std=c11 -O2 -Iinclude -o target/quotes ", r"^$"),
    Line("target/quotes samples/capture", r"(?m)^2330   1 trade 598.0000 x 49 bid 597.5000 x 96 ask 598.0000 x 49\n"),
    Line("cc -std=c11 -O2 -Iinclude -o target/board ", r"^$"),
    Line("target/board samples/capture", r"(?m)^2330   trade 598.0000 x 49 bid none ask none\n"),
]
LIVE = Line("socat ", "", ("socat",))  # goes on until it is stopped


# ---------------------------------------------------------------------------------------------------------------------
# The page, and the tools at hand.

def page_lines():
    """The indented lines of the page."""
    page = pathlib.Path(sys.argv[1]) if len(sys.argv) > 1 else stored.ROOT / "README.md"
    return [line.strip() for line in page.read_text(encoding="utf-8").splitlines() if line.startswith("    ")]


def found(lines, wanted):
    """The one line with these first words; two blanks behind them say that nothing follows but a comment."""
    fitting = [line for line in lines if (line + "  ").startswith(wanted.begins)]
    if len(fitting) == 1:
        return fitting[0]
    return faults.differs(f"{len(fitting) or 'no'} lines instead of one begin '{wanted.begins}'")


@functools.lru_cache
def with_pandas():
    """The first python3 at hand that has pandas."""
    folders = os.environ.get("PATH", os.defpath).split(os.pathsep)
    for python in [sys.executable, *(shutil.which("python3", path=folder) for folder in folders)]:
        if python and subprocess.run([python, "-c", "import pandas"], capture_output=True, timeout=60).returncode == 0:
            return python
    return None


def prepared(line, needs):
    """The line as it can be run here, or None where it is left out."""
    for tool in needs:
        path = with_pandas() if tool == "pandas" else shutil.which(tool)
        if not path:
            print(f"readme: LEFT OUT, no {tool}: {line}")
            return None
        if tool == "pandas":
            line = line.replace("| python3 ", f"| {shlex.quote(path)} ")
    return line


# ---------------------------------------------------------------------------------------------------------------------
# The tests.

def runs_as_told(line, wanted, home):
    with started.Started(["env", f"HOME={home}", "sh", "-c", line]) as shell:
        status = shell.ends(wanted.seconds)
        out, said = shell.out.decode("utf-8", "replace"), shell.err.decode("utf-8", "replace")
    if status != 0:
        faults.differs(f"status {status}, '{said}': {line}")
    elif not re.search(wanted.prints, out):
        faults.differs(f"'{wanted.prints}' is not in what it prints: {line}\n{out}")


def datagrams():
    """One frame, several, and more than the 8,192 bytes that socat takes at once if nothing is said."""
    quotes = [frames.frame("06", frames.quote(0xDA), f"{n:08}") for n in range(1, 150)]
    return [quotes[0], b"".join(quotes[1:9]), b"".join(quotes[9:])]


def shown(text):
    """Objects by all but their place, which hangs on what else was sent; the last may not be whole yet."""
    return [re.sub(r'"at":\d+,', "", line) for line in text.splitlines(True) if line.endswith("\n")]


def in_order(wanted, out):
    """Whether all of some lines stand in others, one behind the other."""
    rest = iter(out)
    return all(line in rest for line in wanted)


def goes_on(line):
    """Objects come out while datagrams come in. A notice is sent until it is shown: nothing else says that the group is joined."""
    line, where = network.over_loopback(line)
    moves = [move for data in datagrams() for move in reader.walk(data)]
    wanted = shown(messages_maker.printed(messages_maker.objects(moves)))
    with started.Started(["sh", "-c", line]) as shell, network.sender() as sending:
        until = time.monotonic() + started.SOON
        while not shell.shows(lambda out: b"\n" in out, 0.2) and time.monotonic() < until:
            sending.sendto(frames.NOTICE, where)
        for data in datagrams():
            sending.sendto(data, where)
        if not shell.shows(lambda out: in_order(wanted, shown(out.decode("ascii", "replace")))):
            seen = len(set(wanted) & set(shown(shell.out.decode("ascii", "replace"))))
            faults.differs(f"of {len(wanted)} objects sent {seen} are shown while it goes on, '{bytes(shell.err)}': {line}")


def main():
    with tempfile.TemporaryDirectory() as home:
        return try_all(page_lines(), home)


def try_all(lines, home):
    tried = []
    for wanted in [*LINES, LIVE]:
        line = found(lines, wanted)
        tried.append(line)
        line = line and prepared(line, wanted.needs)
        if line and wanted is LIVE:
            goes_on(line)
        elif line:
            runs_as_told(line, wanted, home)
    for line in lines:
        if line.startswith(("./trivsome", "socat")) and line not in tried:
            faults.differs(f"not tried: {line}")
    return faults.status()


if __name__ == "__main__":
    sys.exit(main())
