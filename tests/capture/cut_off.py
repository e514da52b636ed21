"""Appends that are cut off: by a kill, after any number of stores, and by a power loss behind any call."""

import concurrent.futures
import os
import re
import select
import shutil
import signal
import time

from capture import blocks
from capture.runs import (BOTH, appending, faults, folder, found_in, in_folder, made, paths, program, ran, some_bytes, wants,
                          wants_held)

KILLS = 48


# ---------------------------------------------------------------------------------------------------------------------
# Killed.

def seconds(given):
    """How long an append takes."""
    began = time.monotonic()
    wants(f"append of {len(given)} bytes", program("append", "night", given=given))
    return time.monotonic() - began


def fed_and_killed(path, data, is_slow, moment):
    """Feeds an append until it is killed; how many bytes it was given, and whether its input had ended by then."""
    until, fed = time.monotonic() + moment, 0
    with appending(path) as run:
        pipe = run.process.stdin.fileno()
        os.set_blocking(pipe, False)
        while (left := until - time.monotonic()) > 0 and fed < len(data):
            if select.select([], [pipe], [], left)[1]:
                size = made.randint(1, 1000) if is_slow else len(data)
                fed += os.write(pipe, data[fed:fed + size])
            if is_slow:
                time.sleep(made.uniform(0, moment / 20))
        is_ended = fed == len(data)
        if is_ended:
            run.process.stdin.close()
        time.sleep(max(0, until - time.monotonic()))
        os.kill(run.process.pid, signal.SIGKILL)
        run.ends()
        if run.err:
            faults.differs(f"an append that is killed says {bytes(run.err)}")
    return fed, is_ended


def kept_by_then(what, path, kept, given):
    """What is found after a kill: what was kept before, and the first of the blocks that were given."""
    if not path.exists():
        if kept:
            faults.differs(f"{what}: the file is gone")
        return []
    found = found_in(path.read_bytes())
    new = found[len(kept):]
    if found[:len(kept)] != kept or new != given[:len(new)]:
        faults.differs(f"{what}: {len(found)} blocks are found, not those from before and then the first that were given")
    wants_held(what, path, found)
    return found


def try_kills():
    """Dozens of appends are killed, many to one file one after another. The moments go by how long an append takes."""
    in_folder("night")
    start, whole = seconds(b""), seconds(made.randbytes(blocks.FULL))
    before, among, after, kept = 0, 0, 0, []
    for turn in range(KILLS):
        if not kept or len(kept) > 100 or made.random() < 0.2:
            path, kept = in_folder(f"night{turn}"), []
        room = made.randint(1, blocks.PLACES - len(kept)) * blocks.MOST
        data, is_slow = made.randbytes(room - made.choice((0, 1, 300))), made.random() < 0.3
        moment = made.uniform(made.choice((0, start)), start + whole * len(data) / blocks.FULL)
        fed, is_ended = fed_and_killed(path, data, is_slow, moment)
        given = blocks.parts(data if is_ended else data[:fed // blocks.MOST * blocks.MOST])
        found = kept_by_then(f"kill {turn} behind {len(kept)} blocks, of {fed} bytes", path, kept, given)
        new = len(found) - len(kept)
        before, among, after = before + (new == 0), among + (0 < new < len(given)), after + (0 < new == len(given))
        kept = found
    print(f"capture: {KILLS} kills, {before} before a block was kept, {among} among those that were given, {after} after them")
    if among == 0:
        faults.differs("no kill fell among blocks")


# ---------------------------------------------------------------------------------------------------------------------
# After so many stores.

def cut_after(kept, payload, count, rest):
    """A capture in which an append of a payload behind these was cut off after so many stores, in any order but for the last.
    Other bytes than zeros may stand in its block and in those behind."""
    data = bytearray(blocks.capture(kept))
    for place in range(len(kept), blocks.PLACES):
        data[place * blocks.BLOCK + 4:(place + 1) * blocks.BLOCK] = rest
    for at, byte in made.sample(blocks.stores(len(kept) + 1, payload)[:-1], count):
        data[at] = byte
    return bytes(data)


def try_cut(cut):
    """One program shows what was finished before, and an append by the other takes the place of the block that was cut off."""
    what, (reader, writer), data, kept = cut
    path, start, end = in_folder(what, data), len(kept) * blocks.BLOCK, (len(kept) + 1) * blocks.BLOCK
    wants(f"{what}, show by {reader}", BOTH[reader]("show", what), out=b"".join(kept))
    wants(f"{what}, append by {writer}", BOTH[writer]("append", what, given=b"behind the cut"))
    if path.read_bytes() != data[:start] + blocks.block(len(kept) + 1, b"behind the cut") + data[end:]:
        faults.differs(f"{what}: {writer} does not take place {len(kept) + 1}, or changes more than that")
    path.unlink()


def try_cuts():
    """Power goes after each number of stores."""
    cuts, names = [], list(BOTH)
    for count in range(blocks.BLOCK):
        kept = [some_bytes() for _ in range(made.choice((0, 1, 2, 7)))]
        data = cut_after(kept, some_bytes(), count, made.choice((bytes(508), made.randbytes(508))))
        cuts.append((f"cut after {count} stores", names if count % 2 else names[::-1], data, kept))
    with concurrent.futures.ThreadPoolExecutor(len(os.sched_getaffinity(0))) as pool:
        list(pool.map(try_cut, cuts))


# ---------------------------------------------------------------------------------------------------------------------
# Behind any call.

CALL = re.compile(r'^\d+ +(\w+)\((.*)\) += (\d+)$')
TEXT = re.compile(r'"((?:\\x[0-9a-f]{2})*)"')
CALLS = "trace=openat,write,writev,pwrite64,fsync,fdatasync,rename,renameat,renameat2"


def calls_of(given):
    """The calls by which an append changes files, as strace sees them: each with the file's name, and of a write the place in the
    file and the bytes. None if strace cannot be used, even of a program that does nothing."""
    log = in_folder("calls")
    if not shutil.which("strace"):
        print("capture: left out, power that goes behind any call: there is no strace")
        return None
    trace = ["strace", "-f", "-xx", "-s", "70000", "-e", CALLS, "-o", str(log)]
    status, _, said = ran([*trace, "true"])
    if status != 0 or said:
        print(f"capture: left out, power that goes behind any call: strace does not work here, {said.strip()}")
        return None
    wants("append under strace", ran([*trace, paths["program"], "append", "night"], given=given))
    opened, calls = {}, []
    for name, words, result in (found.groups() for line in log.read_text().splitlines() if (found := CALL.match(line))):
        texts = [bytes.fromhex(text.replace("\\x", "")) for text in TEXT.findall(words)]
        file = opened.get(words.split(",")[0])
        if name == "openat":
            opened[result] = texts[0].decode()
        elif name.startswith("rename"):
            calls.append(("rename", texts[0].decode(), None, texts[1]))
        elif file in ("night", "night.new", "."):
            start = int(words.rsplit(", ", 1)[1]) if name == "pwrite64" else None
            calls.append((name, file, start, texts[0] if texts else b""))
    return calls


def with_some(disk, waiting, chance):
    """What the device may hold if power goes: some of the bytes that were not waited for."""
    data = bytearray(disk)
    for at, byte in waiting:
        if made.random() < chance:
            data[at] = byte
    return bytes(data)


def try_calls():
    """Power goes behind any call of an append to a new file. The name is there only once the device has the zeros, and the device
    has the name before anything is kept; then all that was finished is found, and more only by a number's last byte."""
    in_folder("night")
    given = made.randbytes(2000)
    calls = calls_of(given)
    if calls is None:
        return
    making = [(name, file) for name, file, _, _ in calls[:4]]
    if making != [("write", "night.new"), ("fsync", "night.new"), ("rename", "night.new"), ("fsync", ".")]:
        faults.differs(f"a new file is made by {making}")
    disk, waiting, finished = bytes(blocks.SIZE), [], []
    for name, file, start, data in calls[4:]:
        if name == "pwrite64":
            waiting += enumerate(data, start)
        elif name == "fdatasync":
            disk, waiting = with_some(disk, waiting, 1), []
            finished = found_in(disk)
        else:
            faults.differs(f"{name} of {file} while blocks are kept")
        more = blocks.parts(given)[:len(finished) + (len(waiting) == 1)]
        for chance in (0, 0.1, 0.5, 0.9, 1):
            found = found_in(with_some(disk, waiting, chance))
            if found not in (finished, more):
                faults.differs(f"power goes behind {name} at {start}: {len(found)} blocks are found, {found[-1:]} the last, and "
                               f"{len(finished)} were finished")
    if disk != (folder / "night").read_bytes() or waiting or finished != blocks.parts(given):
        faults.differs("at the end the device has something else than the file")


TRIES = [try_kills, try_cuts, try_calls]
