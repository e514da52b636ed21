"""What the program capture keeps, shows and says, of sound files and of others."""

import os
import resource
import signal
import socket
import subprocess
import time

from capture import blocks
from capture.runs import (BOTH, appending, faults, folder, found_in, in_folder, made, nobody, paths, program, ran, some_bytes,
                          wants, wants_held)
from reference import started, stored

USAGE = "usage: capture append FILE | show FILE | verify FILE | --help\n"
SAMPLE = stored.ROOT / "samples" / "capture"


# ---------------------------------------------------------------------------------------------------------------------
# What is kept.

def try_keeping():
    """Inputs of several lengths, one after another to one file; all blocks but an input's last are full."""
    few = [made.randbytes(n) for n in (0, 1, 503, 504, 505, 1008, 1009, 0, 5)]
    for inputs in ([b""], [b"a"], few, [made.randbytes(blocks.FULL)], [made.randbytes(blocks.FULL - 503), b""], [bytes(2000)]):
        what, kept = f"append of {[len(given) for given in inputs]} bytes", sum(map(blocks.parts, inputs), [])
        for name, run in BOTH.items():
            path = in_folder("night")
            for given in inputs:
                wants(f"{what} by {name}", run("append", "night", given=given))
            if path.read_bytes() != blocks.capture(kept):
                faults.differs(f"{what} by {name}: the file is not the one that they make")
        wants_held(what, path, kept)
    if list(folder.glob("*.new*")):
        faults.differs("a file is left that was to be renamed")


def try_names():
    """Files here and in other folders, by a path from here and by a whole one."""
    (folder / "deep" / "er").mkdir(parents=True)
    for path in (in_folder("deep/er/night"), in_folder("deep/night"), in_folder("night")):
        for name in (str(path.relative_to(folder)), str(path)):
            wants(f"append to {name}", program("append", name, given=b"kept"))
        if found_in(path.read_bytes()) != [b"kept", b"kept"]:
            faults.differs(f"append to {path}: the file has something else")


def try_taken():
    """Files that have the names by which a new file is made: none is changed, and the first name that is free is used. A capture is
    among them, a link to one, and what a run left that was ended before it renamed its file."""
    names = [f"night.new{n or ''}" for n in range(100)]
    kept, linked = blocks.capture([b"a night"]), in_folder("linked", blocks.capture([b"another night"]))
    for count in (1, 2, 99, 100):
        others = [kept, linked.read_bytes(), b"", bytes(5), bytes(blocks.SIZE), *[b"left"] * 95]
        taken, what, path = dict(zip(names[:count], others)), f"append with {count} names taken", in_folder("night")
        for name, data in taken.items():
            in_folder(name, data)
        if count > 1:
            in_folder(names[1]).symlink_to(linked)
        said = "" if count < 100 else "capture: cannot make night: with .new to .new99 behind its name there are files already\n"
        wants(what, program("append", "night", given=b"kept"), said)
        if (found_in(path.read_bytes()) if path.exists() else []) != ([b"kept"] if count < 100 else []):
            faults.differs(f"{what}: the file is not made, or has something else")
        if {one.name: one.read_bytes() for one in folder.glob("*.new*")} != taken:
            faults.differs(f"{what}: one of these files is changed, gone or new")
    for name in names:
        in_folder(name)


def soon_held(path, wanted):
    """Whether a file soon holds these payloads."""
    until, found = time.monotonic() + started.SOON, []
    while time.monotonic() < until:
        if path.exists() and (found := found_in(path.read_bytes())) == wanted:
            return True
        time.sleep(0.001)
    faults.differs(f"append of pieces: {len(found)} blocks instead of {len(wanted)} while the input is open")
    return False


def try_pieces():
    """Input that comes in small pieces and pauses: a block is kept as soon as there are 504 bytes, the rest at the end."""
    path, given = in_folder("night"), made.randbytes(3000)
    with appending(path) as run:
        for end in range(97, len(given) + 97, 97):
            whole = blocks.parts(given[:end // blocks.MOST * blocks.MOST])
            if not run.takes(given[end - 97:end]) or not soon_held(path, whole):
                break
        run.process.stdin.close()
        if run.ends() != 0 or run.err or path.read_bytes() != blocks.capture(blocks.parts(given)):
            faults.differs(f"append of pieces: {bytes(run.err)}, or another file than the one that they make")


def try_listing():
    """A line that was kept is listed as the line itself, by the commands as they are typed."""
    if not started.runs("listing"):
        return faults.differs("listing does not run")
    path, printed = in_folder("night"), []
    for command in (f"./trivsome capture append '{path}' < '{SAMPLE}'", f"./trivsome capture show '{path}'",
                    f"./trivsome capture show '{path}' | ./trivsome listing", f"./trivsome listing < '{SAMPLE}'"):
        done = subprocess.run(command, shell=True, cwd=stored.ROOT, capture_output=True, timeout=started.BUILT)
        if done.returncode != 0 or done.stderr:
            faults.differs(f"{command}: status {done.returncode}, {done.stderr}")
        printed.append(done.stdout)
    if printed[:2] != [b"", SAMPLE.read_bytes()] or printed[2] != printed[3] or not printed[3]:
        faults.differs(f"a line that was kept is shown or listed otherwise: {printed}")


# ---------------------------------------------------------------------------------------------------------------------
# What is refused.

def try_full():
    """What has no room is not taken, and it is said how much was."""
    full, most = blocks.FULL, blocks.MOST
    nearly = full - most
    for before, given, taken in ((0, full + 1, full), (0, 10**6, full), (nearly, 1000, most), (nearly + 1, 1, 0), (full, 1, 0),
                                 (full, 0, None)):
        what = f"append of {given} bytes behind {before}"
        before, given = blocks.parts(made.randbytes(before)), made.randbytes(given)
        said = "" if taken is None else f"capture: night is full: {taken} bytes were taken\n"
        for name, run in BOTH.items():
            path = in_folder("night", blocks.capture(before))
            wants(f"{what} by {name}", run("append", "night", given=given), said)
            wants_held(f"{what} by {name}", path, (before + blocks.parts(given))[:blocks.PLACES])


def wants_refused(what, data, said, answer):
    """Every use of such a file is refused by both programs, and leaves it as it is; an append does not wait for its input."""
    for name, run in BOTH.items():
        path = in_folder("refused", data)
        wants(f"{what}, show by {name}", run("show", "refused"), said)
        wants(f"{what}, verify by {name}", run("verify", "refused"), said, answer)
        for given in (b"", b"any"):
            wants(f"{what}, append by {name}", run("append", "refused", given=given), said)
        if path.read_bytes() != data:
            faults.differs(f"{what}: {name} changes the file")
    with appending(path) as waits:
        if waits.ends() != 1:
            faults.differs(f"{what}: append waits for its input")


def try_lengths():
    said, answer = "capture: refused is not 65,536 bytes long\n", b'{"answer":34}\n'
    for length in (0, 1, 512, blocks.SIZE - 1, blocks.SIZE + 1, 2 * blocks.SIZE):
        wants_refused(f"a file of {length} bytes", bytes(length), said, answer)


def bad_captures():
    """What is wrong, the blocks, each as bytes, and the place of the first bad one."""
    good = [blocks.block(place, some_bytes()) for place in range(1, 6)]
    all_places = [blocks.block(place, bytes([place])) for place in range(1, blocks.PLACES + 1)]

    def with_block(place, one, others=good):
        return others[:place - 1] + [one] + others[place:]

    def changed(one, at, byte):
        return one[:at] + bytes([byte]) + one[at + 1:]

    yield "the number of another place", with_block(3, blocks.sealed(4, 1, b"a")), 3
    yield "a number with a high byte", with_block(3, blocks.sealed(3 << 24 | 3, 1, b"a")), 3
    yield "a number above the places", good + [blocks.sealed(129, 1, b"a")], 6
    yield "a block behind an unfinished one", with_block(2, bytes(blocks.BLOCK)), 3
    yield "a block behind one of any bytes and no number", with_block(2, bytes(4) + made.randbytes(508)), 3
    yield "no bytes that are used", with_block(4, blocks.sealed(4, 0, b"")), 4
    yield "505 bytes that are used", with_block(4, blocks.sealed(4, 505, b"a" * 504)), 4
    yield "a byte behind those that are used", with_block(1, blocks.sealed(1, 3, b"abc\0\0a")), 1
    yield "another first sum", with_block(5, changed(good[4], 510, good[4][510] ^ 1)), 5
    yield "another second sum", with_block(5, changed(good[4], 511, good[4][511] ^ 128)), 5
    yield "255 for a sum of 0", with_block(1, changed(blocks.block(1, b"\xf7\x05"), 511, 255)), 1
    yield "another payload byte", with_block(2, changed(good[1], 6, good[1][6] ^ 16)), 2
    yield "two bad blocks", with_block(2, good[0], with_block(4, good[0])), 2
    yield "the last of all places", with_block(128, changed(all_places[127], 6, 9), all_places), 128


def try_bad():
    for what, parts, place in bad_captures():
        data = b"".join(parts).ljust(blocks.SIZE, b"\0")
        if [str(found) for found in found_in(data)] != [f"(33, {place})"]:
            faults.differs(f"{what}: the reader in Python answers {found_in(data)}")
        answer = f'{{"answer":33,"place":{place}}}\n'.encode()
        wants_refused(what, data, f"capture: block {place} of refused is bad\n", answer)


# ---------------------------------------------------------------------------------------------------------------------
# What cannot be done.

def try_files():
    """Files that cannot be opened, read or made."""
    in_folder("closed", blocks.capture([b"kept"])).chmod(0)
    in_folder("still", blocks.capture([b"kept"])).chmod(0o444)
    (folder / "room").mkdir()
    for use, verb in (("append", "open"), ("show", "read"), ("verify", "read")):
        wants(f"{use} of a closed file", nobody(use, "closed"), "capture: cannot open closed: Permission denied\n")
        wants(f"{use} of a folder", program(use, "room"), f"capture: cannot {verb} room: Is a directory\n")
    wants("append to a file to be read", nobody("append", "still"), "capture: cannot open still: Permission denied\n")
    wants("show of a file to be read", nobody("show", "still"), out=b"kept")
    for use in ("show", "verify"):
        wants(f"{use} of no file", program(use, "none"), "capture: cannot open none: No such file or directory\n")
    said = "capture: cannot make none/night.new: No such file or directory\n"
    wants("append in no folder", program("append", "none/night"), said)
    (folder / "room").chmod(0o555)
    said = "capture: cannot make room/night.new: Permission denied\n"
    wants("append in a folder to be read", nobody("append", "room/night"), said)
    if (folder / "none").exists() or list((folder / "room").iterdir()):
        faults.differs("what cannot be done leaves something behind")
    (folder / "room").chmod(0o333)
    said = "capture: cannot open room/: Permission denied\n"
    wants("append in a folder to be written", nobody("append", "room/night", given=b"any"), said)
    (folder / "room").chmod(0o755)
    if found_in((folder / "room" / "night").read_bytes()):
        faults.differs("a block is kept in a file whose name may not be on the disk")


def no_longer_than(length):
    """For a child: no file may become longer, and a write is told so."""
    def limit():
        signal.signal(signal.SIGXFSZ, signal.SIG_IGN)
        resource.setrlimit(resource.RLIMIT_FSIZE, (length, length))

    return limit


def try_no_room():
    """A file system that takes no more. Of what it took, the finished blocks are found, and the next append goes on."""
    path, given = in_folder("night", blocks.capture([b"kept"])), made.randbytes(3000)
    kept = [b"kept", *blocks.parts(given)[:2]]
    said = "capture: cannot write night, 1008 bytes were taken: File too large\n"
    wants("append without room", program("append", "night", given=given, preexec_fn=no_longer_than(1700)), said)
    wants_held("append without room", path, kept)
    wants("append, later", program("append", "night", given=b"later"))
    wants_held("append, later", path, kept + [b"later"])
    in_folder("night")
    said = "capture: cannot write night.new: File too large\n"
    wants("append without room for a new file", program("append", "night", given=given, preexec_fn=no_longer_than(1700)), said)
    if path.exists() or list(folder.glob("*.new*")):
        faults.differs("a file is made or left that is not whole")


def broken_off(data):
    """A connection whose other side went without reading what it was sent: a read gives the bytes, then fails."""
    given, other = socket.socketpair()
    given.send(b"unread")
    other.sendall(data)
    other.close()
    return given


def try_streams():
    """Input that breaks off, output that takes nothing, and streams that are closed, for which no file must stand in."""
    for given in (b"", b"a", made.randbytes(504), made.randbytes(1300)):
        path, what = in_folder("night"), f"append of {len(given)} bytes that break off"
        with broken_off(given) as stream:
            said = f"capture: cannot read standard input: {len(given)} bytes were taken\n"
            wants(what, program("append", "night", given=stream), said)
        wants_held(what, path, blocks.parts(given))
    path = in_folder("night", blocks.capture([b"kept"]))
    if os.path.exists("/dev/full"):
        with open("/dev/full", "wb") as full:
            for words in (["show", "night"], ["verify", "night"], ["--help"]):
                wants(f"{words} on a full disk", program(*words, stdout=full), "capture: cannot write standard output\n")
    for closed in ("<&-", ">&-", "2>&-", "<&- >&- 2>&-"):
        status, out, said = ran(["sh", "-c", f'"$0" append night {closed}', paths["program"]], given=b"more")
        if status != 1 or out or said not in ("", "capture: standard input, output or error is closed\n"):
            faults.differs(f"append {closed}: status {status}, {out!r}, {said!r}")
        wants_held(f"append {closed}", path, [b"kept"])


def try_words():
    """The arguments."""
    path = in_folder("night", blocks.capture([b"kept"]))
    for words in ([], ["append"], ["show"], ["night"], ["keep", "night"], ["append", "night", "night"], ["show", "night", ""],
                  ["Append", "night"], ["appending", "night"], ["--help", "night"], ["-h"], [""], ["", "night"]):
        wants(f"the words {words}", program(*words, given=b"any"), USAGE)
    for use in ("append", "show", "verify"):
        for name in ("", "a" * 4097):
            said = "capture: the name of FILE is empty, or longer than 4,096 bytes\n"
            wants(f"{use} of a name of {len(name)} bytes", program(use, name), said)
        for name in ("a" * 256, "a" * 4096):
            said = f"capture: cannot open {name}: File name too long\n"
            wants(f"{use} of a name of {len(name)} bytes", program(use, name), said)
    wants_held("wrong words", path, [b"kept"])
    for word in ("--help", "help"):
        status, out, said = program(word)
        if status != 0 or said or not out.decode().startswith(USAGE):
            faults.differs(f"{word}: status {status}, {out[:100]!r}, {said!r}")
        for told in ("append FILE", "show FILE", "verify FILE", "fdatasync", "kill", "503", "network file system"):
            if told not in out.decode():
                faults.differs(f"{word}: nothing is said of {told}")


TRIES = [
    try_keeping, try_names, try_taken, try_pieces, try_listing, try_full, try_lengths, try_bad, try_files, try_no_room, try_streams,
    try_words
]
