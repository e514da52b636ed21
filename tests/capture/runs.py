"""The program capture and the second program as they are run by tests/capture/try.py, and what files have to hold by then."""

import json
import os
import pathlib
import random
import subprocess
import sys
import tempfile

from capture import blocks
from reference import started, stored

faults = started.Faults("capture")
SEED = int(sys.argv[1]) if len(sys.argv) > 1 else 6
made = random.Random(SEED)

# where all files are, which nobody may reach too
temporary = tempfile.TemporaryDirectory()
folder = pathlib.Path(temporary.name)
folder.chmod(0o755)

# where the programs are, once they are built
paths = {}


def build():
    def told(command):
        return subprocess.run(command.split(), cwd=stored.ROOT, stdout=subprocess.PIPE, timeout=started.BUILT, check=True).stdout

    paths["program"] = told("native/build program capture").decode().strip()
    cargo = told("cargo build --quiet --release --offline --message-format=json --manifest-path second/Cargo.toml --bin capture")
    paths["second"] = next(filter(None, (json.loads(line).get("executable") for line in cargo.splitlines())))


# ---------------------------------------------------------------------------------------------------------------------
# Running.

def ran(command, given=b"", stdout=subprocess.PIPE, **more):
    """The status of a command, what it printed, and what it said."""
    given = dict(stdin=given) if hasattr(given, "fileno") else dict(input=given)
    done = subprocess.run(command, stdout=stdout, stderr=subprocess.PIPE, cwd=folder, timeout=60, **given, **more)
    return done.returncode, done.stdout or b"", done.stderr.decode("utf-8", "replace")


def program(*words, **more):
    return ran([paths["program"], *words], **more)


def second(*words, **more):
    return ran([paths["second"], *words], **more)


BOTH = {"the program": program, "the second program": second}


def nobody(*words, **more):
    """The program as nobody where we are root, whom no permission stops."""
    become = ["setpriv", "--reuid=65534", "--regid=65534", "--clear-groups"] if os.getuid() == 0 else []
    return ran([*become, paths["program"], *words], **more)


def appending(path):
    """An append that is fed while it runs."""
    return started.Started([paths["program"], "append", str(path)], started.PIPE)


def wants(what, result, said="", out=b""):
    """It says just these words, if any, and then its status is 1; and it prints this."""
    status, printed, words = result
    if words != said:
        faults.differs(f"{what}: on standard error {words!r} instead of {said!r}")
    if status != int(said != ""):
        faults.differs(f"{what}: status {status}")
    if printed != out:
        faults.differs(f"{what}: prints {len(printed)} bytes, {printed[:60]!r}.., instead of {len(out)}, {out[:60]!r}..")


# ---------------------------------------------------------------------------------------------------------------------
# Files.

def in_folder(name, data=None):
    """A file of these bytes, or none."""
    path = folder / name
    path.unlink(missing_ok=True)
    if data is not None:
        path.write_bytes(data)
    return path


def some_bytes():
    """A payload of any length."""
    return made.randbytes(made.randint(1, blocks.MOST))


def found_in(data):
    """The payloads that the reader in Python finds, or what it answers."""
    try:
        return blocks.payloads(data)
    except blocks.Refused as why:
        return [why]


def wants_held(what, path, payloads):
    """The reader in Python and both programs find these payloads."""
    found = found_in(path.read_bytes())
    if found != payloads:
        faults.differs(f"{what}: in Python {len(found)} blocks are found, {found[:1]} first, instead of {len(payloads)}")
    figures = f'{{"finished":{len(payloads)},"bytes":{sum(map(len, payloads))}}}\n'.encode()
    for name, run in BOTH.items():
        wants(f"{what}, show by {name}", run("show", path.name), out=b"".join(payloads))
        wants(f"{what}, verify by {name}", run("verify", path.name), out=figures)
