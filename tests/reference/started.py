"""Programs that a test starts and looks at while they run. Every wait has an end, and what was started is ended with the test."""

import os
import select
import signal
import subprocess
import threading
import time

from . import stored

PIPE = subprocess.PIPE
SOON = 5  # seconds in which a program has to show what it knows
BUILT = 900  # and for a first run, which may build


class Started:
    """A command at the repository's top, in a process group of its own; `out` and `err` are what it has printed so far."""

    def __init__(self, command, stdin=subprocess.DEVNULL, stdout=PIPE):
        self.process = subprocess.Popen(command, stdin=stdin, stdout=stdout, stderr=subprocess.PIPE, cwd=stored.ROOT,
                                        start_new_session=True)
        self.out, self.err = bytearray(), bytearray()
        self.more = threading.Condition()
        pairs = [(self.process.stdout, self.out), (self.process.stderr, self.err)]
        self.readers = [threading.Thread(target=self._read, args=pair, daemon=True) for pair in pairs if pair[0]]
        for reader in self.readers:
            reader.start()

    def _read(self, pipe, kept):
        while data := os.read(pipe.fileno(), 65536):
            with self.more:
                kept += data
                self.more.notify_all()

    def takes(self, data, seconds=SOON):
        """Whether it takes so many bytes more from the pipe that is its input, in time."""
        pipe, until = self.process.stdin.fileno(), time.monotonic() + seconds
        os.set_blocking(pipe, False)
        while data:
            if not select.select([], [pipe], [], max(0, until - time.monotonic()))[1]:
                return False
            try:
                data = data[os.write(pipe, data):]
            except BrokenPipeError:
                return False
        return True

    def shows(self, enough, seconds=SOON):
        """Whether `enough` of what was printed becomes true in time."""
        with self.more:
            return self.more.wait_for(lambda: enough(bytes(self.out)), seconds)

    def ends(self, seconds=SOON):
        """The exit status, all output read; None if it does not end in time."""
        try:
            status = self.process.wait(seconds)
        except subprocess.TimeoutExpired:
            return None
        for reader in self.readers:
            reader.join(seconds)
        return status

    def __enter__(self):
        return self

    def __exit__(self, *_):
        if self.process.poll() is None:
            os.killpg(self.process.pid, signal.SIGKILL)
        self.process.wait()


def runs(name):
    """Whether the program of that name runs on no input; it is built by then."""
    with Started(["./trivsome", name]) as program:
        return program.ends(BUILT) == 0


class Faults:
    """What differs, said as it is found."""

    def __init__(self, test):
        self.test, self.any = test, False

    def differs(self, text):
        print(f"{self.test}: {text}")
        self.any = True

    def status(self):
        """The exit status of the test, and its last words if all was well."""
        if not self.any:
            print(f"{self.test}: as expected")
        return int(self.any)
