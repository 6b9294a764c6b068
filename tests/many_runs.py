"""What the parts in Python of `tests/many-*.sh` have in common: files without order, what stands in
a folder, runs of the program, and counts of what was looked at."""

import base64
import os
import shutil
import signal
import subprocess
import sys
import time

from many_catalogues import cut


# ---- files

def bytes_of(number, size):
    """Bytes without order, other ones for each number."""
    block = base64.b64encode(number.to_bytes(8, "big")) * 3
    made = bytearray()
    for at in range(0, size, 32):
        made += bytes((at * 31 + byte * (at + number)) % 251 for byte in block)
    return bytes(made[:size])


def read(path):
    with open(path, "rb") as file:
        return file.read()


def write(path, contents):
    """Writes a file, and the folders that its name leads through."""
    os.makedirs(os.path.dirname(path) or ".", exist_ok=True)
    with open(path, "wb") as file:
        file.write(contents)


def remove(*paths):
    for path in paths:
        if os.path.isdir(path):
            shutil.rmtree(path)
        elif os.path.lexists(path):
            os.unlink(path)


def is_same(path, other):
    with open(path, "rb") as one, open(other, "rb") as two:
        while True:
            piece = one.read(1 << 20)
            if piece != two.read(1 << 20):
                return False
            if not piece:
                return True


def files_below(folder):
    """All that is no folder below one, by its path from there; nothing where there is no folder."""
    return {os.path.relpath(os.path.join(way, name), folder)
            for way, _, names in os.walk(folder) for name in names}


def closed(grid):
    """The closed shares of a grid: their names, and what stands under each."""
    found = {}
    for way, _, names in os.walk(grid):
        for name in names:
            if not name.endswith(".open"):
                found.setdefault(name, set()).add(read(os.path.join(way, name)))
    return found


def are_of(grid, shares):
    """Whether each closed share of a grid is one of these."""
    return all(contents <= shares.get(name, set()) for name, contents in closed(grid).items())


def have(grid, shares):
    """Whether these closed shares stand in a grid."""
    there = closed(grid)
    return all(there.get(name) == contents for name, contents in shares.items())


def told(name):
    """A name as it is told on standard error: in one line, and as a text."""
    text = name.decode("utf-8", "replace")
    return "".join("?" if ord(c) < 32 or 127 <= ord(c) < 160 else c for c in text).encode()


# ---- runs

def after(seconds):
    """Whether so many seconds passed since now."""
    end = time.monotonic() + seconds
    return lambda: time.monotonic() >= end


def has_lines(path, count):
    """Whether a file has so many lines."""
    return lambda: os.path.exists(path) and read(path).count(b"\n") >= count


class Runs:
    """Runs of a program in the current folder, with a library that may be preloaded. It counts what
    was looked at, and tells what differed."""

    def __init__(self, program, library):
        self.program, self.library = program, library
        self.seen = self.differed = 0

    def sees(self, what, holds):
        self.seen += 1
        if not holds:
            self.differed += 1
            print(f"differs: {what}", flush=True)
        return holds

    def make_list(self, names):
        """From here on these files are put, in this order."""
        self.names = names
        write("list", b"".join(name + b"\0" for name in names))

    def start(self, *words, out="out", environment=None):
        """Starts a run, whose output goes to a file."""
        with open(out, "wb") as to, open("err", "wb") as err:
            return subprocess.Popen([self.program, *words], stdin=subprocess.DEVNULL, stdout=to,
                                    stderr=err, env={**os.environ, **(environment or {})})

    def run(self, *words, **how):
        """The status of a run, and what it told but for a grid that was made."""
        child = self.start(*words, **how)
        try:
            status = child.wait(300)
        finally:
            child.kill()
        return status, [line for line in cut(read("err")) if not line.startswith(b"made ")]

    def goes_well(self, *words, **how):
        return self.run(*words, **how) == (0, [])

    def timed(self, *words, **how):
        """Whether a run goes well, and its seconds."""
        begun = time.monotonic()
        return self.goes_well(*words, **how), time.monotonic() - begun

    def killed(self, is_time, *words, out="out"):
        """Kills a run at the moment that `is_time` says. Whether it was killed."""
        child = self.start(*words, out=out)
        while not is_time() and child.poll() is None:
            time.sleep(0.0002)
        child.send_signal(signal.SIGKILL)
        return child.wait() == -signal.SIGKILL

    def are_back(self, names=None):
        """Whether the files of these names are as they were put, or all."""
        return all(is_same(name, os.path.join(b"back", name))
                   for name in (self.names if names is None else names))

    def end(self):
        """Tells what was counted, and ends the program."""
        print(f"seen {self.seen} differed {self.differed}")
        sys.exit(self.differed != 0)
