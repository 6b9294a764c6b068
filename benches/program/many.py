#!/usr/bin/env python3
"""Times commands over many files: put, put again since a catalogue, put again, get and check.

    benches/program/many.py [--files N] [--bytes N] [--rounds N] [--program PATH]

So many files of random lengths are put, of so many bytes together (1,003 of 98 MB if nothing is
said), into ten servers in folders of one disk. Each command is timed by the clock and by its
processor time, with its peak memory, the best of the rounds. Where `restic` is on the PATH the same
is done with it in turn, `restic check --read-data` for a check, and the ratio of the clock's times
is told. What comes back is compared with what was put. Temporary files go to TMPDIR, which should
be on the disk that is meant.
"""

import argparse
import filecmp
import os
import random
import resource
import shutil
import subprocess
import sys
import tempfile
import time

HERE = os.path.dirname(os.path.abspath(__file__))
SERVERS = 10


def make_tree(folder, files, total):
    """Files of random lengths in forty folders, always the same."""
    chance = random.Random(5)
    mean = total / files
    for number in range(files):
        inner = os.path.join(folder, f"{number % 40:02d}")
        os.makedirs(inner, exist_ok=True)
        length = min(int(chance.expovariate(1 / mean)), int(20 * mean))
        with open(os.path.join(inner, f"file-{number:06d}"), "wb") as file:
            file.write(chance.randbytes(length))


def timed(words, out=None, folder=None):
    """The seconds by the clock and of the processor, and the peak in MiB, of a command."""
    before = time.time()
    with open(out or os.devnull, "wb") as writer:
        child = subprocess.Popen(words, stdout=writer, stderr=subprocess.DEVNULL, cwd=folder)
        _, status, used = os.wait4(child.pid, 0)
    if status != 0:
        sys.exit(f"{words}: ended with {status}")
    return (time.time() - before, used.ru_utime + used.ru_stime, used.ru_maxrss / 1024)


class Grid:
    """The commands of this program."""

    def __init__(self, program, room):
        self.program = program
        self.grid = os.path.join(room, "grid")
        self.tree = os.path.join(room, "tree")
        self.room = room

    def path(self, name):
        return os.path.join(self.room, name)

    def begin(self):
        for name in ("grid", "back"):
            shutil.rmtree(self.path(name), ignore_errors=True)
        subprocess.run([self.program, "init", self.grid, "--servers", str(SERVERS)],
                       stdout=subprocess.DEVNULL, stderr=subprocess.DEVNULL, check=True)

    def put(self, catalogue, *more):
        words = [self.program, "put", "--files0-from", self.path("list"), "--grid", self.grid]
        return timed(words + list(more), self.path(catalogue), self.tree)

    def commands(self):
        catalogue = self.path("caps")
        over = ["--caps", catalogue, "--grid", self.grid]
        return [
            ("put", lambda: self.put("caps")),
            ("put since", lambda: self.put("since", "--since", catalogue)),
            ("put again", lambda: self.put("again")),
            ("get", lambda: timed([self.program, "get", "--into", self.path("back")] + over)),
            ("check", lambda: timed([self.program, "check"] + over)),
        ]


class Restic:
    """The commands of restic that do the same."""

    def __init__(self, room):
        self.repository = os.path.join(room, "repository")
        self.tree = os.path.join(room, "tree")
        self.back = os.path.join(room, "restored")

    def run(self, *words):
        return timed(["restic", "-q", "-r", self.repository] + list(words))

    def begin(self):
        shutil.rmtree(self.repository, ignore_errors=True)
        shutil.rmtree(self.back, ignore_errors=True)
        self.run("init")

    def commands(self):
        backup = lambda: self.run("backup", self.tree)
        return [
            ("put", backup),
            ("put since", backup),
            ("put again", lambda: self.run("backup", "--force", self.tree)),
            ("get", lambda: self.run("restore", "latest", "--target", self.back)),
            ("check", lambda: self.run("check", "--read-data")),
        ]


def same_trees(one, other):
    """Whether two trees have the same files."""
    for folder, _, names in os.walk(one):
        beside = os.path.join(other, os.path.relpath(folder, one))
        _, differ, odd = filecmp.cmpfiles(folder, beside, names, shallow=False)
        if differ or odd:
            return False
    return True


def main():
    words = argparse.ArgumentParser()
    words.add_argument("--files", type=int, default=1003)
    words.add_argument("--bytes", type=int, default=98_000_000)
    words.add_argument("--rounds", type=int, default=3)
    words.add_argument("--program")
    words = words.parse_args()
    program = words.program or subprocess.run(
        [os.path.join(HERE, "..", "..", "grid"), "--program"],
        capture_output=True, text=True, check=True).stdout.strip()
    program = os.path.abspath(program)
    os.environ.setdefault("RESTIC_PASSWORD", "many")
    os.environ.setdefault("GLIBC_TUNABLES", "glibc.malloc.hugetlb=1")
    room = tempfile.mkdtemp(prefix="many-")
    try:
        tree = os.path.join(room, "tree")
        make_tree(tree, words.files, words.bytes)
        names = sorted(os.path.relpath(os.path.join(folder, name), tree)
                       for folder, _, names in os.walk(tree) for name in names)
        with open(os.path.join(room, "list"), "wb") as file:
            file.write(b"".join(os.fsencode(name) + b"\0" for name in names))
        ours = Grid(program, room)
        both = [("grid", ours)]
        if shutil.which("restic"):
            both.append(("restic", Restic(room)))
        best = {}
        for _ in range(words.rounds):
            for _, one in both:
                one.begin()
            for step in zip(*(one.commands() for _, one in both)):
                for (who, _), (name, command) in zip(both, step):
                    took = command()
                    best[who, name] = min(best.get((who, name), took), took)
            if not same_trees(tree, os.path.join(room, "back")):
                sys.exit("what came back is not what was put")
        for name, _ in ours.commands():
            clock, processor, peak = best["grid", name]
            line = f"{name:10} {clock:8.2f} s, processor {processor:7.2f} s, {peak:6.1f} MiB"
            if ("restic", name) in best:
                other = best["restic", name]
                line += f"; restic {other[0]:.2f} s, processor {other[1]:.2f} s,"
                line += f" {other[2]:.0f} MiB: {clock / other[0]:.2f} of its time"
            print(line, flush=True)
    finally:
        shutil.rmtree(room, ignore_errors=True)


if __name__ == "__main__":
    main()
