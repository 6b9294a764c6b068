#!/usr/bin/env python3
"""What `tests/many-kills.sh` does: puts, gets, checks and repairs that are killed.

    many_kills.py PROGRAM RECORD

RECORD is the library of `tests/record.c`. All is done in the current folder. It prints a line for
each thing that differs, and last the words `seen N differed M`.
"""

import os
import shutil
import sys
import time

from many_catalogues import Entry, cut
from many_runs import (Runs, after, are_of, bytes_of, closed, files_below, has_lines, have, is_same,
                       read, remove, write)

NUMBERS = ["--k", "2", "--n", "3", "--happy", "3", "--servers", "3"]
OVER = ["--caps", "whole.caps", "--grid", "grid"]
PUT = ["put", "--files0-from", "list", "--grid", "grid", *NUMBERS]
GET = ["get", *OVER, "--into", "back"]
CHECK = ["check", *OVER]
REPAIR = ["repair", *OVER, "--happy", "3"]
# Calls that change files, by their names in a record.
CALLS = (b"mkdir", b"create", b"write", b"cut", b"rename", b"remove", b"sync", b"syncdir", b"told",
         b"link")


class Kills(Runs):
    """Commands over 200 small files and three greater ones that are killed."""

    def __init__(self, program, record):
        super().__init__(program, record)
        sizes = [2, 128, 130, 133, 2333]
        self.make_list([b"s/%d/f%03d" % (number % 9, number) for number in range(203)])
        for number, name in enumerate(self.names):
            write(name, bytes_of(number, sizes[number % 5] if number % 67 else 3_000_000))
        # From here on the files are older than a catalogue's time, by more than two seconds.
        time.sleep(2.5)

    def whole(self):
        """A put of all without a kill, and what it left."""
        self.run(*PUT)
        remove("grid")
        is_well, self.put_time = self.timed(*PUT, out="whole.caps")
        self.lines = cut(read("whole.caps"))
        self.shares = closed("grid")
        os.rename("grid", "whole")
        self.sees("a put of all files", is_well)
        self.sees("its lines", [Entry(line).name for line in self.lines[1:]] == self.names)

    def take(self):
        """The grid as the whole put left it."""
        remove("grid", "caps")
        shutil.copytree("whole", "grid")

    def has_shares(self):
        return closed("grid") == self.shares

    # Runs that end after some of their calls.

    def recorded(self, root, *words, out="out", environment=None):
        """The status of a run whose calls that change files below a folder are recorded."""
        remove("record")
        return self.run(*words, out=out, environment={
            "LD_PRELOAD": self.library, "RECORD_ROOT": os.path.realpath(root),
            "RECORD_FILE": os.path.realpath("record"), **(environment or {})})[0]

    def ended(self, root, at, *words, out="out"):
        """Ends a run right after so many such calls, and tells its status: 9 where it ended so."""
        return self.recorded(root, *words, out=out, environment={"RECORD_END": str(at)})

    def calls(self, root, *words):
        """How many such calls a whole run makes."""
        self.recorded(root, *words)
        return sum(line.split(b"\t")[0].strip() in CALLS for line in cut(read("record")))

    # Puts.

    def goes_on(self, what, caps):
        """Whether what a killed put left is true, and a put since it ends with all files."""
        lines = cut(read(caps))
        part = b"" if not lines or lines[-1].endswith(b"\n") else lines.pop()
        self.sees(f"{what}: the lines that it left", lines[1:] == self.lines[1:len(lines)])
        self.sees(f"{what}: its closed shares", are_of("grid", self.shares))
        if not lines:
            found = self.run(*PUT, "--since", caps)
            self.sees(f"{what}: a put since no catalogue",
                      found == (3, [b"grid: 110 NotACatalogue\n"]) and not read("out"))
            status, _ = self.run(*PUT, out="again.caps")
        else:
            names = [Entry(line).name for line in lines[1:]]
            remove("back")
            # Before a file was stored there may be no grid.
            os.makedirs("grid", exist_ok=True)
            wanted = (3, [b"grid: 111 NotALine %d\n" % (len(lines) + 1)]) if part else (0, [])
            found = self.run("get", "--caps", caps, "--grid", "grid", "--into", "back")
            self.sees(f"{what}: a get of its lines", found == wanted
                      and files_below(b"back") == set(names) and self.are_back(names))
            found = self.run("check", "--caps", caps, "--grid", "grid", "--strict")
            counts = b"files %d healthy %d recoverable 0 lost 0\n" % (len(names), len(names))
            self.sees(f"{what}: a check of its lines",
                      found == wanted and read("out").endswith(counts))
            status, told = self.run(*PUT, "--since", caps, out="again.caps")
            self.sees(f"{what}: what a put since it tells", bool(told) == bool(part))
        self.sees(f"{what}: a put since it",
                  status == 0 and cut(read("again.caps"))[1:] == self.lines[1:])
        self.sees(f"{what}: a check behind it",
                  self.goes_well("check", "--caps", "again.caps", "--grid", "grid", "--strict"))
        status, _ = self.run("scrub", "--grid", "grid")
        self.sees(f"{what}: a scrub behind it", status == 0 and are_of("grid", self.shares))

    def puts(self):
        """Puts that are killed after some time, and after some lines."""
        count, ended = 30, 0
        for turn in range(count):
            remove("grid", "caps")
            more = ["--no-sync"] if turn % 3 == 0 else []
            ended += not self.killed(after(self.put_time * turn / count), *PUT, *more, out="caps")
            self.goes_on(f"put killed by time, turn {turn}", "caps")
        print(f"puts: {count} were killed by time, {ended} of them had ended")
        for count in (0, 1, 2, 3, 5, 10, 40, 66, 67, 68, 100, 134, 135, 180, 200, 203):
            remove("grid", "caps")
            self.killed(has_lines("caps", count), *PUT, out="caps")
            self.goes_on(f"put killed after {count} lines", "caps")

    def put_calls(self):
        """Puts that end right after one of their calls in the grid."""
        remove("grid", "caps")
        os.mkdir("grid")
        total = self.calls("grid", *PUT)
        for at in list(range(1, 30, 3)) + list(range(31, total, max(1, total // 20))):
            remove("grid", "caps")
            os.mkdir("grid")
            if self.sees(f"put ended after {at} calls",
                         self.ended("grid", at, *PUT, out="caps") == 9):
                self.goes_on(f"put ended after {at} of {total} calls", "caps")

    def cuts(self):
        """Catalogues that were cut off, as by a full disk or a pipe that was broken."""
        text = read("whole.caps")
        head = len(self.lines[0])
        places = [head - 1, head, head + 1, head + len(self.lines[1]) - 1, len(text) - 1]
        for place in places + list(range(head + 50, len(text), 1777)):
            self.take()
            write("caps", text[:place])
            if place < head:
                found = self.run(*PUT, "--since", "caps")
                self.sees("a first line that was cut off",
                          found == (3, [b"grid: 110 NotACatalogue\n"]) and not read("out"))
            else:
                self.goes_on(f"a catalogue of {place} bytes", "caps")

    def twice(self):
        """A put since a killed put that is killed too."""
        for turn in range(1, 9):
            remove("grid", "caps", "later.caps")
            self.killed(after(self.put_time * turn / 12), *PUT, out="caps")
            if read("caps"):
                self.killed(after(self.put_time * turn / 16), *PUT, "--since", "caps",
                            out="later.caps")
                self.goes_on(f"put since a killed one killed too, turn {turn}", "later.caps")

    # Gets.

    def gets(self):
        """Gets that are killed: what has its name is whole, and a get again brings the others."""
        remove("back")
        self.take()
        is_well, self.get_time = self.timed(*GET)
        self.sees("a get of all files", is_well and self.are_back())
        for turn in range(16):
            remove("back")
            self.killed(after(self.get_time * turn / 16), *GET)
            self.comes_back(f"get killed by time, turn {turn}", turn % 2 == 0)
        for turn in range(16):
            remove("back")
            os.mkdir("back")
            at = 1 + turn if turn < 8 else 1 + turn * 61
            if self.sees(f"get ended after {at} calls", self.ended("back", at, *GET) in (0, 9)):
                self.comes_back(f"get ended after {at} calls", turn % 2 == 0)

    def comes_back(self, what, may_overwrite):
        found = files_below(b"back")
        there = [name for name in self.names if name in found]
        parts = found - set(there)
        self.sees(f"{what}: files that have their names are whole", self.are_back(there))
        self.sees(f"{what}: one other file at most, which is a beginning",
                  len(parts) <= 1 and all(self.is_part(part) for part in parts))
        if may_overwrite:
            self.sees(f"{what}: a get over it",
                      self.goes_well(*GET, "--overwrite") and self.are_back())
        else:
            status, told = self.run(*GET)
            refused = [b"grid: 90 FileFault back/%s (%s)\n" % (name, name) for name in there]
            self.sees(f"{what}: a get beside it", status == (7 if there else 0)
                      and told[1::2] == refused and self.are_back())

    def is_part(self, part):
        name = part.removesuffix(b".part")
        return name in self.names and read(name).startswith(read(os.path.join(b"back", part)))

    def overwrites(self):
        """Gets over other files that are killed: each is as it was, or whole."""
        old = b"as it was"
        for turn in range(10):
            remove("back")
            paths = {name: os.path.join(b"back", name) for name in self.names}
            for path in paths.values():
                write(path, old)
            self.killed(after(self.get_time * turn / 10), *GET, "--overwrite")
            self.sees(f"get over files killed, turn {turn}", all(
                read(path) == old or is_same(name, path) for name, path in paths.items()))
            self.sees(f"get over files killed, turn {turn}: a get behind it",
                      self.goes_well(*GET, "--overwrite") and self.are_back())

    # Checks and repairs.

    def checks(self):
        """Checks that are killed: they tell a beginning, and change nothing."""
        _, taken = self.timed(*CHECK, out="whole.out")
        for turn in range(10):
            self.killed(after(taken * turn / 10), *CHECK)
            self.sees(f"check killed by time, turn {turn}: its lines",
                      read("whole.out").startswith(read("out")))
            self.sees(f"check killed by time, turn {turn}: one behind it",
                      self.goes_well(*CHECK, "--strict") and read("out") == read("whole.out"))
        self.sees("the shares behind the checks", self.has_shares())

    def repairs(self):
        """Repairs that are killed: the shares that were left stay, and a repair again makes all."""
        self.lose()
        is_well, taken = self.timed(*REPAIR, out="whole.out")
        counts = b"files %d repaired %d lost 0\n" % (len(self.names), len(self.names))
        self.sees("a repair of all files",
                  is_well and read("whole.out").endswith(counts) and self.has_shares())
        for turn in range(12):
            self.lose()
            self.killed(after(taken * turn / 12), *REPAIR)
            self.is_mended(f"repair killed by time, turn {turn}")
        for turn in range(12):
            self.lose()
            at = 1 + turn if turn < 6 else 1 + turn * 67
            if self.sees(f"repair ended after {at} calls",
                         self.ended("grid", at, *REPAIR) in (0, 9)):
                self.is_mended(f"repair ended after {at} calls")

    def lose(self):
        """A grid in which each file lost one share of three."""
        self.take()
        remove("grid/server-001")
        os.mkdir("grid/server-001")
        self.left = closed("grid")

    def is_mended(self, what):
        self.sees(f"{what}: its lines", read("whole.out").startswith(read("out")))
        self.sees(f"{what}: the shares that were left", have("grid", self.left))
        self.sees(f"{what}: closed shares", are_of("grid", self.shares))
        self.sees(f"{what}: a repair again", self.goes_well(*REPAIR)
                  and read("out") == read("whole.out") and self.has_shares())
        self.sees(f"{what}: a check behind it", self.goes_well(*CHECK, "--strict"))


if __name__ == "__main__":
    runs = Kills(*sys.argv[1:])
    runs.whole()
    for part in (runs.puts, runs.put_calls, runs.cuts, runs.twice, runs.gets, runs.overwrites,
                 runs.checks, runs.repairs):
        begun = time.monotonic()
        part()
        print(f"{part.__name__}: {time.monotonic() - begun:.0f} s", flush=True)
    runs.end()
