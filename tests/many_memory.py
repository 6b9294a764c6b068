#!/usr/bin/env python3
"""What `tests/many-memory.sh` does: commands over a few files of which one allocation is refused.

    many_memory.py PROGRAM FAULT

FAULT is the library of `tests/fault.c`. All is done in the current folder. It prints a line for
each thing that differs, and last the words `seen N differed M`.
"""

import os
import re
import shutil
import sys
import time

from many_catalogues import cut
from many_runs import (Runs, are_of, bytes_of, closed, files_below, have, read, remove, told, write)

NO_MEMORY = re.compile(rb"grid: 1 OutOfMemory(?: \((.*)\))?\n")
# Two files are the same.
FILES = {b"a": 4, b"e/empty": 0, b"line\nfeed": 20, b"f/56": 56, b"f/57": 57, b"f/1000": 1000,
         b"f/again": 1000, b"f/3000": 3000}
# Commands that print a catalogue, whose first line has a time.
PUTS = ("put", "since")


class Faults(Runs):
    """Commands of which one allocation is refused: each in turn, or each so many further ones."""

    def __init__(self, program, fault):
        super().__init__(program, fault)
        for number, (name, size) in enumerate(FILES.items()):
            write(name, bytes_of(number - (name == b"f/again"), size))
        # From here on the files are older than a catalogue's time, by more than two seconds.
        time.sleep(2.5)

    def words(self, command):
        numbers = ["--k", str(self.k), "--n", str(self.n), "--happy", str(self.n)]
        put = ["put", "--files0-from", "list", "--grid", "grid", *numbers, "--servers", str(self.n)]
        over = ["--caps", "whole.caps", "--grid", "grid"]
        return {
            "put": put,
            "since": [*put, "--since", "half.caps"],
            "get": ["get", *over, "--into", "back"],
            "check": ["check", *over, "--strict"],
            "json": ["check", *over, "--json"],
            "repair": ["repair", *over, "--happy", str(self.n)],
            "verify": ["verify", "--caps", "whole.caps"],
            "status": ["status", "--grid", "grid"],
        }[command]

    def all_of(self, names, k, n, steps):
        """Tries each command over these files, as n shares of which k are needed; `steps` says of
        each how far its refused allocations are apart."""
        self.make_list(names)
        self.k, self.n = k, n
        remove("grid", "held")
        self.each("put", steps["put"], lambda: remove("grid"), self.is_put)
        remove("grid")
        self.run(*self.words("put"), out="whole.caps")
        os.rename("grid", "held")
        write("half.caps", b"".join(cut(read("whole.caps"))[:1 + len(names) // 2]))
        if "since" in steps:
            self.each("since", steps["since"], self.take, self.is_put)
        self.each("get", steps["get"], lambda: (remove("back"), self.take()), self.is_got)
        self.take()
        for command in ("check", "json", "verify", "status"):
            self.each(command, steps[command], lambda: None, self.is_as_before)
        lost = "server-000" if n > 1 else None
        self.each("repair", steps["repair"], lambda: self.take(lost), self.is_kept)

    def take(self, lost=None):
        """The grid as it was put, without the shares of one server."""
        remove("grid")
        shutil.copytree("held", "grid")
        if lost:
            for name in os.listdir(os.path.join("grid", lost)):
                remove(os.path.join("grid", lost, name))
        self.left = closed("grid")

    def each(self, command, step, before, is_right):
        """Runs a command without a fault, and then with one allocation refused after another, each
        behind what `before` makes. `is_right` judges what stands behind a run."""
        before()
        is_well = self.goes_well(*self.words(command))
        self.out = cut(read("out"))
        if not self.sees(f"{command} without a fault",
                         is_well and is_right(self.out, set(), True)):
            return
        at, count, refused = 1, 0, 0
        while True:
            before()
            remove("mark")
            status, lines = self.run(*self.words(command), environment={
                "LD_PRELOAD": self.library, "FAULT_KIND": "memory", "FAULT_AT": str(at),
                "FAULT_MARK": os.path.realpath("mark")})
            if not os.path.exists("mark"):
                break
            count += 1
            refused += status == 7
            if not self.sees(f"{command}: allocation {at} refused",
                             self.is_told(command, status, lines, is_right)):
                print(f"    status {status}, told {lines!r}, out {read('out')!r}")
            at += step
        self.sees(f"{command}: some allocation is seen", count > 0)
        print(f"{command} of {len(self.names)} files, k {self.k} n {self.n}: {count} allocations"
              f" refused, of up to {at - 1}; {refused} runs told it", flush=True)

    def is_told(self, command, status, errors, is_right):
        """Whether a run ended as it may."""
        lines = cut(read("out"))
        if status == 0:
            return (not errors and self.are_lines(command, lines, self.out)
                    and is_right(lines, set(), True))
        found = [NO_MEMORY.fullmatch(line) for line in errors]
        if status != 7 or not errors or None in found:
            return False
        ways = [one[1] for one in found if one[1] is not None]
        without = {name for name in self.names if told(name) in ways}
        if len(without) != len(ways):
            return False
        # A refusal without a name ends the command.
        is_all = len(ways) == len(errors)
        wanted = self.without(command, without)
        if not is_all:
            wanted = wanted[:len(lines)]
        return self.are_lines(command, lines, wanted) and is_right(wanted, without, is_all)

    @staticmethod
    def are_lines(command, lines, wanted):
        """Whether these lines came, but for the time of a first line."""
        if command in PUTS:
            lines, wanted = ([re.sub(rb" begun [0-9.]* ", b" ", line) for line in some[:1]]
                             + some[1:] for some in (lines, wanted))
        return lines == wanted

    def without(self, command, names):
        """The lines of a run in which the files of these names were refused."""
        if command in ("get", "status"):
            return self.out
        heads = 1 if command in PUTS else 0
        lines = self.out[:heads] + [line for name, line in zip(self.names, self.out[heads:])
                                    if name not in names]
        left, count = len(self.names) - len(names), len(self.names)
        last = {
            "check": f"files {count} healthy {left} recoverable 0 lost 0\n",
            "json": f'{{"files":{count},"healthy":{left},"recoverable":0,"lost":0}}\n',
            "repair": f"files {count} repaired {left} lost 0\n",
            "verify": f"files {count} same {left} differ 0 refused {len(names)}\n",
        }.get(command)
        return lines + ([last.encode()] if last else [])

    # What stands behind a run: the lines that came, the files that were refused, and whether the
    # command went through all.

    def is_put(self, wanted, without, is_all):
        """Whether each line that came is of a file whose shares stand, and each closed share is
        whole."""
        whole = closed("held" if os.path.exists("held") else "grid")
        if not are_of("grid", whole):
            return False
        if len(wanted) < 2:
            return True
        # Where files that their caps hold are stored alone, there is no grid.
        os.makedirs("grid", exist_ok=True)
        return self.goes_well("check", "--caps", "out", "--grid", "grid", "--strict",
                              out="check.out")

    def is_got(self, wanted, without, is_all):
        """Whether each file that has its name is whole, and all do that were not refused."""
        found = files_below(b"back")
        there = {name for name in self.names if name in found}
        parts = {name.removesuffix(b".part") for name in found - there}
        return (self.are_back(there) and parts <= set(self.names) and not there & without
                and (not is_all or there == set(self.names) - without))

    def is_kept(self, wanted, without, is_all):
        """Whether each share stands that stood before, and no other than is to stand."""
        return have("grid", self.left) and are_of("grid", closed("held"))

    def is_as_before(self, wanted, without, is_all):
        return closed("grid") == closed("held")


if __name__ == "__main__":
    runs = Faults(*sys.argv[1:])
    commands = ("put", "since", "get", "check", "json", "verify", "status", "repair")
    runs.all_of(list(FILES), 2, 3, {name: 7 for name in commands} | {"status": 1, "verify": 3})
    runs.all_of([b"a", b"f/56"], 1, 1, {name: 1 for name in commands if name != "since"})
    runs.end()
