"""Runs two programs at once over the shares of one file, and looks at what is left.

    python3 two-puts.py PROGRAM LIBRARY ROOM [all]

LIBRARY is that of record.c, built, and ROOM an empty folder, an absolute path without links. The
head of two-puts.sh says what is done.
"""

import collections
import os
import re
import shutil
import signal
import sys
import time

SHARE = re.compile(r"[a-z2-7]{26}\.[0-9]+\.[a-z2-7]{52}")
# behind the name of a share that is on its way to be set aside
HALF = re.compile(r"\.[a-z2-7]{26}\.aside$")
NAMING = (b"mkdir", b"create", b"rename", b"link", b"remove")
# What becomes of the first and of the second behind their stops. `go`: it goes on to its end.
# `die`: it is killed. `later`: it goes on, and ends right after its next rename, link or removal.
FIRST_ENDS = (("go", "go"), ("die", "go"), ("later", "go"))
BOTH_END = FIRST_ENDS + (("go", "die"), ("go", "later"))
TWO = ("--k 1 --n 2 --happy 1 --servers 2 --secret two").split()
TEN = ("--secret ten").split()
# The numbers of the file, what is in the grid before, both commands, and the folder at whose calls
# the first is stopped.
SCENES = (
    (TWO, "nothing", "put", "put", ""),
    (TWO, "nothing", "put", "late put", ""),
    (TWO, "nothing", "put", "late scrub --remove-open", ""),
    (TWO, "one", "put", "repair", ""),
    (TWO, "one", "put", "late repair", ""),
    (TWO, "emptied", "put", "put", ""),
    (TWO, "emptied", "put", "repair", ""),
    (TWO, "emptied", "put", "scrub --set-aside", ""),
    (TWO, "damaged", "put --mend", "put --mend", ""),
    (TWO, "damaged", "put --mend", "repair --mend", ""),
    (TWO, "damaged", "put --mend", "scrub --set-aside", ""),
    (TEN, "nothing", "put", "put", "/server-000"),
    (TEN, "one", "put", "repair", "/server-004"),
    (TEN, "nothing", "put", "late scrub --remove-open", "/server-000"),
)
LONGEST = 60
MOST_LINES = 10


class Hangs(Exception):
    """A program that neither ends nor stops."""


def ring(_signal, _frame):
    raise Hangs


class Program:
    """A program that was begun, and stopped after so many calls, 0 for never."""

    def __init__(self, scene, name, command, stop, how):
        room = scene.room
        self.command, self.how = command, how
        self.told, self.record = f"{room.path}/{name}.told", f"{room.path}/{name}.record"
        if os.path.exists(self.record):
            os.unlink(self.record)
        surroundings = dict(os.environ, LD_PRELOAD=room.library, RECORD_ROOT=scene.root,
                            RECORD_FILE=self.record, RECORD_LOOKS="1", RECORD_STOP=str(stop))
        if how == "later":
            surroundings["RECORD_LATER"] = "1"
        self.status = None
        self.pid = begin(room.program, scene.words(command), self.told, surroundings)
        self.settle()
        self.was_stopped = self.status is None

    def settle(self):
        """Waits until it is stopped, or has ended."""
        signal.alarm(LONGEST)
        try:
            status = os.waitpid(self.pid, os.WUNTRACED)[1]
        except Hangs:
            os.kill(self.pid, signal.SIGKILL)
            status = os.waitpid(self.pid, 0)[1]
            self.how = "hangs"
        finally:
            signal.alarm(0)
        if not os.WIFSTOPPED(status):
            self.status = os.waitstatus_to_exitcode(status)

    def end(self):
        """Lets it go on, or kills it, where it is stopped."""
        if self.status is None:
            os.kill(self.pid, signal.SIGKILL if self.how == "die" else signal.SIGCONT)
            self.settle()

    def ended(self):
        """How it ended, in words."""
        if self.how == "die" and self.was_stopped:
            return "killed"
        if self.how == "later" and self.was_stopped and self.status == 9:
            return "killed later"
        return f"status {self.status}"

    def happiness(self):
        """What it said that it stored."""
        return happiness_in(self.told)

    def calls(self):
        """The kind of each of its calls, in their order."""
        kinds = []
        with open(self.record, "rb") as lines:
            while line := lines.readline():
                words = line.rstrip(b"\n").split(b"\t")
                kinds.append(words[0])
                if words[0] == b"write":
                    lines.read(int(words[3]))
        return kinds


def begin(program, words, told, surroundings):
    """Begins a program, with files for what it prints."""
    make = os.O_WRONLY | os.O_CREAT | os.O_TRUNC
    actions = [(os.POSIX_SPAWN_OPEN, 1, told, make, 0o600),
               (os.POSIX_SPAWN_OPEN, 2, told + ".err", make, 0o600)]
    return os.posix_spawn(program, [program, *words], surroundings, file_actions=actions)


def happiness_in(path):
    for line in contents(path).splitlines():
        if line.startswith(b"happiness "):
            return int(line.split()[1])
    return 0


def contents(path):
    with open(path, "rb") as file:
        return file.read()


def shares_in(grid):
    """The closed shares below a folder: path, name and bytes, in the order of their paths."""
    for folder, folders, names in os.walk(grid):
        folders.sort()
        for name in sorted(names):
            if SHARE.fullmatch(name):
                path = os.path.join(folder, name)
                yield path, name, contents(path)


def halves_in(grid):
    """The files below a folder that are on their way: path, closed name and bytes."""
    for folder, folders, names in os.walk(grid):
        folders.sort()
        for name in sorted(names):
            closed = HALF.sub("", name)
            if closed != name and SHARE.fullmatch(closed):
                path = os.path.join(folder, name)
                yield path, closed, contents(path)


def chosen(calls, takes_all):
    """After which calls a program is stopped beside one that is stopped too."""
    if takes_all:
        return range(1, len(calls) + 1)
    near = {stop for at, kind in enumerate(calls, 1) if kind in NAMING for stop in (at - 1, at)}
    return sorted(near - {0})


class Room:
    """Where all of it is done, and what was seen."""

    def __init__(self, program, library, path):
        self.program, self.library, self.path = program, library, path
        self.file, self.grid, self.told = f"{path}/file", f"{path}/grid", f"{path}/told"
        with open(self.file, "wb") as file:
            file.write(os.urandom(40000))

    def run(self, *words):
        """Runs a program to its end, and gives its status."""
        pid = begin(self.program, words, self.told, os.environ)
        return os.waitstatus_to_exitcode(os.waitpid(pid, 0)[1])


class Scene:
    """A file with its numbers, and the grid that both programs find."""

    def __init__(self, room, numbers, before, folder):
        self.room, self.root = room, room.grid + folder
        self.puts = ["put", room.file, "--grid", room.grid, *numbers]
        self.runs = self.faults = 0
        self.ended = collections.Counter()
        made, self.before = f"{room.path}/made", f"{room.path}/before"
        for old in (made, self.before):
            shutil.rmtree(old, ignore_errors=True)
        if room.run("put", room.file, "--grid", made, *numbers, "-q") != 0:
            sys.exit(2)
        self.cap = contents(room.told).decode().strip()
        self.needed = int(self.cap.split(":")[4])
        self.shares = {name: data for _, name, data in shares_in(made)}
        self.is_damaged = before == "damaged"
        getattr(self, f"make_{before}")(made)

    def make_nothing(self, _made):
        os.mkdir(self.before)

    def make_one(self, made):
        """As many good shares as are needed, and empty folders."""
        for at in range(len(self.shares)):
            server = f"server-{at:03}"
            if at < self.needed:
                shutil.copytree(f"{made}/{server}", f"{self.before}/{server}")
            else:
                os.makedirs(f"{self.before}/{server}")

    def make_emptied(self, made):
        """No share but the last has a byte."""
        shutil.copytree(made, self.before)
        for path, _, _ in list(shares_in(self.before))[:-1]:
            os.truncate(path, 0)

    def make_damaged(self, made):
        """The first share has another last byte."""
        shutil.copytree(made, self.before)
        path, _, data = next(shares_in(self.before))
        with open(path, "wb") as file:
            file.write(data[:-1] + bytes([data[-1] ^ 1]))

    def start(self):
        shutil.rmtree(self.room.grid, ignore_errors=True)
        shutil.copytree(self.before, self.room.grid)

    def words(self, command):
        """The words of a command."""
        verb, *options = [word for word in command.split() if word != "late"]
        grid = ["--grid", self.room.grid]
        if verb == "put":
            return [*self.puts, *options]
        if verb == "repair":
            return ["repair", self.cap, *grid, "--happy", "1", *options]
        return [verb, *grid, *options]

    def pair(self, commands, stops, hows):
        """Both programs at once, and what they left. Gives the second."""
        self.start()
        first = Program(self, "first", commands[0], stops[0], hows[0])
        if "late" in commands[1]:
            make_old(self.room.grid)
        second = Program(self, "second", commands[1], stops[1], hows[1])
        first.end()
        second.end()
        what = f"{stops[0]} {hows[0]}, {stops[1]} {hows[1]}"
        self.ended[f"{first.ended()}, {second.ended()}"] += 1
        for fault in self.faults_of(first, second):
            self.faults += 1
            if self.faults <= MOST_LINES:
                print(f"  after {what}: {fault}", flush=True)
        self.runs += 1
        return second

    def bad_shares(self):
        """Where closed shares stand that are not whole."""
        for path, name, data in shares_in(self.room.grid):
            if data != self.shares.get(name):
                yield path

    def is_as_before(self, path):
        there = path.replace(self.room.grid, self.before, 1)
        return os.path.exists(there) and contents(there) == contents(path)

    def reached(self, with_halves=False):
        """How many servers have a whole share of their own, also one on its way."""
        by_server = collections.defaultdict(list)
        for path, name, data in shares_in(self.room.grid):
            if data == self.shares.get(name):
                by_server[os.path.dirname(path)].append(name)
        if with_halves:
            for path, name, data in halves_in(self.room.grid):
                server = os.path.dirname(path)
                is_free = not os.path.lexists(os.path.join(server, name))
                if is_free and data == self.shares.get(name):
                    by_server[server].append(name)
        owners = {}
        return sum(takes_share(server, by_server, owners, set()) for server in by_server)

    def gets(self):
        is_done = self.room.run("get", self.cap, "--grid", self.room.grid) == 0
        return is_done and contents(self.room.told) == contents(self.room.file)

    def faults_of(self, first, second):
        """What is wrong in the grid, at once and after a third put."""
        room = self.room
        for program in (first, second):
            if program.how == "hangs":
                yield f"{program.command} hangs"
            elif program.status < 0 and not program.how == "die":
                yield f"{program.command} ended by signal {-program.status}"
        yield from (f"damaged: {os.path.relpath(path, room.grid)}"
                    for path in self.bad_shares() if not self.is_as_before(path))
        told = max(first.happiness(), second.happiness())
        # what is on its way gets its name back by the next put, and is not read before
        if self.reached(with_halves=True) < told:
            yield f"happiness {told} was told, {self.reached(with_halves=True)} is there"
        if told and self.reached() >= self.needed and not self.gets():
            yield "stored, and not there"
        third = [*self.puts, *(["--mend"] if self.is_damaged else []), "--no-sync"]
        if room.run(*third) != 0 or self.reached() < happiness_in(room.told):
            yield "not all is there after a third put"
        yield from (f"on its way after a third put: {os.path.relpath(path, room.grid)}"
                    for path, _, _ in halves_in(room.grid))
        if not self.gets():
            yield "not there after a third put"
        if room.run("scrub", "--grid", room.grid) != 0:
            yield f"a scrub after it: {contents(room.told).splitlines()[0].decode()}"

    def all_pairs(self, commands, takes_all):
        """Each stop of the first beside the whole second, and some beside stops of it."""
        alone = Program(self, "first", commands[0], 0, "go")
        calls = alone.calls()
        near = chosen(calls, takes_all)
        for stop in range(1, len(calls) + 1):
            for hows in FIRST_ENDS:
                second = self.pair(commands, (stop, 0), hows)
                if hows == ("go", "go"):
                    others = chosen(second.calls(), takes_all) if stop in near else ()
            for other in others:
                for hows in BOTH_END:
                    self.pair(commands, (stop, other), hows)


def make_old(grid):
    """Open files were written to 20 minutes ago."""
    old = time.time() - 1200
    for folder, _, names in os.walk(grid):
        for name in names:
            if name.endswith(".open"):
                os.utime(os.path.join(folder, name), (old, old))


def takes_share(server, by_server, owners, seen):
    """Whether a server gets a share of its own, where others take other ones."""
    for name in by_server[server]:
        if name not in seen:
            seen.add(name)
            if name not in owners or takes_share(owners[name], by_server, owners, seen):
                owners[name] = server
                return True
    return False


def main(program, library, path, takes_all):
    signal.signal(signal.SIGALRM, ring)
    room = Room(program, library, path)
    runs = faults = 0
    for numbers, before, *commands, folder in SCENES:
        scene = Scene(room, numbers, before, folder)
        scene.start()
        scene.all_pairs(commands, takes_all)
        shares = "two" if numbers is TWO else "ten"
        print(f"{shares} shares, {before} before, {' beside '.join(commands)}: "
              f"runs {scene.runs} faults {scene.faults}", flush=True)
        ended = ", ".join(f"{count} {how}" for how, count in scene.ended.most_common())
        print(f"  first and second: {ended}", flush=True)
        runs += scene.runs
        faults += scene.faults
    print(f"runs {runs} faults {faults}")
    sys.exit(1 if faults else 0)


if __name__ == "__main__":
    main(*sys.argv[1:4], sys.argv[4:] == ["all"])
