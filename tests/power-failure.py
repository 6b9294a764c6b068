"""Makes each folder that a power failure can leave of a recorded run, and looks at its shares.

    python3 power-failure.py RECORD ROOT [FILE NEW [OLD]]

RECORD is what the library of record.c tells of a run below the folder ROOT, which stood before it
and was empty. A power failure may come after any call. Then what was synced is there, and each
other part is there or not: the bytes that were written to a file since it was synced, and each
entry of a folder that was made, renamed or removed since that folder was synced. For each call the
folders are made with all these parts, with none, with all but one, and with one alone.

A share is told closed once its folder was synced after the rename, or once the program wrote to
standard output. It has to be there then, whole; and no file with a closed name may have other bytes
than its name tells.

With FILE, a path in ROOT, the run is to give FILE the bytes of the file NEW; it had those of OLD
before, or was not there. At each call FILE has to be one of both, and NEW's at the end.

Each fault has a line, up to ten of them. The last line counts the calls, the folders and the
faults; the status is 0 where there are none, 2 where nothing was recorded.
"""

import base64
import hashlib
import os.path
import re
import sys

CLOSED = re.compile(rb"[a-z2-7]{26}\.[0-9]+\.([a-z2-7]{52})")
MOST_LINES = 10
TAG = b"24:grid_core_whole_share_v1,"


class File:
    def __init__(self, data=b""):
        self.bytes = bytearray(data)
        self.synced = len(data)
        self.digests = {}

    def digest(self, length):
        """The digest of the first bytes as a share, as its name has it."""
        if length not in self.digests:
            inner = hashlib.sha256(TAG + self.bytes[:length]).digest()
            text = base64.b32encode(hashlib.sha256(inner).digest())
            self.digests[length] = text.lower().rstrip(b"=")
        return self.digests[length]


class Change:
    """An entry of a folder that is made, linked, renamed or removed."""

    def __init__(self, kind, path, file=None, source=None):
        self.kind, self.path, self.file, self.source = kind, path, file, source
        self.folder = os.path.dirname(path)
        self.is_synced = False

    def apply(self, folders, entries):
        if self.kind == "mkdir":
            folders.add(self.path)
        elif self.kind == "remove":
            entries.pop(self.path, None)
        else:
            entries.pop(self.source, None)
            entries[self.path] = self.file


class Run:
    """What was done so far."""

    def __init__(self, root):
        self.root = root
        self.files, self.by_inode = [], {}
        self.changes, self.entries, self.told = [], {}, set()
        self.before, self.watched, self.wanted = {}, None, ()
        self.found = 0

    def watch(self, path, new, old=None):
        """A file that is to be made, or replaced."""
        self.watched, self.wanted = path, (old, new)
        if old is not None:
            self.entries[path] = self.before[path] = File(old)

    def take(self, words, data):
        call, rest = words[0], words[1:]
        if call == b"mkdir":
            self.change(Change("mkdir", path_of(rest[0])))
        elif call == b"create":
            file = File()
            self.files.append(file)
            self.by_inode[rest[0]] = file
            self.change(Change("create", path_of(rest[1]), file))
        elif call == b"rename":
            source, path = path_of(rest[0]), path_of(rest[1])
            if os.path.dirname(source) != os.path.dirname(path):
                sys.exit("a rename between two folders")
            self.change(Change("rename", path, self.entries[source], source))
        elif call == b"link":
            source, path = path_of(rest[0]), path_of(rest[1])
            self.change(Change("link", path, self.entries[source]))
        elif call == b"remove":
            self.change(Change("remove", path_of(rest[0])))
        elif call == b"write":
            file = self.by_inode[rest[0]]
            if int(rest[1]) != len(file.bytes):
                sys.exit("a write within a file")
            file.bytes += data
        elif call == b"sync":
            file = self.by_inode[rest[0]]
            file.synced = len(file.bytes)
        elif call == b"syncdir":
            self.sync_folder(path_of(rest[0]))
        elif call == b"told":
            self.told.update(path for path in self.entries if is_closed(path))
        else:
            sys.exit(f"a call that is not known: {call.decode()}")

    def change(self, change):
        self.changes.append(change)
        change.apply(set(), self.entries)

    def sync_folder(self, folder):
        for change in self.changes:
            if change.folder == folder:
                change.is_synced = True
                if change.kind == "rename" and is_closed(change.path):
                    self.told.add(change.path)

    def choices(self):
        """Sets of parts that are left out."""
        parts = [change for change in self.changes if not change.is_synced]
        parts += [file for file in self.files if file.synced < len(file.bytes)]
        yield frozenset()
        if parts:
            yield frozenset(parts)
        if len(parts) > 1:
            for part in parts:
                yield frozenset([part])
                yield frozenset(parts) - {part}

    def faults(self, left_out):
        """What is wrong in the folder without these parts."""
        folders, entries = {self.root}, dict(self.before)
        for change in self.changes:
            if change not in left_out:
                change.apply(folders, entries)
        there = {path: file for path, file in entries.items() if self.stands(path, folders)}
        for path in self.told - there.keys():
            yield path, "is missing"
        for path, file in there.items():
            length = file.synced if file in left_out else len(file.bytes)
            if is_closed(path) and file.digest(length) != digest_in(path):
                yield path, f"has {length} of {len(file.bytes)} bytes"
        if self.watched:
            file = there.get(self.watched)
            length = file.synced if file in left_out else len(file.bytes) if file else 0
            if (bytes(file.bytes[:length]) if file else None) not in self.wanted:
                yield self.watched, "is neither the old one nor the new one"

    def stands(self, path, folders):
        """Whether all folders above a path are there."""
        while path != self.root:
            path = os.path.dirname(path)
            if path not in folders:
                return False
        return True


def path_of(word):
    return os.path.normpath(word)


def is_closed(path):
    return CLOSED.fullmatch(os.path.basename(path)) is not None


def digest_in(path):
    return CLOSED.fullmatch(os.path.basename(path)).group(1)


def calls_of(record):
    """The words of each call, and the bytes of a write."""
    while line := record.readline():
        words = line.rstrip(b"\n").split(b"\t")
        yield words, record.read(int(words[3])) if words[0] == b"write" else b""


def contents(path):
    with open(path, "rb") as file:
        return file.read()


def look(run, after):
    """Makes the folders that can be left now, and gives how many they are."""
    folders = 0
    for left_out in run.choices():
        folders += 1
        for path, fault in run.faults(left_out):
            run.found += 1
            if run.found <= MOST_LINES:
                print(f"{after}: {os.path.relpath(path, run.root).decode()} {fault}")
    return folders


def main(record, root, file=None, *watched):
    run, calls, folders = Run(os.path.normpath(os.fsencode(root))), 0, 0
    if file:
        run.watch(os.path.normpath(os.fsencode(file)), *map(contents, watched))
    with open(record, "rb") as lines:
        for words, data in calls_of(lines):
            run.take(words, data)
            calls += 1
            folders += look(run, f"after call {calls}, {words[0].decode()}")
    if file:
        run.wanted = run.wanted[1:]
        run.told.add(run.watched)
        look(run, "at the end")
    print(f"calls {calls} folders {folders} told {len(run.told)} faults {run.found}")
    if not run.told or not calls:
        sys.exit(2)
    sys.exit(1 if run.found else 0)


if __name__ == "__main__":
    main(*sys.argv[1:])
