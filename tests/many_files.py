#!/usr/bin/env python3
"""What `tests/many-*.sh` do of their work in Python: a tree of odd names, and whether catalogues,
files and lines are those that have to be. Each command tells on standard error what is otherwise.

    many_files.py COMMAND WORDS..
"""

import json
import os
import re
import socket
import stat
import sys

from many_catalogues import cut, escaped, read_catalogue
from many_runs import bytes_of, files_below, is_same, read, told, write


# ---- the odd tree

ODD = [
    b"empty-file", b"x", b"blank name", b" blank before", b"blank behind ", b"two  blanks",
    b"tab\tname", b"line\nfeed", b"\nfeed before", b"feed behind\n", b"return\rname",
    b"return behind\r", b"back\\slash", b"back behind\\", b"\\before", b"no\\nfeed", b"\"double\"",
    b"it's", b"`ticks`", b"-dash", b"--grid", b"-", b"--", b"*", b"a*b", b"?", b"[ab]", b"[",
    b"a", b"ab", b"{a,b}", b"$HOME", b"~", b"#", b"# grid catalogue 1", b";", b"a&b", b"a|b", b"(",
    b"URI:LIT:n5xgk  one", b"...", b"..x", b".hidden", b"x.part", b"n" * 250, b"\x01", b"\x7f",
    b"esc\x1b[31m", "é".encode(), "e\u0301".encode(), "日本".encode(), "\U0001f600".encode(),
    "next\u0085line".encode(), "\u2028".encode(), "\u202eback".encode(), "\ufeffmark".encode(),
    b"folder\nfeed/file", b"-folder/-file", b"blank folder/ /file", b"[folder]/file",
    b"/".join([b"deep"] * 100) + b"/file",
]
NO_TEXT = [b"bad\xff", b"cut\xc3", b"half\xed\xa0\x80", b"long\xc0\xaf", b"folder\xfe/file",
           b"bad\xff\nfeed"]
SIZES = [1, 55, 56, 57, 1000, 131072, 131073, 300000, 4, 20000]
# Sizes of files that the script changes: of 56 bytes and more, so that they have shares.
CHOSEN = {b"empty-file": 0, b"x": 1000, b"ab": 131073, b".hidden": 300, b"--grid": 400,
          b"back\\slash": 57}


def make_tree(folder):
    """A folder of odd names, and of what is no regular file."""
    folder = os.fsencode(folder)
    os.mkdir(folder)
    os.chdir(folder)
    for number, name in enumerate(ODD + NO_TEXT):
        write(name, bytes_of(number, CHOSEN.get(name, SIZES[number % len(SIZES)])))
    os.mkdir("empty-folder")
    os.link("x", "hard-link")
    os.symlink("x", "file-link")
    os.symlink("file-link", "link-to-link")
    os.symlink("nowhere", "dangling")
    os.symlink("deep", "folder-link")
    os.symlink("loop", "loop")
    os.symlink("../t", "up")
    os.symlink("/dev/null", "device-link")
    # A regular file by what the system tells, of which each read at its beginning fails.
    os.symlink("/proc/self/mem", "unreadable")
    os.mkfifo("pipe")
    os.symlink("pipe", "pipe-link")
    listener = socket.socket(socket.AF_UNIX)
    listener.bind("socket")
    with open("sparse", "xb") as file:
        file.truncate(200 << 20)
        for at in (0, 50 << 20, (200 << 20) - 1000):
            file.seek(at)
            file.write(bytes_of(at, 1000))
    # Folders whose path is longer than the system takes.
    at = os.open(".", os.O_RDONLY)
    for _ in range(20):
        os.mkdir(b"f" * 250, dir_fd=at)
        at = os.open(b"f" * 250, os.O_RDONLY, dir_fd=at)
    os.close(os.open("far", os.O_CREAT | os.O_WRONLY, dir_fd=at))


def is_stored(name):
    """Whether a put of a list stores what has this name: a regular file, or a link to one, that
    can be read, and whose name is a text."""
    try:
        name.decode()
        if not stat.S_ISREG(os.stat(name).st_mode):
            return False
        with open(name, "rb") as file:
            file.read(1)
        return True
    except (OSError, ValueError):
        return False


def listed(kind, names, catalogue, errors):
    """Whether a put of a list of names wrote the lines of those that are regular files, in their
    order, and told of each other one that it is refused, in theirs."""
    names = read(names).split(b"\0" if kind == "nul" else b"\n")[:-1]
    wanted = [name for name in names if is_stored(name)]
    entries = read_catalogue(catalogue)
    if [entry.name for entry in entries] != wanted:
        for entry, name in zip(entries, wanted):
            if entry.name != name:
                sys.exit(f"the line of {entry.name!r} where that of {name!r} has to stand")
        sys.exit(f"{len(entries)} lines, and {len(wanted)} have to be there")
    for entry in entries:
        if entry.size != os.path.getsize(entry.name):
            sys.exit(f"another size: {entry.line!r}")
        if entry.literal is not None and entry.literal != read(entry.name):
            sys.exit(f"another file in the cap: {entry.line!r}")
    lines = [line for line in cut(read(errors)) if not line.startswith(b"made ")]
    refused = [told(name) for name in names if not is_stored(name)]
    if len(lines) != 2 * len(refused):
        sys.exit(f"{len(lines)} lines told of {len(refused)} refusals: {lines!r}")
    for name, why, line in zip(refused, lines[::2], lines[1::2]):
        refusal = b"grid: 90 FileFault %s (%s)\n" % (name, name)
        if not why.startswith(name + b": ") or line != refusal:
            sys.exit(f"of {name!r} was told: {why!r} {line!r}")


# ---- what came of it

def below(name):
    """The name that a get gives a file below its folder."""
    return re.sub(rb"^(\./|/)+", b"", name)


def same(catalogue, tree, back):
    """Whether the files below `back` are those of the catalogue, with the bytes that they have in
    the folder of their put, and no others stand there."""
    tree, back = os.fsencode(tree), os.fsencode(back)
    names = [entry.name for entry in read_catalogue(catalogue)]
    if files_below(back) != {below(name) for name in names}:
        sys.exit(f"other files: {files_below(back) ^ {below(name) for name in names}}")
    for name in names:
        path = os.path.join(back, below(name))
        if os.path.islink(path) or not is_same(os.path.join(tree, name), path):
            sys.exit(f"another file: {name!r}")


def lines(catalogue, word, literal):
    """Prints the line that a command over a catalogue has for each file."""
    for entry in read_catalogue(catalogue):
        name, is_escaped = escaped(entry.name)
        what = literal if entry.literal is not None else word
        sys.stdout.buffer.write(b"\\" * is_escaped + what.encode() + b"  " + name + b"\n")


def objects(catalogue, out, healthy, happiness):
    """Whether a check's objects are those of a catalogue whose files stand so."""
    entries = read_catalogue(catalogue)
    rows = [json.loads(line) for line in cut(read(out))]
    healthy, happiness = healthy == "yes", int(happiness)
    literals = 0
    for row, entry in zip(rows, entries):
        wanted = {"name": os.fsdecode(entry.name)}
        if entry.literal is not None:
            literals += 1
            wanted["literal"] = True
        else:
            wanted.update(healthy=healthy, recoverable=True, happiness=happiness)
        if row != wanted:
            sys.exit(f"{row!r} where {wanted!r} has to stand")
    well = len(entries) if healthy else literals
    wanted = {"files": len(entries), "healthy": well, "recoverable": len(entries) - well, "lost": 0}
    if len(rows) != len(entries) + 1 or rows[-1] != wanted:
        sys.exit(f"{len(rows)} objects, the last {rows[-1]!r} and not {wanted!r}")


COMMANDS = {"tree": make_tree, "listed": listed, "same": same, "lines": lines, "objects": objects}

if __name__ == "__main__":
    sys.exit(COMMANDS[sys.argv[1]](*sys.argv[2:]))
