"""Catalogues, read by docs/FORMATS.md alone: nothing of the program is used for it. Names are
bytes."""

import base64
import re
import sys

HEAD = re.compile(rb"# grid catalogue 1 begun (0|[1-9][0-9]*)\.[0-9]{9} k ([1-9][0-9]*) "
                  rb"n ([1-9][0-9]*) segment ([1-9][0-9]*) under [a-z2-7]{26}\n")
LINE = re.compile(rb"(\\?)(URI:CHK:[a-z2-7]{26}:[a-z2-7]{52}:([0-9]+):([0-9]+):([0-9]+)"
                  rb"|URI:LIT:([a-z2-7]*))  ([^\0\n]+)\n")
ESCAPES = {b"\\": b"\\\\", b"\n": b"\\n", b"\r": b"\\r"}
PLAIN = {there: here for here, there in ESCAPES.items()}


def escaped(name):
    """A name as it stands in a line, and whether the line begins with a backslash."""
    text = re.sub(rb"[\\\n\r]", lambda found: ESCAPES[found.group()], name)
    return text, text != name


def plain(text):
    """The name that stands so in a line which begins with a backslash."""
    if b"\r" in text or b"\\" in re.sub(rb"\\[\\nr]", b"", text):
        sys.exit(f"no escaped name: {text!r}")
    return re.sub(rb"\\[\\nr]", lambda found: PLAIN[found.group()], text)


class Entry:
    """A line of a catalogue: its name, the size of its file, and the file where the cap has it."""

    def __init__(self, line):
        found = LINE.fullmatch(line)
        if not found:
            sys.exit(f"no line of a catalogue: {line!r}")
        self.line = line
        self.is_escaped = found[1] != b""
        self.name = plain(found[7]) if self.is_escaped else found[7]
        if escaped(self.name) != (found[7], self.is_escaped):
            sys.exit(f"a name that is written otherwise: {line!r}")
        self.literal = None
        if found[6] is None:
            self.size = int(found[5])
        else:
            text = found[6].upper()
            self.literal = base64.b32decode(text + b"=" * (-len(text) % 8))
            self.size = len(self.literal)
        if (self.size <= 55) != (self.literal is not None):
            sys.exit(f"a cap of another kind than its size asks: {line!r}")


def read_catalogue(path):
    """The lines of a whole catalogue. It ends the program where the file is none."""
    with open(path, "rb") as file:
        head, *lines = cut(file.read())
    if not HEAD.fullmatch(head):
        sys.exit(f"no first line: {head!r}")
    return [Entry(line) for line in lines]


def cut(text):
    """The lines of a text, each with its line feed; the last may have none."""
    lines = text.split(b"\n")
    return [line + b"\n" for line in lines[:-1]] + ([lines[-1]] if lines[-1] else [])
