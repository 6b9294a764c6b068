"""Tries the wrong bodies of crates, as many at a time as edit different functions.

    python3 wrong-bodies.py ROOM [--proved] NAME..

ROOM is a copy of the repository, which it changes; tests/wrong-bodies.sh makes one. A crate is
proved as it stands first; with --proved it was, and is proved again only where an edit is tried
alone. Then come rounds. In a round each edit of crates/NAME/wrong-bodies/ that
changes the body of a function of its own is made, and one check tells whose goals fail: an edit is
refused where a goal of its own function does. A body changes no contract, so no other edit of the
round has a part in that. An edit of anything else, and one whose function has no such goal, is
tried alone by `rt must-fail`.

Each edit has a line. The last line counts the edits, those that were not refused, and those that
were refused only since a proof file names what the edit took away. The status is 0 where each was
refused by a goal, 1 where one was not, 2 where a crate is not proved as it stands.
"""

import os
import re
import shutil
import subprocess
import sys

RT = os.environ.get("RT", "rt")
HEAD = re.compile(r"( *)(?:pub(?:\([^)]*\))? )?(?:(?:const|final|unsafe) )*fn (\w+)")
BLOCK = re.compile(r"(?:pub )?(impl|trait)\b(.*?)\{?$")
ANSWER = re.compile(r"(?:\./)?proofs/(\S+)/(?:Answers|Invariants|Proof)\.antt:\d+:\d+: error: (.*)")
OPEN = re.compile(r"note: \S+: it is not proved that .* \(`(\S+)`\)")
VERDICT = re.compile(r"fn (\S+): ")
UNPROVED = re.compile(r"fn (\S+): no proof: .* did not prove `(\S+)`")
# What antt says where a proof names what is gone; behind a long name it goes on in the next line.
NAMES = re.compile(r"has no field|is not a field of|is not in scope|has no `|was not admitted")
GOES_ON = re.compile(r"\n  (?=has no )")
MOST = 160
# What rt must-fail says of an edit that no goal refuses.
ALONE = "as it must be (only because a proof file names what the edit took away)"


class Function:
    """A function: where its body stands, and the words of its name in a check. Its owner is a type,
    with the name of the trait behind it where it is a trait's method."""

    def __init__(self, file, module, owner, name, first, last):
        self.module, self.owner, self.name = module, owner, name
        self.file, self.first, self.last = file, first, last

    def path(self):
        """The end of its name in a check, where a method is of its type's module."""
        return "::".join([self.owner, self.name] if self.owner else [*self.module, self.name])

    def has(self, symbol):
        """Whether a check's name is that of this function, or of a closure in it."""
        words = [it for it in symbol.split("::")[1:] if it != "fn"]
        if not self.owner:
            return words[: len(self.module) + 1] == [*self.module, self.name]
        return (self.owner, self.name) in zip(words, words[1:])


def body_of(lines, at, indent):
    """Returns the first and the last line of the body of the function that begins at a line, by
    the layout of rt fmt, or None where it has no body."""
    depth = 0
    for first in range(at, len(lines)):
        depth += lines[first].count("{") - lines[first].count("}")
        if not depth and lines[first].endswith(";"):
            return None
        if lines[first].endswith("{") and re.match(rf"{indent}\S", lines[first]):
            last = next((it for it in range(first, len(lines)) if lines[it] == f"{indent}}}"), None)
            return last and (first, last)
    return None


def owner_of(line):
    """Returns a trait's name, or the type of an impl with the words of its trait behind it."""
    line = re.sub(r"^<([^<>]|<[^<>]*>)*>", "", line).split(" where ")[0]
    trait, _, of = line.rpartition(" for ")
    name = re.sub(r"<.*", "", of).strip().rpartition("::")[2]
    return name + "".join(re.findall(r"\b[A-Za-z]\w*", trait.rpartition("::")[2]))


def functions_of(folder, file):
    """Returns the functions with bodies of a file below src/."""
    with open(f"{folder}/{file}", encoding="utf-8") as it:
        lines = it.read().split("\n")
    words = re.sub(r"\.rt$", "", file).split("/")[1:]
    module = [it for it in words if it not in ("lib", "main", "mod")]
    found, owner = [], ""
    for at, line in enumerate(lines):
        block, head = BLOCK.match(line), HEAD.match(line)
        if block:
            owner = owner_of(block[2])
        elif line == "}":
            owner = ""
        body = head and body_of(lines, at, head[1])
        if body:
            found.append(Function(file, module, owner * bool(head[1]), head[2], *body))
    return found


class Edit:
    """An edit's file, its pairs, and the functions whose bodies it changes, or none."""

    def __init__(self, folder, path, functions):
        self.path, self.pairs, self.functions = path, [], []
        file = old = ""
        with open(path, encoding="utf-8") as it:
            for line in it.read().split("\n"):
                word, _, text = line.partition(": ")
                if word == "file":
                    file = text.strip()
                elif word == "old":
                    old = text
                elif line.startswith("new:"):
                    self.pairs.append((file, old, text))
        found = [function_at(folder, *it[:2], functions) for it in self.pairs]
        self.functions = [] if None in found else list(dict.fromkeys(found))


def function_at(folder, file, old, functions):
    """Returns the innermost function with a text in its body, where the file has the text once."""
    if file not in functions:
        return None
    with open(f"{folder}/{file}", encoding="utf-8") as it:
        text = it.read()
    if text.count(old) != 1:
        return None
    line = text[: text.index(old)].count("\n")
    around = [it for it in functions[file] if it.first <= line <= it.last]
    return max(around, key=lambda it: it.first, default=None)


def rounds_of(edits):
    """Returns the edits in rounds, in each of which no two edits change one function."""
    rounds = []
    for edit in edits:
        free = (it for it in rounds if not {*edit.functions} & {f for e in it for f in e.functions})
        place = next(free, None)
        if place is None:
            rounds.append([edit])
        else:
            place.append(edit)
    return rounds


def made(folder, edits):
    """Makes the edits, and returns the texts that the files had."""
    were = {}
    for file, old, new in (it for edit in edits for it in edit.pairs):
        with open(f"{folder}/{file}", encoding="utf-8") as it:
            text = it.read()
        were.setdefault(file, text)
        with open(f"{folder}/{file}", "w", encoding="utf-8") as it:
            it.write(text.replace(old, new))
    return were


def checked(folder, *flags):
    """Returns what a check of the crate in the folder prints."""
    words = [RT, "check", "--jobs", "1", *flags]
    how = {"stdout": subprocess.PIPE, "stderr": subprocess.STDOUT, "errors": "replace"}
    return subprocess.run(words, cwd=folder, stdin=subprocess.DEVNULL, **how)


def goals_in(crate, said):
    """Returns the goals that failed, each with the name of its function, and whether the proof
    only names what is gone."""
    found, left = [], []
    for line in GOES_ON.sub(" ", said).split("\n"):
        answer, is_open, verdict = ANSWER.match(line), OPEN.match(line), VERDICT.match(line)
        if answer:
            # + marks functions that call one another
            symbol = "::".join([crate, *answer[1].replace("+", "").split("/")])
            found.append((symbol, answer[2], bool(NAMES.search(answer[2]))))
        elif is_open:
            left.append(is_open[1])
        elif unproved := UNPROVED.match(line):
            found.append((unproved[1], unproved[2], False))
        elif verdict:
            found += [(verdict[1], goal, False) for goal in left]
            left = []
    return found


def tried_together(folder, crate, edits):
    """Returns the goal that refuses each edit, where one check of all of them tells it, and those
    that no goal refuses, but a proof that names what is gone."""
    only = [it for edit in edits for f in edit.functions for it in ("--only", f.path())]
    were = made(folder, edits)
    ran = checked(folder, "--allow-holes", *only)
    if ran.returncode == 2:
        # a path that the check does not know
        ran = checked(folder, "--allow-holes")
    for file, text in were.items():
        with open(f"{folder}/{file}", "w", encoding="utf-8") as it:
            it.write(text)
    refused, by_names = {}, {}
    for symbol, goal, is_names in goals_in(crate, ran.stdout):
        for edit in edits:
            if any(it.has(symbol) for it in edit.functions):
                told = by_names if is_names else refused
                told.setdefault(edit, f"{symbol}: {goal[:MOST]}")
    return refused, {it: by_names[it] for it in by_names if it not in refused}


def tried_alone(room, folder, crate, edit):
    """Returns what rt must-fail says of an edit."""
    alone = f"{folder}/must-fail"
    shutil.rmtree(alone, ignore_errors=True)
    os.mkdir(alone)
    shutil.copy(edit.path, alone)
    how = {"stdout": subprocess.PIPE, "stderr": subprocess.STDOUT, "errors": "replace"}
    said = subprocess.run([RT, "must-fail", crate], cwd=room, **how).stdout
    shutil.rmtree(alone)
    label = f"rt: must-fail {crate}/{os.path.basename(edit.path)}: "
    told = (it for it in said.split("\n") if it.startswith(label))
    return next(told, f"{label}NOT TRIED: {said[-MOST:]}").removeprefix(label)


def prove(folder, crate):
    """Proves a crate as it stands, and keeps what the tries begin with. Ends where it fails."""
    if checked(folder).returncode:
        print(f"{crate} is not proved as it stands", file=sys.stderr)
        sys.exit(2)


def outcomes(room, crate, is_proved):
    """Yields each edit of a crate with what it came to, or nothing where the crate fails."""
    folder = f"{room}/crates/{crate}"
    shutil.rmtree(f"{folder}/must-fail", ignore_errors=True)
    if not is_proved:
        prove(folder, crate)
    sources = [os.path.relpath(f"{at}/{it}", folder)
               for at, _, names in os.walk(f"{folder}/src") for it in names if it.endswith(".rt")]
    functions = {it: functions_of(folder, it) for it in sources}
    names = sorted(os.listdir(f"{folder}/wrong-bodies"))
    edits = [Edit(folder, f"{folder}/wrong-bodies/{it}", functions) for it in names]
    alone = [it for it in edits if not it.functions]
    for together in rounds_of([it for it in edits if it.functions]):
        refused, by_names = tried_together(folder, crate, together)
        alone += [it for it in together if it not in refused and it not in by_names]
        yield from ((it, f"refused, as it must be: {refused[it]}") for it in refused)
        yield from ((it, f"refused, {ALONE}: {by_names[it]}") for it in by_names)
    if is_proved and alone:
        prove(folder, crate)
    yield from ((it, tried_alone(room, folder, crate, it)) for it in alone)


def main(room, *words):
    is_proved, crates = "--proved" in words, [it for it in words if it != "--proved"]
    tried = refused = by_names = 0
    for crate in crates:
        for edit, told in outcomes(room, crate, is_proved):
            tried += 1
            refused += told.startswith("refused, as it must be")
            by_names += "only because a proof file names" in told
            print(f"{crate}/{os.path.basename(edit.path)}: {told}", flush=True)
    print(f"{tried} tried, {tried - refused} not refused, {by_names} told by names alone")
    return int(refused != tried or by_names > 0)


if __name__ == "__main__":
    sys.exit(main(*sys.argv[1:]))
