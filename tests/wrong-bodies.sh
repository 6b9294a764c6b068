#!/bin/sh
# Tries the wrong bodies that the gate does not: each edit of crates/NAME/wrong-bodies/ must be
# refused by the prover, as those of crates/NAME/must-fail/ are.
#
#     tests/wrong-bodies.sh [--proved] [NAME..]
#
# NAME is a crate; without one all crates that have such a folder are taken. With --proved they were
# proved as they stand, by `rt ci` or `rt check`, and are not proved again before. Run by hand when
# code or clauses of a crate change. It works on a copy of the files as they are now, and begins
# with what checks in this checkout have proved and built. tests/wrong-bodies.py says how it tries
# them, what it prints, and its status, which is 2 also where nothing could be run. A crate takes
# little more than a check of it from nothing, and then some 20 seconds for each edit that is tried
# alone.

here=$(cd "$(dirname "$0")/.." && pwd) || exit 2
cd "$here" || exit 2
room=$(mktemp -d) || exit 2
trap 'rm -rf "$room"' EXIT
trap 'exit 2' HUP INT TERM

proved=
if [ "$1" = --proved ]; then
    proved=$1
    shift
fi
if [ $# = 0 ]; then
    set -- $(find crates -path '*/wrong-bodies/*.edit' | cut -d / -f 2 | sort -u)
fi
for name; do
    [ -d "crates/$name/wrong-bodies" ] || { echo "$name has no wrong-bodies" >&2; exit 2; }
done

git ls-files -z -co --exclude-standard | xargs -0 sh -c '
    for file; do [ ! -e "$file" ] || printf "%s\0" "$file"; done' sh |
    tar --null -T - -c | tar -x -C "$room" || exit 2
# The libraries that the checks of these edits load.
for crate in $(tools/crates-below "$@"); do
    if [ -f "crates/$crate/out/rlib/stamp" ]; then
        mkdir -p "$room/crates/$crate/out"
        cp -a "crates/$crate/out/rlib" "$room/crates/$crate/out/"
    fi
done

python3 tests/wrong-bodies.py "$room" $proved "$@"
