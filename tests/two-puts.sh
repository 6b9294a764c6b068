#!/bin/sh
# Two programs that store the shares of one file at once.
#
#     tests/two-puts.sh [PROGRAM [all]]
#
# Run by hand. PROGRAM is a built program, `./grid` if there is none. A put is stopped after one of
# the calls that it makes in a grid, looks among them. Meanwhile another program works on the same
# file in the same grid: a put, a repair, or a scrub that removes open files or sets damaged shares
# aside. It runs to its end, or is stopped too after one of its own calls. Then the first goes on to
# its end, or is killed at once or after its next rename, link or removal; and then the second does.
# In some runs the open files of the first are made old before the second begins. Before both, the
# grid has nothing, shares enough for a repair, shares without a byte, or a damaged one
# (`tests/two-puts.py`, SCENES).
#
# After each run no closed share may be damaged that was not before. As many servers as one of both
# said (`happiness H`) have a whole share of their own, however both ended, and the file comes back.
# A whole share that is on its way to be set aside (NAME.OWN.aside) counts where no file has its
# closed name: the next put, repair or scrub that sets aside gives it that name back. A third put
# then stores what is missing, and leaves nothing on its way; and after it a scrub finds nothing.
#
# Which pairs of stops: all calls of the first beside the whole second. Where both are stopped, each
# is stopped before and after each call that makes, renames, links or removes a name, and nowhere
# else. What a program does to the other depends on what it has changed, and on what it knows: of
# two stops between the same changes the earlier knows less, and is seen by the other no otherwise.
# So the stops right behind a change and right before the next one are the two ends of what can be
# known there. Bytes that are written and synced go to open files, which are of one program alone.
# With `all` the stops of both are all of their calls, which takes some hours.
#
# It needs gcc and python3, and takes three minutes with TMPDIR in memory, and up to twenty on a
# busy disk. Each scene has a line, behind its first faults, and one that counts how the first and
# the second ended. The last line is `runs N faults N`; the status is 0 where there are no faults, 1
# where there are, and 2 where nothing could be run.

here=$(cd "$(dirname "$0")/.." && pwd) || exit 2
program=${1:-$("$here/grid" --program)}
case $program in
    /*) ;;
    *) program=$PWD/$program ;;
esac
"$program" cap URI:LIT: > /dev/null || exit 2
room=$(cd "$(mktemp -d)" && pwd -P) || exit 2
trap 'rm -rf "$room"' EXIT
trap 'exit 2' HUP INT TERM

gcc -O1 -Wall -shared -fPIC -o "$room/record.so" "$here/tests/record.c" || exit 2
mkdir "$room/pairs" || exit 2
python3 "$here/tests/two-puts.py" "$program" "$room/record.so" "$room/pairs" "$2"
