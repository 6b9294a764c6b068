#!/bin/sh
# Commands over many files to which memory is refused.
#
#     tests/many-memory.sh [PROGRAM]
#
# Run by hand: `tests/looks-at-many.sh` says how. One allocation after another is refused
# (`tests/many_memory.py`): each run has to tell it with status 7, or to end as without, and what it
# printed is a beginning of what is printed without, but for files that it named as refused. It
# needs a C compiler `cc`. With TMPDIR in memory it takes a minute on a busy machine.

here=$(cd "$(dirname "$0")/.." && pwd) || exit 2
. "$here/tests/looks-at-many.sh"

runs_part many_memory.py fault
counts
