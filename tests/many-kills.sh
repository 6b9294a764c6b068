#!/bin/sh
# Commands over many files that are killed.
#
#     tests/many-kills.sh [PROGRAM]
#
# Run by hand: `tests/looks-at-many.sh` says how. Puts, gets, checks and repairs are killed at many
# moments and after many of their calls (`tests/many_kills.py`): what a put left has to be true, no
# half file may stand under a final name, and a second run has to end well. It needs a C compiler
# `cc`. With TMPDIR in memory it takes some four minutes on a busy machine.

here=$(cd "$(dirname "$0")/.." && pwd) || exit 2
. "$here/tests/looks-at-many.sh"

runs_part many_kills.py record
counts
