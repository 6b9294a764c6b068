#!/bin/sh
# Proves and runs the benchmark of the padding of hash trees, in a folder of its own; words go to
# rt run, as --cpu x86-64-v3.
set -e
here=$(cd "$(dirname "$0")" && pwd)
. "$here/../prepare.sh"
prepare "merkle"
echo "The padding of a tree of so many segments, and what a download offers to four such trees: the"
echo "times, and the ratio of both together to that of the first line. Then the time of a whole"
echo "tree, alone and beside another."
rt run "$@"
