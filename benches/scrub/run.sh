#!/bin/sh
# Proves and runs the benchmark of a scrub's reading, in a folder of its own; words go to rt run, as
# --cpu x86-64-v3.
set -e
here=$(cd "$(dirname "$0")" && pwd)
. "$here/../prepare.sh"
prepare "share_files"
echo "Files of 16 MiB, read one after the other, and side by side:"
rt run "$@"
