#!/bin/sh
# Proves and runs the benchmark of the field and the erasure code, in a folder of its own; words go
# to rt run, as --cpu x86-64-v3.
set -e
here=$(cd "$(dirname "$0")" && pwd)
. "$here/../prepare.sh"
prepare "zfec_code"
echo "Encoding and decoding at 3 of 10: the time, that of the same sums one block after the other,"
echo "and their ratio."
rt run "$@"
