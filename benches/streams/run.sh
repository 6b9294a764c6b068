#!/bin/sh
# Proves and runs the benchmark of streams, in a folder of its own: SHA-256 of messages by the kit's
# `sha2`, by `Sha256Stream`, and by eight of these side by side, in turn. Words go on to rt run, as
# --cpu x86-64-v3.
set -e
here=$(cd "$(dirname "$0")" && pwd)
. "$here/../prepare.sh"
prepare "sha2 sha2_lanes"
echo "A message's bytes; the time of as many messages by sha2, by Sha256Stream and by eight of"
echo "these side by side, best of seven; in brackets a byte of them, so that all are made."
rt run "$@"
