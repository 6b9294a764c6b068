#!/bin/sh
# Proves and runs the benchmark of whole files, in a folder of its own. It is built and run as
# `grid` builds and runs its program: for the processor of this machine, and with huge pages.
set -e
here=$(cd "$(dirname "$0")" && pwd)
. "$here/../prepare.sh"
prepare "cap_text file_encoding sha2"
echo "A whole file encoded (put) and read (get): the time, that of hashing as many bytes by sha2,"
echo "and their ratio."
export GLIBC_TUNABLES="glibc.malloc.hugetlb=1${GLIBC_TUNABLES:+:$GLIBC_TUNABLES}"
echo "Each run takes fresh memory from the system:"
rt run --cpu "$("$root/tools/processor")"
echo "Memory is kept from run to run, so that it was touched before:"
keep=glibc.malloc.mmap_threshold=8589934592:glibc.malloc.trim_threshold=8589934592
GLIBC_TUNABLES="$keep:$GLIBC_TUNABLES" out/bench
