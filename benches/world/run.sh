#!/bin/bash
# Times the built program at a script of 256 nodes, of which 50 upload a file of 56 bytes each, one
# share to a node, and 50 download it: some 130,000 messages. Prints how many operations ended in
# each way, how many events there were, the processor time and the greatest memory. Its word: the
# program (that of this repository if none, which is built first). It needs GNU time.
set -e
here=$(cd "$(dirname "$0")" && pwd)
root=$(cd "$here/../.." && pwd)
timed=$(type -P time) || { echo "GNU time is not here" >&2; exit 2; }
program=${1:-}
if [ -z "$program" ]; then
    program=$("$root/grid" --program)
fi
script=$(mktemp)
told=$(mktemp)
trap 'rm -f "$script" "$told"' EXIT
{
    echo nodes 256
    for node in $(seq 0 49); do
        printf 'upload %d %0110d%02x 3 200 256 131072\n' "$node" 0 "$node"
    done
    echo drain
    for node in $(seq 0 49); do
        echo "download $((node + 100)) $node"
    done
    echo drain
} > "$script"
export GLIBC_TUNABLES="glibc.malloc.hugetlb=1${GLIBC_TUNABLES:+:$GLIBC_TUNABLES}"
echo "How many operations ended in each way, the events, and what the run took:"
"$timed" -f '%U s user, %S s system, %M KiB at most' "$program" world "$script" > "$told"
sed 's/^[0-9]* //' "$told" | sort | uniq -c
