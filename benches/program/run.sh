#!/bin/bash
# Times the built program by processor time (user and system of its process), in turn with two
# bases: SHA-256 of the kit over as many bytes as have to be hashed, built as the program is, and
# `sha256sum` of the file. The best of six runs of each counts. After the file come files of 1 MiB
# in 256 shares at 256 servers, of which one and 256 are needed. A repair makes seven of ten shares
# again, and is compared with a put. Its words: the file's size in MiB
# (16 if none), the program (that of this repository if none, which is built first), and the
# processor that the program was built for (this machine's if none).
set -e
here=$(cd "$(dirname "$0")" && pwd)
. "$here/../prepare.sh"
mib=${1:-16}
program=${2:-}
prepare "sha2"
processor=${3:-$("$root/tools/processor")}
if [ -z "$program" ]; then
    program=$("$root/grid" --program)
fi
export GLIBC_TUNABLES="glibc.malloc.hugetlb=1${GLIBC_TUNABLES:+:$GLIBC_TUNABLES}"
rt run --cpu "$processor" -- 1 > /dev/null
base=$PWD/out/bench
cd "$work"
head -c $((mib << 20)) /dev/urandom > file
size=$((mib << 20))
TIMEFORMAT='%3U %3S'

# The processor time of a command, in milliseconds.
spent() {
    { time "$@" > out; } 2>&1 | awk '{ printf "%d\n", ($1 + $2) * 1000 + 0.5 }'
}

least() { [ -n "$1" ] && [ "$1" -le "$2" ] && echo "$1" || echo "$2"; }

same() { cmp -s out "$1" || { echo "the file that came back is another"; exit 1; }; }

# The shares of the lowest numbers go, so that each block is decoded.
without_lowest() {
    for number in $(seq 0 $(($1 - 1))); do
        rm -f grid/server-*/*."$number".*
    done
}

for _ in 1 2 3 4 5 6; do
    sum=$(least "$sum" "$(spent sha256sum file)")
    base_put=$(least "$base_put" "$(spent "$base" $((size * 1305 / 100)))")
    rm -rf grid
    puts=$(least "$puts" "$(spent "$program" put file --grid grid)")
    cap=$(head -n 1 out)
    base_get=$(least "$base_get" "$(spent "$base" $((size * 201 / 100)))")
    gets=$(least "$gets" "$(spent "$program" get "$cap" --grid grid)")
    same file
    base_check=$(least "$base_check" "$(spent "$base" $((size * 334 / 100)))")
    checks=$(least "$checks" "$(spent "$program" check "$cap" --grid grid)")
    without_lowest 3
    decodes=$(least "$decodes" "$(spent "$program" get "$cap" --grid grid)")
    same file
    without_lowest 7
    repairs=$(least "$repairs" "$(spent "$program" repair "$cap" --grid grid)")
    "$program" check "$cap" --grid grid --strict > out
done

head -c 1048576 /dev/urandom > small
for needed in 1 256; do
    rm -rf grid
    "$program" put small --grid grid --k $needed --n 256 --happy 1 --servers 256 > out
    cap=$(head -n 1 out)
    small_get= base_small= sum_small=
    for _ in 1 2 3 4 5 6 7 8 9 10; do
        base_small=$(least "$base_small" "$(spent "$base" $((1048576 * 201 / 100)))")
        sum_small=$(least "$sum_small" "$(spent sha256sum small)")
        small_get=$(least "$small_get" "$(spent "$program" get "$cap" --grid grid)")
        same small
    done
    smalls="$smalls$needed $small_get $base_small $sum_small
"
done

ratio() { awk -v a="$2" -v b="$3" -v c="$4" -v name="$1" 'BEGIN {
    printf "%-22s %6d ms, %5.2f of its hashing, %5.2f of sha256sum\n", name, a, a / b, a / c }'; }
echo "The processor time of a command, its ratio to hashing as many bytes as it has to by the kit's"
echo "sha2, and to sha256sum of the file; the best of several runs in turn."
echo "a file of $mib MiB at 3 of 10, $processor; sha256sum $sum ms"
ratio put "$puts" "$base_put" "$sum"
ratio get "$gets" "$base_get" "$sum"
ratio "get of other shares" "$decodes" "$base_get" "$sum"
ratio "check of ten shares" "$checks" "$base_check" "$sum"
awk -v a="$repairs" -v b="$puts" \
    'BEGIN { printf "%-22s %6d ms, %5.2f of a put\n", "repair of seven shares", a, a / b }'
echo "$smalls" | while read -r needed small_get base_small sum_small; do
    [ -z "$needed" ] || ratio "get of 1 MiB, $needed of 256" "$small_get" "$base_small" "$sum_small"
done
