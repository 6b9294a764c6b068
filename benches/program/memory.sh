#!/bin/bash
# Measures what the built program holds and reads: the peak memory of put, get, check and repair by
# the file's size, that of puts and checks of large files at some numbers of shares, with their
# processor time, that of a get of a large file, and the time and the bytes read of a get of one
# byte. Its words: the program (that of this repository if none, which is built first), the MiB of
# the file of which one byte is got (1,024 if none), and the MiB of the greatest file that is put
# (2,048 if none). It takes some 25 GB of the disk.
set -e
here=$(cd "$(dirname "$0")" && pwd)
root=$(cd "$here/../.." && pwd)
program=${1:-}
large=${2:-1024}
greatest=${3:-2048}
if [ -z "$program" ]; then
    program=$("$root/grid" --program)
fi
export GLIBC_TUNABLES="glibc.malloc.hugetlb=1${GLIBC_TUNABLES:+:$GLIBC_TUNABLES}"
work=$(mktemp -d)
trap 'rm -rf "$work"' EXIT
cd "$work"

# The peak memory of a command in bytes. Its output goes to the file `out`.
peak() {
    python3 -c '
import resource, subprocess, sys
subprocess.run(sys.argv[1:], stdout=open("out", "wb"), check=True)
print(resource.getrusage(resource.RUSAGE_CHILDREN).ru_maxrss * 1024)' "$@"
}

# The peak memory of a command in bytes, and its processor time in seconds.
peak_and_time() {
    python3 -c '
import resource, subprocess, sys
subprocess.run(sys.argv[1:], stdout=open("out", "wb"), check=True)
used = resource.getrusage(resource.RUSAGE_CHILDREN)
print(used.ru_maxrss * 1024, used.ru_utime + used.ru_stime)' "$@"
}

# Prints a put's peak beside 100 MiB and a fiftieth of the size in bytes, and its time a byte.
told_put() { awk -v name="$1" -v peak="$2" -v time="$3" -v size="$4" 'BEGIN {
    most = 100 * 1048576 + size / 50
    printf "%-28s %7.1f MiB, %5.2f of what is wanted, %6.2f s, %5.1f ns a byte\n",
        name, peak / 1048576, peak / most, time, time / size * 1e9 }'; }

# Prints a check's peak beside 150 MiB, and its time.
told_check() { awk -v name="$1" -v peak="$2" -v time="$3" 'BEGIN {
    printf "%-28s %7.1f MiB, %5.2f of what is wanted, %6.2f s\n",
        name, peak / 1048576, peak / (150 * 1048576), time }'; }

# Prints a peak beside the size in bytes.
told() { awk -v name="$1" -v peak="$2" -v size="$3" 'BEGIN {
    printf "%-28s %7.1f MiB, %5.2f of its bytes\n", name, peak / 1048576, peak / size }'; }

echo "The peak memory of a command, beside the file's bytes, or of a put of a large file beside"
echo "what is wanted (100 MiB and 2 % of the file; 150 MiB for a check), with its processor time."
for mib in 16 64; do
    size=$((mib << 20))
    head -c $size /dev/urandom > file
    rm -rf grid
    told "put of $mib MiB" "$(peak "$program" put file --grid grid)" $size
    cap=$(head -n 1 out)
    told "get of $mib MiB" "$(peak "$program" get "$cap" --grid grid)" $size
    cmp -s out file || { echo "the file that came back is another"; exit 1; }
    told "check of $mib MiB" "$(peak "$program" check "$cap" --grid grid)" $size
    rm grid/server-00[0-6]/*
    told "repair of $mib MiB" "$(peak "$program" repair "$cap" --grid grid)" $size
done

# Sparse files, which take no room on the disk: the shares of a file of zeros are no zeros.
for shape in '3 10' '1 3' '25 100'; do
    needed=${shape% *} total=${shape#* }
    for mib in 16 256 $greatest; do
        rm -rf grid sparse
        truncate -s ${mib}M sparse
        told_put "put of $mib MiB, $needed of $total" $(peak_and_time "$program" put sparse \
            --grid grid --k "$needed" --n "$total" --happy 1 --no-sync) $((mib << 20))
        told_check "check of it" $(peak_and_time "$program" check "$(head -n 1 out)" --grid grid)
    done
done
rm -rf grid sparse

head -c $((large << 20)) /dev/urandom > file
rm -rf grid
"$program" put file --grid grid > cap
cap=$(head -n 1 cap)
offset=$((large << 19))
TIMEFORMAT='%3U %3S'
for _ in 1 2 3 4 5 6; do
    { time "$program" get "$cap" --grid grid --from $offset --to $((offset + 1)) > out; } 2>> times
done
cmp -s out <(tail -c +$((offset + 1)) file | head -c 1) ||
    { echo "another byte came back"; exit 1; }
told "get of $large MiB" "$(peak "$program" get "$cap" --grid grid)" $((large << 20))
cmp -s out file || { echo "the file that came back is another"; exit 1; }
# The kernel counts what a shell and the commands that it waited for read.
read_by() { bash -c '"$@" > out; awk "/rchar/ { print \$2 }" /proc/$$/io' read "$@"; }
with=$(read_by "$program" get "$cap" --grid grid --from $offset --to $((offset + 1)))
without=$(read_by "$program" cap "$cap")
awk 'NR == 1 || $1 + $2 < least { least = $1 + $2 } END {
    printf "get of one byte: %.0f ms\n", least * 1000 }' times
echo "get of one byte: $((with - without)) bytes read, beside those of a start of the program"
