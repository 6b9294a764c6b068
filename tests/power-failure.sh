#!/bin/sh
# What a power failure leaves of the shares of a `put`, and of the file of a `get -o`.
#
#     tests/power-failure.sh [PROGRAM [WORD..]]
#
# Run by hand. PROGRAM is a built program, `./grid` if there is none: this one is built first where
# it is not. WORDs are given to `put` too. A preloaded library records each call that changes a file
# or a folder. Then each folder is made that a power failure can leave, after any of these calls and
# with any part left out that was not synced, and its shares are looked at
# (`tests/power-failure.py`). This is done for three puts into one grid, of two files and then of
# the first again, and for a put that is killed after each of its calls and made again. The first
# put makes the grid's folder and the one above it, in a folder that stands before, as a disk that
# is mounted does. It is also done for a `get -o FILE` where a file stands there, and where none
# does: FILE is that one or the whole new one.
#
# It needs gcc, nm and python3. Each record has a line, `calls N folders N told N faults N`, after
# lines for its first faults. The status is 0 where there are no faults, 1 where there are, 2 where
# nothing could be run or recorded.

here=$(cd "$(dirname "$0")/.." && pwd) || exit 2
program=${1:-$here/grid}
[ $# = 0 ] || shift
case $program in
    /*) ;;
    *) program=$PWD/$program ;;
esac
"$program" cap URI:LIT: > /dev/null || exit 2
room=$(cd "$(mktemp -d)" && pwd -P) || exit 2
trap 'rm -rf "$room"' EXIT
trap 'exit 2' HUP INT TERM

# Calls that change files and are not recorded.
others='pwrite|pwrite64|pwritev|writev|symlink|symlinkat|truncate|truncate64|mmap|splice'
others="$others|sendfile|sendfile64|copy_file_range|fallocate|sync_file_range|syncfs|sync|syscall"
found=$(nm -D --undefined-only "$program" 2> /dev/null | sed 's/@.*//; s/.* //' |
    grep -xE "$others" | tr '\n' ' ')
if [ -n "$found" ]; then
    echo "not recorded: $found" >&2
    exit 2
fi

gcc -O1 -Wall -shared -fPIC -o "$room/record.so" "$here/tests/record.c" || exit 2
head -c 56 /dev/urandom > "$room/small" || exit 2
head -c 200000 /dev/urandom > "$room/large" || exit 2

# A new record, and an empty disk.
begin() {
    rm -rf "$room/disk" "$room/record" || exit 2
    mkdir "$room/disk" || exit 2
}

# Puts a file, and records it. With a number it ends after so many calls. That it made a grid is not
# shown.
puts() {
    put_file=$1 put_end=$2
    shift 2
    RECORD_ROOT=$room/disk RECORD_FILE=$room/record RECORD_END=$put_end LD_PRELOAD=$room/record.so \
        "$program" put "$room/$put_file" --grid "$room/disk/above/grid" "$@" \
        > /dev/null 2> "$room/err"
    put_status=$?
    grep -v '^made ' "$room/err" >&2
    return $put_status
}

# Looks at what a power failure leaves of the record.
status=0
looks() {
    python3 "$here/tests/power-failure.py" "$room/record" "$room/disk" "$@"
    case $? in
        0) ;;
        1) status=1 ;;
        *) exit 2 ;;
    esac
}

begin
for file in large small large; do
    puts "$file" 0 "$@" || exit 2
done
looks

# Gets the large file to FILE, at which the small one stands or nothing.
gets() {
    RECORD_ROOT=$room/disk RECORD_FILE=$room/record LD_PRELOAD=$room/record.so \
        "$program" get "$cap" --grid "$room/grid" -o "$room/disk/FILE" || exit 2
}

cap=$("$program" put "$room/large" --grid "$room/grid" -q 2> /dev/null) || exit 2
begin
cp "$room/small" "$room/disk/FILE" || exit 2
gets
looks "$room/disk/FILE" "$room/large" "$room/small"
begin
gets
looks "$room/disk/FILE" "$room/large"

end=0
ended=9
while [ "$ended" = 9 ]; do
    end=$((end + 1))
    begin
    puts large "$end" "$@"
    ended=$?
    puts large 0 "$@" || exit 2
    looks
done
[ "$ended" = 0 ] || exit 2
exit $status
