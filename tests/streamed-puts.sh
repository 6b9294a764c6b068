#!/bin/bash
# Puts of files that are not held: sparse ones, some that change or end while they are stored, and
# what is no file.
#
#     tests/streamed-puts.sh [PROGRAM]
#
# Run by hand. PROGRAM is a built program, `./grid` if there is none. It needs a C compiler `cc`,
# `mkfifo` and `truncate`, a file system that keeps sparse files, and some 2 GB on it. Each line
# that begins with `differs` tells what was otherwise than it has to be; the last line counts them,
# and the status is 0 where there are none, 2 where nothing could be run.

here=$(cd "$(dirname "$0")/.." && pwd) || exit 2
program=${1:-$("$here/grid" --program)}
case $program in
    /*) ;;
    *) program=$PWD/$program ;;
esac
"$program" cap URI:LIT: > /dev/null || exit 2
room=$(mktemp -d) || exit 2
trap 'rm -rf "$room"' EXIT
trap 'exit 2' HUP INT TERM
cd "$room" || exit 2
cc -shared -fPIC -O1 -o fault.so "$here/tests/fault.c" || exit 2
differed=0
seen=0

# Tells what was looked at, and whether it was as it has to be.
sees() {
    seen=$((seen + 1))
    what=$1
    shift
    if ! "$@"; then
        differed=$((differed + 1))
        echo "differs: $what"
    fi
}

# Whether the words end within ten minutes with this status, and this line last on standard error,
# but for that of a grid that was made.
ends() {
    wanted=$1 told=$2
    shift 2
    timeout 600 "$@" > out 2> err
    status=$?
    [ $status = "$wanted" ] && [ "$(grep -v '^made ' err | tail -n 1)" = "$told" ]
}

# A file of so many MiB at a path: holes, and bytes without order in every eighth MiB.
make_sparse() {
    rm -f "$1"
    truncate -s "$2M" "$1" || exit 2
    for ((at = 0; at < $2; at += 8)); do
        head -c 1000000 /dev/urandom |
            dd of="$1" bs=1M seek=$at conv=notrunc status=none || exit 2
    done
}

# How many shares of the grid are closed, and how many are open.
count_closed() { find "$1" -type f ! -name '*.open' 2> /dev/null | wc -l; }
count_open() { find "$1" -type f -name '*.open' 2> /dev/null | wc -l; }

# Whether a put of the file stores what `get` gives back, and `check` finds healthy. Its other words
# follow.
is_stored() {
    file=$1
    shift
    rm -rf g
    ends 0 '' "$program" put "$file" --grid g "$@" || return 1
    cap=$(head -n 1 out)
    ends 0 '' "$program" check "$cap" --grid g --strict || return 1
    "$program" get "$cap" --grid g > got && cmp -s got "$file"
}

# ---- files that stay as they are

make_sparse file 40
sees 'a file of 40 MiB' is_stored file
sees 'no open share is left' [ "$(count_open g)" = 0 ]
rm -rf g/server-00[0-6]
"$program" get "$cap" --grid g > got
sees 'it is got from the last three servers' cmp -s got file
sees 'a second put of it' ends 0 '' "$program" put file --grid g
sees 'it has the cap of the first' [ "$(head -n 1 out)" = "$cap" ]
sees 'over sockets' ends 0 '' "$program" put file --grid sockets --net --no-sync
sees 'it has the cap of the first too' [ "$(head -n 1 out)" = "$cap" ]
sees 'the same shares over sockets' diff -r g sockets
rm -rf sockets
sees '25 of 100' is_stored file --k 25 --n 100 --no-sync
sees 'segments of a mebibyte' is_stored file --segment 1048576 --no-sync
sees 'segments of 1,000 bytes' is_stored file --segment 1000 --no-sync
reads_standard_input() { ends 0 '' "$program" put - --grid g --no-sync < file; }
sees 'standard input that is a file' reads_standard_input
puts_in_little_memory() { (ulimit -v 40000 && ends 0 '' "$program" put large --grid g --no-sync); }
make_sparse large 200
rm -rf g
sees 'a file of 200 MiB in 40 MB of memory' puts_in_little_memory
refuses_less_memory() {
    (ulimit -v 6000 && ends 7 'grid: 1 OutOfMemory' "$program" put large --grid new)
}
sees 'a file of 200 MiB in 6 MB of memory' refuses_less_memory
sees 'no grid where it is not begun' [ ! -e new ]
rm -rf g

# ---- files that change while they are stored

# Begins a put of `large` to the grid g, waits until it writes shares, and does what the words say.
# Whether it ends then with status 7 and this line.
ends_after() {
    told=$1
    shift
    rm -rf g
    "$program" put large --grid g --no-sync > out 2> err &
    putting=$!
    for ((i = 0; i < 600; i++)); do
        [ "$(count_open g)" = 10 ] && break
        kill -0 $putting 2> /dev/null || break
        sleep 0.1
    done
    opened=$(count_open g)
    "$@"
    wait $putting
    [ $? = 7 ] && [ "$(tail -n 1 err)" = "$told" ] && [ ! -s out ] && [ "$opened" = 10 ] &&
        [ "$(count_closed g)" = 0 ]
}

scrubs_open() { "$program" scrub --grid g > out; [ "$(tail -n 1 out | wc -l)" = 1 ]; }
removes_open() {
    find g -name '*.open' -exec touch -d '1 hour ago' {} + &&
        "$program" scrub --grid g --remove-open > out && [ "$(count_open g)" = 0 ]
}
overwrite() { dd if=/dev/urandom of=large bs=1M count=200 conv=notrunc status=none; }
make_sparse large 200
sees 'a file that is cut while it is stored' \
    ends_after 'grid: 74 SourceChanged' truncate -s 50M large
sees 'its open shares are left' [ "$(count_open g)" = 10 ]
sees 'a scrub looks over them' scrubs_open
sees 'a scrub removes them' removes_open
make_sparse large 200
sees 'a file that is emptied' ends_after 'grid: 74 SourceChanged' truncate -s 0 large
make_sparse large 200
sees 'a file that is overwritten' ends_after 'grid: 74 SourceChanged' overwrite
make_sparse large 200
removes_and_makes() { rm large && make_sparse large 200; }
grows_and_is_replaced() {
    rm -rf g
    "$program" put large --grid g --no-sync > out 2> err &
    putting=$!
    for ((i = 0; i < 600; i++)); do
        [ "$(count_open g)" = 10 ] && break
        kill -0 $putting 2> /dev/null || break
        sleep 0.1
    done
    ln large was
    head -c 3000000 /dev/urandom >> large
    removes_and_makes
    wait $putting || return 1
    cap=$(head -n 1 out)
    "$program" get "$cap" --grid g > got && [ "${cap##*:}" = $((200 << 20)) ] &&
        head -c $((200 << 20)) was | cmp -s - got
}
sees 'a file that grows, and is replaced by another' grows_and_is_replaced
rm -rf g was got large

# A file that is cut while it is read for the first time, or for the second.
cut_early() {
    make_sparse large 200
    "$program" put large --grid new > out 2> err &
    putting=$!
    sleep "$1"
    truncate -s 1000000 large
    wait $putting
    [ $? = 7 ] && [ "$(tail -n 1 err)" = 'grid: 74 SourceChanged' ] && [ ! -e new ]
}
sees 'a file that is cut as it is read first' cut_early 0.3
sees 'a file that is cut as it is read a little later' cut_early 1
rm -f large

# ---- reads that fail

# The first of these calls on files that is a read of the file fails: the put ends with 75, and no
# share is closed.
read_fails() {
    for at in $(seq "$1" "$2"); do
        rm -rf g mark
        FAULT_KIND=files FAULT_AT=$at FAULT_MARK=$room/mark LD_PRELOAD=$room/fault.so \
            "$program" put small --grid g --k 1 --happy 1 --n 16 --no-sync > out 2> err
        status=$?
        case $(cat mark) in
            "read $room/small")
                [ $status = 7 ] && [ "$(tail -n 1 err)" = 'grid: 75 SourceFault' ] &&
                    [ ! -s out ] && [ "$(count_closed g)" = 0 ] && return ;;
        esac
    done
    false
}
head -c 5000000 /dev/urandom > small
sees 'a read of the first pass that fails' read_fails 10 15
sees 'no grid then' [ ! -e g ]
sees 'a read that fails while shares are written' read_fails 600 760
sees 'open shares then' [ "$(count_open g)" -gt 0 ]
rm -rf g

# ---- a file that is held, and overwritten or cut meanwhile

# It is stored as it was or as it is then, or not at all.
head -c 16777216 /dev/urandom > first
head -c 16777216 /dev/urandom > second
torn=0
for turn in {1..30}; do
    cp first changing && rm -rf g
    { sleep "0.0$((turn % 10))"; dd if=second of=changing bs=64k conv=notrunc status=none; } &
    if [ $((turn % 3)) = 0 ]; then
        { sleep "0.0$((turn % 10))"; truncate -s 1000000 changing; } &
    fi
    "$program" put changing --grid g --k 1 --n 1 --happy 1 --servers 1 --no-sync -q > out 2> err
    if [ $? = 0 ]; then
        "$program" get "$(cat out)" --grid g > got
        wait
        cmp -s got first || cmp -s got second || cmp -s got changing || torn=$((torn + 1))
    fi
    wait
done
sees "a held file that changes, torn $torn of 30" [ "$torn" = 0 ]
rm -rf g

# ---- what is no file

mkfifo pipe
put_from_pipe() { head -c "$1" small > pipe & ends "$2" "$3" "$program" put pipe --grid g; }
sees 'a pipe of few bytes' put_from_pipe 3000000 0 ''
cap=$(head -n 1 out)
"$program" get "$cap" --grid g > got
head -c 3000000 small > part
sees 'what came through it' cmp -s got part
long_pipe() {
    cat file > pipe &
    ends 0 '' "$program" put pipe --grid g || return 1
    "$program" get "$(head -n 1 out)" --grid g > got && cmp -s got file
}
sees 'a pipe of 40 MiB' long_pipe
long_standard_pipe() {
    cat file | ends 0 '' "$program" put - --grid g || return 1
    "$program" get "$(head -n 1 out)" --grid g > got && cmp -s got file
}
sees 'standard input that is a pipe of 40 MiB' long_standard_pipe
standard_pipe() {
    cat part | ends 0 '' "$program" put - --grid g || return 1
    "$program" get "$(head -n 1 out)" --grid g > got && cmp -s got part
}
sees 'standard input that is a pipe of few bytes' standard_pipe
from_where_it_stands() {
    { head -c 1000 > begun; ends 0 '' "$program" put - --grid g; } < part || return 1
    "$program" get "$(head -n 1 out)" --grid g > got && cat begun got | cmp -s - part
}
sees 'standard input that stands behind its first bytes' from_where_it_stands
no_room() {
    cat file | TMPDIR=/dev/full ends 7 'grid: 90 FileFault /dev/full' "$program" put - --grid new
}
sees 'a pipe with no folder to keep it' no_room
sees 'a device without an end' ends 7 'grid: 90 FileFault /dev/zero' \
    "$program" put /dev/zero --grid new
sees 'a device without a byte' ends 0 '' "$program" put /dev/null --grid new
mkdir folder
sees 'a folder' ends 7 'grid: 90 FileFault folder' "$program" put folder --grid new
sees 'no grid for them' [ ! -e new ]

# ---- how large

truncate -s 1099511627777 huge
sees 'a file of 2^40 + 1 bytes' ends 3 'grid: 30 TooLarge' \
    "$program" put huge --grid new --segment 1048576
truncate -s 1099511627776 huge
sees 'a file of 2^40 bytes in segments of 1,000' ends 3 'grid: 31 TooManySegments' \
    "$program" put huge --grid new --segment 1000
sees 'no grid for these' [ ! -e new ]

echo "$seen seen, $differed differed"
[ $differed = 0 ]
