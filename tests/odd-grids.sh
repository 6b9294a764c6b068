#!/bin/sh
# What `./grid` does with grids that hold what they should not, with files that are too large, and
# however it is called.
#
#     tests/odd-grids.sh
#
# Run by hand: the program is built first where it is not. It needs `mkfifo` and `truncate`, and a
# file system that keeps sparse files of a tebibyte. Each line that begins with `differs` tells what
# was otherwise than it has to be; the last line counts them, and the status is 0 where there are
# none.

here=$(cd "$(dirname "$0")/.." && pwd) || exit 2
grid=$here/grid
"$grid" cap URI:LIT: > /dev/null || exit 2
room=$(mktemp -d) || exit 2
trap 'rm -rf "$room"' EXIT
cd "$room" || exit 2
differed=0
seen=0

# Tells what was looked at, and whether it was as it has to be.
sees() {
    seen=$((seen + 1))
    what=$1
    shift
    if ! "$@"; then
        differed=$((differed + 1))
        echo "differs: $what"
    fi
}

# What was told last on standard error, but for the line of a grid that was made.
told_last() { grep -v '^made ' "$1" | tail -n 1; }

# Whether the words end within 20 seconds with this status, and this line last on standard error.
ends() {
    wanted=$1 told=$2
    shift 2
    timeout 20 "$@" > "$room/out" 2> "$room/err"
    status=$?
    [ $status = "$wanted" ] && [ "$(told_last "$room/err")" = "$told" ]
}

# Whether `get` of the cap gives the file.
gives_file() { timeout 20 "$grid" get "$cap" --grid g > got 2> err && cmp -s got file; }

head -c 100000 /dev/urandom > file
"$grid" put file --grid g > put.out || exit 2
cap=$(head -n 1 put.out)
sees 'a grid as it is' gives_file

# ---- what servers hold

share=$(ls g/server-000)
rm "g/server-000/$share" && mkfifo "g/server-000/$share"
sees 'a pipe under the name of a share' gives_file
rm "g/server-000/$share" && truncate -s 3G "g/server-000/$share"
gives_in_little_memory() { (ulimit -v 1000000 && gives_file); }
sees 'a sparse file of 3 GiB under the name of a share' gives_in_little_memory
rm "g/server-000/$share" && mkdir "g/server-000/$share"
sees 'a folder under the name of a share' gives_file
rmdir "g/server-000/$share" && ln -s /dev/zero "g/server-000/$share"
sees 'a link to a device under the name of a share' gives_file
rm -rf g/server-001 && mkfifo g/server-001
sees 'a pipe under the name of a folder' gives_file
for server in g/server-00[2-8]; do rm -rf "$server"; done
sees 'two shares of three' ends 5 'grid: 71 NotEnoughShares' "$grid" get "$cap" --grid g

open=$(echo "$share" | sed 's/\.[^.]*$/.open/')
rm -rf g && mkdir -p g/server-000 && mkfifo "g/server-000/$open"
sees 'a pipe under the earlier name of an open share' ends 0 '' "$grid" put file --grid g
sees 'the shares put beside it' gives_file

rm -rf g && "$grid" init g > init.out || exit 2
rm g/server-000/grid-mark && mkfifo g/server-000/grid-mark
sees 'a pipe under the name of a mark' ends 0 '' "$grid" put file --grid g
sees 'a grid beside it' gives_file
rm g/grid-mark && mkfifo g/grid-mark
sees "a pipe under the name of the grid's mark" ends 7 'grid: 98 BadMark g/grid-mark' \
    "$grid" put file --grid g
rm -rf g

# ---- files and folders of `put`

truncate -s 1099511627777 large
sees 'a file of 2^40 + 1 bytes' ends 3 'grid: 30 TooLarge' \
    "$grid" put large --grid new --segment 1048576
sees 'a file in the place of the folder' ends 7 'grid: 90 FileFault file' \
    "$grid" put large --grid file
truncate -s 1099511627776 large
sees 'a file of 2^40 bytes in too small segments' ends 3 'grid: 31 TooManySegments' \
    "$grid" put large --grid new --segment 1000
sees 'no folder for what was not stored' [ ! -e new ]
sees 'an empty name' ends 7 'grid: 90 FileFault ' "$grid" put file --grid ''
head -c 70000 file > part && mkfifo pipe
put_from_pipe() { cat part > pipe & ends 0 '' "$grid" put pipe --grid g; }
sees 'a file that comes through a pipe' put_from_pipe

# ---- files of very many segments

# Levels of its trees need more than one read of the level above, and the reader begins in the midst
# of one.
rm -rf g && head -c 4356000 /dev/urandom > many
"$grid" put many --grid g --k 1 --happy 1 --n 1 --servers 1 --segment 33 --no-sync > put.out
cap=$(head -n 1 put.out)
sees 'a get from the 129th of 132,000 segments on' ends 0 '' \
    "$grid" get "$cap" --grid g --from 4224 -o rest
gives_the_rest() { tail -c +4225 many | cmp -s - rest; }
sees 'the bytes that it gives' gives_the_rest

# ---- how it is called

sees 'a word that is not UTF-8' ends 2 "For more information, try '--help'." \
    "$grid" cap "$(printf 'URI:\377')"
ln -s "$grid" link
sees 'a link to the script' ends 0 '' ./link cap URI:LIT:
calls_with_cdpath() { (CDPATH=/ && export CDPATH && cd "$here" && ends 0 '' ./grid cap URI:LIT:); }
sees 'CDPATH set' calls_with_cdpath
for words in '--version version' '--help grid' 'put --help put' 'get --help get' \
    'check --help check' 'world --help world' 'cap --help cap' 'init --help init'; do
    "$grid" ${words% *} > out 2> err
    sees "the stored text of ${words% *}" cmp -s out "$here/crates/grid_rows/data/help/${words##* }"
done

echo "$seen seen, $differed differed"
[ $differed = 0 ]
