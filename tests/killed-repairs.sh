#!/bin/sh
# Repairs and puts that are killed, repairs at once, and repairs that cannot be made.
#
#     tests/killed-repairs.sh [PROGRAM]
#
# Run by hand. PROGRAM is a built program, `./grid` if there is none. A file is put, and seven of
# its ten shares are removed; or four are, and of the others two are damaged and one has no byte. A
# `repair`, in the second grid a `repair --mend` and a `put --mend`, is killed after each of the
# calls that it makes on files, in a copy of that grid: the shares that were good stay as they are,
# and a get gives the file. Made again it has to say `happiness 10`, the check that the file is
# healthy, and all folders have to be as they were before the loss, but for what was set aside. Two
# repairs at once leave a healthy file for a third, and no damaged share; one of them may end with
# `70 Unhappy`, and a share may stand at two servers.
#
# Where too few shares are good, `repair --mend` ends with `71 NotEnoughShares` and status 5, and
# each folder is as it was, byte by byte. A put over ten shares without a byte stores the file.
#
# It needs gcc. The last line is `ends N faults N`; the status is 0 where there are no faults, 1
# where there are, and 2 where nothing could be run.

here=$(cd "$(dirname "$0")/.." && pwd) || exit 2
program=${1:-$here/grid}
case $program in
    /*) ;;
    *) program=$PWD/$program ;;
esac
"$program" cap URI:LIT: > /dev/null || exit 2
room=$(cd "$(mktemp -d)" && pwd -P) || exit 2
trap 'rm -rf "$room"' EXIT
trap 'exit 2' HUP INT TERM

gcc -O1 -Wall -shared -fPIC -o "$room/record.so" "$here/tests/record.c" || exit 2
head -c 200000 /dev/urandom > "$room/file" || exit 2
cap=$("$program" put "$room/file" --grid "$room/whole" -q 2> /dev/null) || exit 2

# Writes another byte at so many bytes before the end of the only file in a folder.
damage() {
    for share in "$1"/*; do
        size=$(wc -c < "$share")
        printf '\377' > "$room/byte"
        tail -c "$2" "$share" | head -c 1 | cmp -s - "$room/byte" && printf '\376' > "$room/byte"
        dd if="$room/byte" of="$share" bs=1 seek=$((size - $2)) conv=notrunc status=none || exit 2
    done
}

# Leaves the only file in a folder without a byte.
empty() {
    for share in "$1"/*; do
        : > "$share"
    done
}

cp -r "$room/whole" "$room/lost" && rm "$room"/lost/server-00[0-6]/* || exit 2
cp -r "$room/whole" "$room/ruined" && rm "$room"/ruined/server-00[3-6]/* || exit 2
damage "$room/ruined/server-000" 1
damage "$room/ruined/server-001" 40000
empty "$room/ruined/server-002"

faults=0
ends=0
fault() {
    faults=$((faults + 1))
    echo "$1"
}

# A copy of a grid.
take() {
    rm -rf "$room/grid" || exit 2
    cp -r "$room/$1" "$room/grid" || exit 2
}

repairs() {
    "$program" repair "$cap" --grid "$room/grid"
}

gets() {
    "$program" get "$cap" --grid "$room/grid" 2> /dev/null | cmp -s - "$room/file"
}

# Whether the good shares are there as they were, and give the file.
keeps() {
    for server in server-007 server-008 server-009; do
        for share in "$room/whole/$server"/*; do
            cmp -s "$share" "$room/grid/$server/${share##*/}" || fault "$1: $server lost its share"
        done
    done
    gets || fault "$1: a get does not give the file"
}

# Whether a command makes all of it whole.
mends() {
    what=$1
    shift
    [ "$("$program" "$@" | tail -n 1)" = "happiness 10" ] || fault "$what: no happiness 10"
    "$program" check "$cap" --grid "$room/grid" --strict > /dev/null || fault "$what: not healthy"
    find "$room/grid" \( -name '*.open' -o -name '*.damaged*' \) -exec rm {} +
    diff -r "$room/whole" "$room/grid" > /dev/null || fault "$what: other files"
}

# Kills a command after each of its calls, in a copy of a grid, and makes it again.
kills() {
    before=$1
    shift
    end=0
    ended=9
    while [ "$ended" = 9 ]; do
        end=$((end + 1))
        take "$before"
        rm -f "$room/record"
        RECORD_ROOT=$room/grid RECORD_FILE=$room/record RECORD_END=$end \
            LD_PRELOAD=$room/record.so "$program" "$@" > /dev/null
        ended=$?
        keeps "$1 in the $before grid, killed after $end calls"
        mends "$1 in the $before grid, killed after $end calls" "$@"
    done
    [ "$ended" = 0 ] || fault "$1 in the $before grid ended with $ended"
    ends=$((ends + end))
}

kills lost repair "$cap" --grid "$room/grid"
kills ruined repair "$cap" --grid "$room/grid" --mend
kills ruined put "$room/file" --grid "$room/grid" --mend

for turn in 1 2 3 4 5 6 7 8 9 10; do
    take lost
    repairs > /dev/null 2>&1 &
    repairs > /dev/null 2>&1
    wait
    [ "$(repairs)" = "happiness 10" ] || fault "two at once, $turn: no happiness 10"
    "$program" check "$cap" --grid "$room/grid" --strict > /dev/null || fault "$turn: not healthy"
    "$program" scrub --grid "$room/grid" > /dev/null || fault "two at once, $turn: a damaged share"
done

# Three shares are left, of which one is damaged or has no byte.
for how in 'damage 1' 'damage 40000' empty; do
    take lost
    "${how% *}" "$room/grid/server-008" "${how#* }"
    cp -r "$room/grid" "$room/few" || exit 2
    "$program" repair "$cap" --grid "$room/grid" --mend > "$room/out" 2> "$room/err"
    [ $? = 5 ] && grep -qx 'grid: 71 NotEnoughShares' "$room/err" && [ ! -s "$room/out" ] ||
        fault "$how, two good shares: no 71 NotEnoughShares"
    diff -r "$room/few" "$room/grid" > /dev/null || fault "$how, two good shares: other files"
    rm -rf "$room/few"
done

take whole
for server in "$room"/grid/server-*; do
    empty "$server"
done
"$program" put "$room/file" --grid "$room/grid" > "$room/out" ||
    fault "a put over shares without a byte fails"
gets || fault "a put over shares without a byte: a get does not give the file"

echo "ends $ends faults $faults"
[ "$faults" = 0 ]
