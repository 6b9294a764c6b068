#!/bin/sh
# What stands on a disk right after a `put`, and at each call of a `get -o FILE`, on a real file
# system.
#
#     tests/ext4-image.sh [PROGRAM]
#
# Run by hand, as root, where loop devices can be mounted; it needs gcc. PROGRAM is a built program,
# `./grid` if there is none. A file is put into a grid on an ext4 image, and right after `put` has
# ended the image is copied while it is mounted, which leaves out all that is not on the disk. The
# copy is mounted, as after a power failure: a scrub has to find ten whole shares, a get the file,
# and a second put `happiness 10`. Ten turns, each with a new image. Then one turn with `--no-sync`,
# whose shares may be missing or damaged: it is told what it left.
#
# A `get -o FILE` is stopped after each of its calls on such an image, which is copied then: as it
# is, and once more after another file was synced, which puts the names on the disk and not FILE's
# bytes. In the copy FILE is the one that stood there, or nothing where none did, or the new one,
# whole; and the new one once the get has ended. ext4's own help for files that are renamed without
# a sync is turned off.
#
# The line before the last tells what FILE was, and the last line is `turns N faults N`; the status
# is 0 where there are no faults, 1 where there are, and 2 where nothing could be run.

here=$(cd "$(dirname "$0")/.." && pwd) || exit 2
program=${1:-$here/grid}
case $program in
    /*) ;;
    *) program=$PWD/$program ;;
esac
"$program" cap URI:LIT: > /dev/null || exit 2
room=$(cd "$(mktemp -d)" && pwd -P) || exit 2
unmount() {
    umount "$room/disk" 2> /dev/null
    umount "$room/after" 2> /dev/null
}
trap 'unmount; rm -rf "$room"' EXIT
trap 'exit 2' HUP INT TERM
mkdir "$room/disk" "$room/after" || exit 2
gcc -O1 -Wall -shared -fPIC -o "$room/record.so" "$here/tests/record.c" || exit 2
head -c 3000000 /dev/urandom > "$room/file" || exit 2

# A new image of so many MiB, mounted with further options.
mount_new() {
    unmount
    rm -f "$room/image" "$room/copy"
    truncate -s "$1M" "$room/image" && mkfs.ext4 -q "$room/image" || exit 2
    mount -o "loop$2" "$room/image" "$room/disk" || exit 2
}

# Mounts at `after` what is on the disk.
mount_copy() {
    umount "$room/after" 2> /dev/null
    cp "$room/image" "$room/copy" && mount -o loop "$room/copy" "$room/after" || exit 2
}

# Puts the file into a grid on a new image, and mounts what is on the disk then.
put_and_fail() {
    mount_new 96
    cap=$("$program" put "$room/file" --grid "$room/disk/grid" -q "$@" 2> "$room/err") || {
        cat "$room/err" >&2
        exit 2
    }
    mount_copy
}

turns=0
faults=0
fault() {
    faults=$((faults + 1))
    echo "$1"
}

while [ "$turns" -lt 10 ]; do
    turns=$((turns + 1))
    put_and_fail
    [ "$("$program" scrub --grid "$room/after/grid")" = "shares 10 damaged 0" ] ||
        fault "turn $turns: the shares are not whole"
    "$program" get "$cap" --grid "$room/after/grid" | cmp -s - "$room/file" ||
        fault "turn $turns: another file"
    "$program" put "$room/file" --grid "$room/after/grid" | grep -qx "happiness 10" ||
        fault "turn $turns: no happiness 10"
done

put_and_fail --no-sync
echo "with --no-sync: $("$program" scrub --grid "$room/after/grid" 2>&1 | tail -n 1)"

# ---- get -o

# Waits until the get is stopped or has ended.
settle() {
    while :; do
        state=$(sed 's/.*) //' "/proc/$getting/stat" 2> /dev/null)
        case ${state%% *} in T | Z | '') break ;; esac
        sleep 0.01
    done
    [ "${state%% *}" = T ]
}

# Gets the file to FILE on a new image, at which stands what $1 tells, and stops the get after $2
# calls.
get_and_stop() {
    mount_new 16 ,noauto_da_alloc
    mkdir "$room/disk/folder"
    [ "$1" = nothing ] || cp "$room/$1" "$room/disk/folder/FILE"
    sync -f "$room/disk"
    RECORD_ROOT=$room/disk RECORD_FILE=$room/record RECORD_STOP=$2 LD_PRELOAD=$room/record.so \
        "$program" get "$cap" --grid "$room/grid" -o "$room/disk/folder/FILE" &
    getting=$!
    settle
}

# What FILE is on the disk.
left_of() {
    mount_copy
    left=$room/after/folder/FILE
    if [ ! -e "$left" ]; then
        echo nothing
    elif cmp -s "$left" "$room/new"; then
        echo new
    elif cmp -s "$left" "$room/old"; then
        echo old
    else
        echo torn
    fi
}

# Looks at what FILE is, which stood there as $1 tells, at the time that $2 names.
looks() {
    turns=$((turns + 1))
    found=$(left_of)
    echo "$found" >> "$room/found"
    case $found in
        new) ;;
        "$1") [ "$ended" = no ] || fault "get -o over $1 has ended, and FILE is not the new one" ;;
        *) fault "get -o over $1, $2: $found" ;;
    esac
}

head -c 300000 /dev/urandom > "$room/new" || exit 2
head -c 200000 /dev/urandom > "$room/old" || exit 2
cap=$("$program" put "$room/new" --grid "$room/grid" -q 2> /dev/null) || exit 2
for stood in old nothing; do
    stop=0
    ended=no
    while [ "$ended" = no ]; do
        stop=$((stop + 1))
        get_and_stop "$stood" "$stop" || ended=yes
        looks "$stood" "after $stop calls"
        echo > "$room/disk/other" && sync "$room/disk/other" || exit 2
        looks "$stood" "after $stop calls and another file's sync"
        kill -KILL "$getting" 2> /dev/null
        wait "$getting" 2> /dev/null || [ "$ended" = no ] || fault "get -o over $stood: it fails"
    done
done

echo "FILE was$(sort "$room/found" | uniq -c | tr -s ' \n' ' ' | sed 's/ $//')"
echo "turns $turns faults $faults"
[ "$faults" = 0 ]
