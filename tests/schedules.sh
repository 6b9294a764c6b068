#!/bin/sh
# Runs a thousand worlds whose messages come in an order that is drawn, beside liars, and looks
# whether all bytes that were handed out agree.
#
#     tests/schedules.sh [PROGRAM [FIRST LAST]]
#
# PROGRAM is the built program; without it that which `./grid` runs. FIRST to LAST are the numbers
# of the schedules, 1 to 1000 without them. Run by hand; it takes half a minute at most.
#
# A schedule's number draws all of its script: how many nodes are honest and which liars there are,
# two or three uploads with their files and parameters (in some schedules one file by two nodes),
# which nodes download which file or a part of it, before its shares are there and after, which
# messages come, and which nodes lie, restart or have a store that fails between them. Each script
# has to end with status 0 and to tell `agree yes`. A line that begins with `differs` names the
# number of one that does not, and the copy of its script. The line before the last tells how the
# operations ended, so that it can be seen that they do end. The last line counts the schedules and
# those that differed. The status is 0 where none did, else 1; 2 where nothing could be run.

here=$(cd "$(dirname "$0")/.." && pwd) || exit 2
first=${2:-1}
last=${3:-1000}
program=${1:-$("$here/grid" --program)}
[ -x "$program" ] || { echo "$program: no program" >&2; exit 2; }
case $program in /*) ;; *) program=$PWD/$program ;; esac

room=$(mktemp -d) || exit 2
trap 'rm -rf "$room"' EXIT
trap 'exit 2' HUP INT TERM
cd "$room" || exit 2

# The scripts of all numbers, each in a file of its number.
awk -v first="$first" -v last="$last" '
    # A number below `count`: the next one of the schedule.
    function draw(count) {
        state = state * 16807 % 2147483647
        return int(state / 64) % count
    }

    # A file of 56 bytes or some more, in hex.
    function draw_file(    i) {
        size = 56 + draw(3) * draw(100)
        file = ""
        for (i = 0; i < size; i++) file = file sprintf("%02x", draw(256))
    }

    # Parameters: k, the happiness that is wanted, N and the greatest segment.
    function draw_params(    needed, happy, total) {
        total = 1 + draw(honest + 2)
        needed = 1 + draw(total < 3 ? total : 3)
        happy = 1 + draw(total < honest ? total : honest)
        params = needed " " happy " " total " " (draw(2) ? 131072 : 16 + draw(50))
    }

    # An upload. Its number is among those of all operations.
    function upload() {
        print "upload", draw(honest), file, params > name
        sizes[uploads] = size
        numbers[uploads++] = operations++
    }

    # A download of all or of a part.
    function download(    which, from, range) {
        which = draw(uploads)
        from = draw(sizes[which])
        range = draw(3) ? "" : " " from " " from + draw(sizes[which] - from + 1)
        print "download", draw(honest), numbers[which] range > name
        operations++
    }

    # Some messages come, and then each liar has its turn.
    function messages(most,    i) {
        print "random", draw(1000000), 1 + draw(most) > name
        for (i = 0; i < liars; i++) print "turn", honest + i > name
    }

    # One thing that seldom happens, or nothing.
    function mishap(    which) {
        which = draw(12)
        if (which == 0) print "restart", draw(honest) > name
        if (which == 1) print "fail", draw(honest) > name
        if (which == 2) print "pass", 1 + draw(6) > name
        if (which == 3) print "forge", honest, draw(honest), sprintf("%02x", draw(256)) > name
    }

    # All that is left comes, and what was not answered is lost.
    function settle() {
        print "drain" > name
        messages(50)
        print "drain\npass 20\ndrain" > name
    }

    function script(number,    i) {
        state = number * 7919 % 2147483646 + 1
        for (i = 0; i < 5; i++) draw(2)
        name = number
        honest = 2 + draw(4)
        liars = 2 + draw(2)
        uploads = operations = 0
        print "nodes", honest, "junk replay" (liars == 3 ? " silent" : "") > name
        draw_file()
        draw_params()
        upload()
        if (draw(2)) upload()
        messages(200)
        download()
        draw_file()
        draw_params()
        upload()
        for (i = 0; i < 3; i++) { messages(300); mishap(); download() }
        settle()
        for (i = 0; i < 5; i++) { download(); messages(200); mishap() }
        settle()
        close(name)
    }

    BEGIN { for (number = first; number <= last; number++) script(number) }' || exit 2

seen=0
differed=0
for number in $(seq "$first" "$last"); do
    "$program" world "$number" > told 2>&1
    status=$?
    seen=$((seen + 1))
    cat told >> all
    if [ $status != 0 ] || ! grep -qx 'agree yes' told; then
        differed=$((differed + 1))
        kept=${TMPDIR:-/tmp}/schedule-$number
        cp "$number" "$kept"
        echo "differs: $number, status $status, its script is $kept"
    fi
done

awk '$2 == "upload" || $2 == "download" { ended[$2 " " $3]++ }
    END { for (end in ended) line = line (line ? ", " : "") ended[end] " " end; print line }' all
echo "$seen schedules, $differed differed"
[ $differed = 0 ]
