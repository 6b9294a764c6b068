#!/bin/sh
# What the commands and the crates below them do where memory is refused, or a file's read or write
# fails, at each call in turn.
#
#     tests/refused-memory.sh [PROGRAM]
#
# PROGRAM is the built program; without it that which `./grid` runs. The tests of the crates are
# built first where they are missing or older than a source. Run by hand: once they are built it
# takes a few minutes, and needs a C compiler `cc` and glibc. No proof speaks of what is seen here:
# that the programs as they were built tell each such failure.
#
# A file of 56 bytes is put, got and checked at 1 of 1 and at 3 of 10, and one of 3,000 bytes in ten
# segments at 3 of 10, of which a range is got too. Once as it is; then the first call fails, then
# the second alone, and so on to a run that makes no such call any more:
#   memory  malloc, calloc, realloc, reallocarray, memalign, aligned_alloc, posix_memalign: the run
#           ends with status 7 and the line `grid: 1 OutOfMemory` on standard error, and nothing on
#           standard output but, of `get`, a beginning of the file; or exactly as without.
#   files   open, read, write, rename, mkdir, stat, sync, the reading of folders and their like,
#           which answer EIO: the run ends with status 7 and `grid: 90 FileFault PATH`, after a line
#           with the system's reason; with status 7 and `grid: 99 OutputFault` where the write to
#           standard output itself failed; or exactly as without. Where the call was on a server's
#           folder, or put the name of one on the disk, `put` may end with fewer servers, or with
#           status 4 and `grid: 70 Unhappy`, and `get` at 1 of 1 with status 5 and
#           `grid: 71 NotEnoughShares`: what a server does not give counts as not there.
# After each `put` a file under a closed name is, byte by byte, the share that stands there without
# a fault. A script of a world, an upload, a download and a check of 56 bytes at 3 of 10, is run in
# the same way where memory is refused: it ends with `grid: 1 OutOfMemory` too, or with an operation
# that failed, or exactly as without.
#
# Each test whose name begins with `refused_memory_` is run alone in the same way, with one
# allocation after another refused. Such a test passes where the calls that it makes tell that
# memory is out, or answer as they do without; a run that fails counts.
#
# The last line counts the runs and those that differed. The status is 0 where none did, else 1; 2
# where nothing could be run.

here=$(cd "$(dirname "$0")/.." && pwd) || exit 2
test_crates=$(grep -rl 'fn refused_memory_' "$here"/crates/*/src |
    sed 's|.*/crates/||; s|/.*||' | sort -u)

# Whether a crate's built tests are missing, or older than a source.
are_tests_old() {
    [ ! -x "$1" ] || [ -n "$(find "$here/crates.txt" "$here/crates" -name out -prune -o \
        \( -name '*.rt' -o -name '*.antt' -o -name crates.txt \) -newer "$1" -print | head -n 1)" ]
}

for crate in $test_crates; do
    tests=$here/crates/$crate/out/${crate}_tests
    if are_tests_old "$tests"; then
        echo "proving and building $crate" >&2
        (cd "$here/crates/$crate" && rt test) >&2 || exit 2
        touch "$tests"
    fi
done
program=${1:-$("$here/grid" --program)}
[ -x "$program" ] || { echo "$program: no program" >&2; exit 2; }
case $program in /*) ;; *) program=$PWD/$program ;; esac

room=$(cd "$(mktemp -d)" && pwd -P) || exit 2
trap 'rm -rf "$room"' EXIT
trap 'exit 2' HUP INT TERM
cd "$room" || exit 2
cc -shared -fPIC -O1 -o fault.so "$here/tests/fault.c" || exit 2

# Makes the file, of $1 bytes: numbers, one after another.
make_file() {
    awk 'BEGIN { for (i = 0; i < 1000; i++) printf "%d ", i }' | head -c "$1" > file
}

runs=0
differed=0

# Runs a program with these words; of the calls of kind $1, call $2 fails. That a put made a grid is
# not kept of what it tells. The folders that an ended test left are removed: they are named by its
# process.
run() {
    of=$1 at=$2
    shift 2
    rm -f mark
    FAULT_KIND=$of FAULT_AT=$at FAULT_MARK=$room/mark LD_PRELOAD=$room/fault.so "$@" > out 2> all &
    wait $!
    status=$?
    grep -v '^made ' all > err
    rm -rf /tmp/*-tests-$!*
}

is_as_without() {
    [ $status = 0 ] && cmp -s out plain.out && cmp -s err plain.err
}

# Whether nothing was written to standard output, or by `get` a beginning of what it writes without
# a fault.
is_beginning() {
    [ ! -s out ] || { [ "$command" = get ] && head -c "$(wc -c < out)" plain.out | cmp -s - out; }
}

# Whether the run ended with this status, this one line on standard error and no more than a
# beginning on standard output. $2 is a pattern.
is_told() {
    [ $status = "$1" ] && is_beginning && [ "$(wc -l < err)" -eq 1 ] && grep -q -x -e "$2" err
}

# Whether the run ended with a file's fault, after a line with the system's reason.
is_fault_told() {
    [ $status = 7 ] && is_beginning && [ "$(wc -l < err)" -eq 2 ] &&
        sed -n 1p err | grep -q ': ..* (os error 5)$' &&
        sed -n 2p err | grep -q -x 'grid: 90 FileFault ..*'
}

# Whether a `put` ended well with fewer servers, at least $1: one whose folder failed is silent.
is_less_happy() {
    [ $status = 0 ] && [ ! -s err ] && [ "$(head -n 1 out)" = "$(head -n 1 plain.out)" ] \
        && [ "$(sed -n '2s/^happiness \([0-9]*\)$/\1/p' out)" -ge "$1" ]
}

# Whether the run ended as it may, where a call of kind $1 failed; $2 is the number of shares
# needed, $3 that of shares in all.
is_right() {
    is_as_without && return 0
    case $1 in
        memory) is_told 7 'grid: 1 OutOfMemory' ;;
        files)
            is_fault_told && return 0
            case $(cat mark 2> /dev/null) in
                *' -1-') is_told 7 'grid: 99 OutputFault' ;;
                *'grid/server-'* | 'openat .' | 'openat grid' | "fsync $room" | "fsync $room/grid")
                    is_told 4 'grid: 70 Unhappy reached [0-9]* wanted [0-9]*' ||
                        is_less_happy "$2" ;;
                *'held/server-'*) [ "$2" = "$3" ] && is_told 5 'grid: 71 NotEnoughShares' ;;
                *) false ;;
            esac ;;
    esac
}

# Whether each file under a closed name in the grid that a `put` made is the whole share, which may
# be at another server where one is silent.
is_whole() {
    [ -d grid ] || return 0
    (cd grid && find . -type f ! -name '*.open') > names
    while read -r name; do
        cmp -s "grid/$name" held/server-*/"${name##*/}" || return 1
    done < names
}

# Counts the runs of a command or a test of which call after call failed: up to call $at, which no
# run made any more, of which $wrong runs ended otherwise than they may.
count() {
    runs=$((runs + at - 1))
    differed=$((differed + wrong))
    if [ $at = 1 ]; then
        echo "no call was seen to fail: is the program linked to its C library at run time?"
        differed=$((differed + 1))
    fi
}

# Makes each call of kind $1 of a command fail in turn; $2 is `put`, `get` or `check`, $3 shares are
# needed of $4, and further words are the command's own.
each() {
    kind=$1 command=$2 needed=$3 total=$4
    shift 4
    at=1 told=0 wrong=0
    while :; do
        if [ "$command" = put ]; then
            rm -rf grid
            run "$kind" $at "$program" put file --grid grid --k "$needed" --happy "$needed" \
                --n "$total" --servers "$total" --segment "$segment"
        else
            run "$kind" $at "$program" "$command" "$cap" --grid held "$@"
        fi
        if ! is_right "$kind" "$needed" "$total" || { [ "$command" = put ] && ! is_whole; }; then
            wrong=$((wrong + 1))
            echo "$command $needed of $total, $size bytes: $kind call $at" \
                "($(cat mark 2> /dev/null)) ended with status $status: $(head -n 1 err)"
        elif ! is_as_without; then
            told=$((told + 1))
        fi
        # The last run has no such call.
        [ -e mark ] || break
        at=$((at + 1))
    done
    echo "$command $needed of $total, $size bytes, $kind: $((at - 1)) calls failed in turn;" \
        "$told runs told it, $((at - 1 - told - wrong)) ended as without, $wrong otherwise"
    count
}

# Whether a script of a world ended as it may where memory is refused: an operation may have failed.
is_right_world() {
    is_as_without || is_told 7 'grid: 1 OutOfMemory' ||
        { [ $status = 0 ] && [ ! -s err ] && grep -q -x -e '[0-2] [a-z]* failed' out; }
}

# Makes each allocation of a script of a world fail in turn.
each_of_world() {
    at=1 told=0 wrong=0
    while :; do
        run memory $at "$program" world script
        if ! is_right_world; then
            wrong=$((wrong + 1))
            echo "world: allocation $at ended with status $status: $(head -n 1 err)"
        elif ! is_as_without; then
            told=$((told + 1))
        fi
        [ -e mark ] || break
        at=$((at + 1))
    done
    echo "world: $((at - 1)) allocations failed in turn; $told runs told it," \
        "$((at - 1 - told - wrong)) ended as without, $wrong otherwise"
    count
}

# Makes each allocation of the test $1 fail in turn.
each_of_test() {
    at=1 wrong=0
    while :; do
        run memory $at "$tests" "$1"
        if [ $status != 0 ]; then
            wrong=$((wrong + 1))
            echo "$1: allocation $at failed, and the test with status $status: $(tail -n 1 err)"
        fi
        [ -e mark ] || break
        at=$((at + 1))
    done
    echo "$1: $((at - 1)) allocations failed in turn; $wrong runs failed"
    count
}

for numbers in '1 1 56 131072' '3 10 56 131072' '3 10 3000 300'; do
    set -- $numbers
    needed=$1 total=$2 size=$3 segment=$4
    rm -rf held
    make_file "$size"
    run none 0 "$program" put file --grid held --k "$needed" --happy "$needed" --n "$total" \
        --servers "$total" --segment "$segment"
    cap=$(head -n 1 out)
    if [ $status != 0 ] || [ -s err ]; then
        echo "put $needed of $total ends with status $status without a fault: $(head -n 1 err)"
        differed=$((differed + 1))
        continue
    fi
    mv out plain.out
    mv err plain.err
    each memory put "$needed" "$total"
    each files put "$needed" "$total"
    run none 0 "$program" get "$cap" --grid held
    if [ $status != 0 ] || ! cmp -s out file; then
        echo "get $needed of $total does not give the file without a fault: status $status"
        differed=$((differed + 1))
        continue
    fi
    mv out plain.out
    mv err plain.err
    each memory get "$needed" "$total"
    each files get "$needed" "$total"
    from=$((size / 3)) to=$((size / 2))
    run none 0 "$program" get "$cap" --grid held --from $from --to $to
    if [ $status != 0 ] || [ "$(cat out)" != "$(head -c $to file | tail -c $((to - from)))" ]; then
        echo "get $needed of $total does not give a range without a fault: status $status"
        differed=$((differed + 1))
        continue
    fi
    mv out plain.out
    mv err plain.err
    each memory get "$needed" "$total" --from $from --to $to
    run none 0 "$program" check "$cap" --grid held
    wanted="healthy yes recoverable yes happiness $total"
    if [ $status != 0 ] || [ "$(tail -n 1 out)" != "$wanted" ]; then
        echo "check $needed of $total does not end well without a fault: status $status"
        differed=$((differed + 1))
        continue
    fi
    mv out plain.out
    mv err plain.err
    each memory check "$needed" "$total"
done

zeros=$(printf %0112d 0)
printf '%s\n' 'nodes 10' "upload 0 $zeros 3 7 10 131072" drain 'download 1 0' drain 'check 2 0' \
    drain > script
run none 0 "$program" world script
printf '%s\n' '0 upload happy 10' '1 download done 56' > wanted
if [ $status = 0 ] && head -n 2 out | cmp -s - wanted && grep -q -x 'agree yes' out; then
    mv out plain.out
    mv err plain.err
    each_of_world
else
    echo "the script does not end well without a fault: status $status"
    differed=$((differed + 1))
fi

for crate in $test_crates; do
    tests=$here/crates/$crate/out/${crate}_tests
    "$tests" --list | sed -n 's/^\(.*::refused_memory_[^:]*\): test$/\1/p' > chosen
    while read -r name; do
        each_of_test "$name" < /dev/null
    done < chosen
done
echo "$runs runs, $differed differed"
[ $differed = 0 ]
