# What the scripts have in common that look at commands over many files, `tests/many-*.sh`. They are
# run by hand, with the path of a built program, `./grid` if there is none, and read this first,
# where `$here` is the root of the project. They need python3. Each line that begins with `differs`
# tells what was otherwise than it has to be; the last line counts them, and the status is 0 where
# there are none, 1 where there are, 2 where nothing could be run.

program=${1:-$("$here/grid" --program)}
case $program in
    /*) ;;
    *) program=$PWD/$program ;;
esac
unset GRID GRID_KNOWN GRID_SECRET_FILE
"$program" cap URI:LIT: > /dev/null || exit 2
room=$(cd "$(mktemp -d)" && pwd -P) || exit 2
trap 'rm -rf "$room"' EXIT
trap 'exit 2' HUP INT TERM
cd "$room" || exit 2
# `sees` and `counts` are for all; `ends` and `tells` of it are for `$grid`.
. "$here/tests/looks.sh"
before=

# Whether the program ends within five minutes with this status, and this line last on standard
# error, but for that of a grid that was made. What `$before` has stands before it.
exits() {
    wanted=$1 told=$2
    shift 2
    timeout 300 $before "$program" "$@" > "$room/out" 2> "$room/err"
    status=$?
    [ $status = "$wanted" ] && [ "$(grep -v '^made ' "$room/err" | tail -n 1)" = "$told" ]
}

# The same, and it has this last on standard output.
exits_with() {
    last=$1
    shift
    exits "$@" && [ "$(tail -n 1 "$room/out")" = "$last" ]
}

# The words of a command over a catalogue, and what it has last on standard output where so many
# files have a line there and so many of them are as they have to be.
over() {
    case $1 in
        get) echo "get --caps $2 --into into --grid g" ;;
        check) echo "check --caps $2 --grid g" ;;
        repair) echo "repair --caps $2 --grid g --happy 5" ;;
        verify) echo "verify --caps $2 --into into" ;;
    esac
}
last_of() {
    case $1 in
        get) ;;
        check) echo "files $2 healthy $3 recoverable 0 lost $(($2 - $3))" ;;
        repair) echo "files $2 repaired $3 lost $(($2 - $3))" ;;
        verify) echo "files $2 same $3 differ 0 refused $(($2 - $3))" ;;
    esac
}

makes_grid() { "$program" init "$1" --servers 6 --k 3 --n 6 --happy 5 > init.out || exit 2; }

# The files of closed shares of a grid, and how many they are.
find_shares() { find "$1" -type f -name '*.*.*' ! -name '*.open'; }
count_shares() { find_shares "$1" | wc -l; }

# Of a catalogue: its first line, how many others it has, and their names, each with a blank behind.
head_of() { head -n 1 "$1"; }
count_of() { tail -n +2 "$1" | wc -l; }
names_of() { tail -n +2 "$1" | sed 's/.*  //' | tr '\n' ' '; }

# The regular files below a folder, in an order, each with a blank behind.
files_in() { (cd "$1" && find . -type f | sed 's|^\./||' | LC_ALL=C sort | tr '\n' ' '); }

# What is in Python: `-B` since no compiled modules are to be left beside the scripts.
many() { python3 -B "$here/tests/many_files.py" "$@"; }

# Runs a part that is in Python, beside a library that is to be preloaded, and counts what it saw.
runs_part() {
    cc -shared -fPIC -O1 -o "$2.so" "$here/tests/$2.c" || exit 2
    mkdir part && (cd part && python3 -B "$here/tests/$1" "$program" "$room/$2.so") > part.out
    cat part.out
    set -- $(tail -n 1 part.out)
    seen=$((seen + ${2:-0}))
    differed=$((differed + ${4:-1}))
}
