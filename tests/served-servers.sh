#!/bin/sh
# What `./grid` does with servers that other processes serve: of the ten servers of a grid four are
# folders, and six are folders that `grid serve` serves at Unix sockets and ports of this machine.
#
#     tests/served-servers.sh
#
# Run by hand: the program is built first where it is not. It needs three free ports above 20000,
# and leaves nothing. Each line that begins with `differs` tells what was otherwise than it has to
# be; the last line counts them, and the status is 0 where there are none.

here=$(cd "$(dirname "$0")/.." && pwd) || exit 2
grid=${GRID:-$here/grid}
"$grid" cap URI:LIT: > /dev/null || exit 2
room=$(mktemp -d) || exit 2
cd "$room" || exit 2
. "$here/tests/looks.sh"
port=$((20000 + $$ % 20000))

ends_all() {
    for server in 4 5 6 7 8 9 h0 h1; do stops $server; done
    cd / && rm -rf "$room"
}
trap ends_all EXIT

# Serves the folder of a server at an address.
serves() {
    "$grid" serve "disk/$1" --listen "$2" > "said.$1" 2>&1 &
    echo $! > "pid.$1"
}

stops() {
    [ ! -e "pid.$1" ] || kill "$(cat "pid.$1")" 2> /dev/null
    rm -f "pid.$1"
}

# Whether the command ends so, and standard error has so many lines that begin with this text.
notes() {
    count=$1 text=$2
    shift 2
    ends "$@" && [ "$(grep -c "^$text" err)" = "$count" ]
}

not() { ! "$@"; }

gives_file() { ends "$1" 0 get "$cap" --grid g -o got && cmp -s got "$2"; }

# Puts what leads to a server in place of its folder, and serves that.
leads_to() {
    mkdir -p disk && mv "g/server-00$1" "disk/$1"
    case $2 in
        link) serves "$1" "unix:$room/$1.sock" && ln -s "$room/$1.sock" "g/server-00$1" ;;
        *) serves "$1" "$2" && echo "$2" > "g/server-00$1" ;;
    esac
}

head -c 100000 /dev/urandom > small
head -c 30000000 /dev/urandom > large
sees 'a grid of folders' tells 'servers 10' 20 0 init g
sees 'a put into folders' tells 'happiness 10' 20 0 put small --grid g
cap=$(head -n 1 out)

leads_to 4 link
leads_to 5 "unix:$room/5.sock"
leads_to 6 "127.0.0.1:$port"
leads_to 7 "127.0.0.1:$((port + 1))"
leads_to 8 link
leads_to 9 "unix:$room/9.sock"
sleep 1

# ---- all are there

sees 'a get' gives_file 20 small
sees 'a check' ends 20 0 check "$cap" --grid g --strict
sees 'a repair' tells 'happiness 10' 20 0 repair "$cap" --grid g
sees 'a scrub of the folders here' tells 'shares 4 damaged 0' 20 0 scrub --grid g
sees 'a put' tells 'happiness 10' 60 0 put large --grid g
cap=$(head -n 1 out)
sees 'a get of it' gives_file 60 large
for server in 0 1 2; do mv g/server-00$server disk/$server; done
sees 'a get of what servers elsewhere hold' gives_file 60 large
sees 'its check' tells 'healthy no recoverable yes happiness 7' 60 0 check "$cap" --grid g
for server in 0 1 2; do mv disk/$server g/server-00$server; done

# ---- some are away

stops 4 && stops 6
sees 'a get without two' gives_file 60 large
sees 'those that are silent' notes 2 'server-00[46] silent: ' 60 0 put small --grid g -v
sees 'a put without two' tells 'happiness 8' 60 0 put small --grid g
cap=$(head -n 1 out)
rm "$room/4.sock"
serves 4 "unix:$room/4.sock" && serves 6 "127.0.0.1:$port"
sleep 1
sees 'a repair when they are back' tells 'happiness 10' 60 0 repair "$cap" --grid g

# ---- one stands still

kill -STOP "$(cat pid.7)"
sees 'a get beside one that does not answer' gives_file 40 small
sees 'that it is silent' notes 1 'server-007 silent: ' 60 0 check "$cap" --grid g -v
kill -CONT "$(cat pid.7)"
sees 'a check when it goes on' ends 60 0 check "$cap" --grid g --strict

# ---- others than they should be

echo "unix:$room/9.sock" > g/server-005
sees 'another server' notes 1 'server-005 silent: it greets as another server' 60 0 \
    put small --grid g -v
printf '127.0.0.1:%s\nmore\n' "$port" > g/server-006
sees 'more lines than one' notes 1 'server-006 silent: its file tells no address' 60 0 \
    put small --grid g -v
printf 'localhost:%s' "$port" > g/server-006
sees 'the name of a machine' tells 'happiness 8' 60 0 put small --grid g
printf '127.0.0.1:%s' "$port" > g/server-006
echo "unix:$room/5.sock" > g/server-005
sees 'an address without a line feed' tells 'happiness 10' 60 0 put small --grid g

# ---- a folder that is served is closed to a command of this machine that writes there

rm g/server-008 && ln -s ../disk/8 g/server-008
sees 'a put into a served folder' notes 1 'grid: 105 InUse g/server-008' 20 7 put small --grid g
cap=$(head -c 100000 large | "$grid" put - --grid g --servers 8 -q)
sees 'a put beside it' [ -n "$cap" ]
sees 'a repair of it' notes 1 'grid: 105 InUse g/server-008' 20 7 repair "$cap" --grid g
sees 'a get beside it' ends 20 0 get "$cap" --grid g -o got
sees 'a check beside it' ends 20 0 check "$cap" --grid g
sees 'the lock of that folder' not flock -n -s disk/8 true
rm g/server-008 && ln -s "$room/8.sock" g/server-008
flock -s g/server-000 sleep 5 &
sees 'a put beside another command' tells 'happiness 10' 20 0 put small --grid g
sees 'serving a folder beside a command' notes 1 'grid: 105 InUse g/server-000' 20 7 \
    serve g/server-000 --listen "unix:$room/0.sock"
wait $!

# ---- a grid of servers elsewhere, made by one command

sees 'an address that is none' notes 1 'grid: 2 BadParameters' 20 3 init h --server 0=here
sees 'that nothing was made' [ ! -e h ]
sees 'a grid of servers elsewhere' tells 'servers 3' 20 0 init h --servers 3 \
    --server "0=unix:$room/h0.sock" --server "1=127.0.0.1:$((port + 2))"
letters=$(cut -d ' ' -f 2 h/grid-mark)
mkdir disk/h0 disk/h1
"$grid" serve disk/h0 --listen "unix:$room/h0.sock" --mark "grid $letters server 0" 2> said.h0 &
echo $! > pid.h0
"$grid" serve disk/h1 --listen "127.0.0.1:$((port + 2))" --mark "grid $letters server 1" \
    2> said.h1 &
echo $! > pid.h1
sleep 1
sees 'a put there' tells 'happiness 3' 20 0 put small --grid h --k 2 --n 3 --happy 3
sees 'one more' tells 'servers 4' 20 0 init h --add 1 --server "3=unix:$room/h3.sock"
sees 'its file' grep -qx "unix:$room/h3.sock" h/server-003

counts
