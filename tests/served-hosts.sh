#!/bin/sh
# What `./grid` does with servers that other machines serve: five hosts in network namespaces of
# this machine serve two folders each. One is cut off before a command, and then one is cut off,
# stopped, killed, or started again in the midst of a put, of a get, and of a repair of shares that
# another one lost. Then they are 20 ms away, each way, a file of 1 GiB is put, and ten clients put
# a hundred files each at once.
#
#     tests/served-hosts.sh
#
# Run by hand, as root: the program is built first where it is not. It needs `ip`, `unshare` and
# `nsenter` (Debian's packages iproute2 and util-linux), Python, and 6 GB below TMPDIR. It works in
# a network namespace of its own, and leaves nothing. Each line that begins with `differs` tells
# what was otherwise than it has to be; the last line counts them, and the status is 0 where there
# are none.

if [ "$1" != inside ]; then
    exec unshare --net "$0" inside
fi
here=$(cd "$(dirname "$0")/.." && pwd) || exit 2
grid=${GRID:-$("$here/grid" --program)} || exit 2
"$grid" cap URI:LIT: > /dev/null || exit 2
for tool in ip nsenter python3; do
    command -v "$tool" > /dev/null || { echo "$tool is not here" >&2; exit 2; }
done
room=$(mktemp -d) || exit 2
cd "$room" || exit 2
. "$here/tests/looks.sh"

# ---- hosts, each in a network namespace of its own, which serves two folders

ends_all() {
    for each in host*/pid proxy; do
        [ ! -e "$each" ] || kill -9 $(cat "$each") 2> /dev/null
    done
    for host in 1 2 3 4 5; do dies $host; done
    cd / && rm -rf "$room"
}
trap ends_all EXIT

ip link set lo up
# Makes a host, which is reached at 10.9.HOST.2.
makes_host() {
    mkdir -p "host$1"
    unshare --net sleep 100000 &
    echo $! > "host$1/pid"
    sleep 0.2
    ip link add "h$1" type veth peer name far netns "$!"
    ip address add "10.9.$1.1/24" dev "h$1" && ip link set "h$1" up
    inside_host "$1" ip address add "10.9.$1.2/24" dev far
    inside_host "$1" ip link set far up
}

net_of() { echo "/proc/$(cat "host$1/pid")/ns/net"; }

inside_host() {
    inside=$1
    shift
    nsenter --net="$(net_of "$inside")" "$@"
}

# The servers of a host.
servers_of() { echo $((2 * $1 - 2)) $((2 * $1 - 1)); }

# No function is called in the background, whose process would be a shell's and not the server's.
serves() {
    for server in $(servers_of "$1"); do
        mkdir -p "host$1/$server"
        nsenter --net="$(net_of "$1")" "$grid" serve "host$1/$server" \
            --listen "10.9.$1.2:700$server" --anyone --mark "grid $letters server $server" \
            2> "host$1/said.$server" &
        echo $! > "host$1/pid.$server"
    done
}

# One that has ended takes no signal.
signals() {
    for server in $(servers_of "$2"); do
        [ ! -e "host$2/pid.$server" ] || kill "$1" "$(cat "host$2/pid.$server")" 2> /dev/null
    done
    :
}

cuts_off() { ip link set "h$1" down; }
brings_back() { ip link set "h$1" up; }
stops() { signals -STOP "$1"; }
goes_on() { signals -CONT "$1"; }
dies() { signals -KILL "$1"; }

# It dies, and is started anew after a second.
restarts() { dies "$1" && sleep 1 && serves "$1"; }

# ---- what is looked at

# A put of this file ends, and has the happiness that is wanted at least. Its cap is kept.
puts() {
    ends "$1" 0 put "$2" --grid g && [ "$(sed -n 's/^happiness //p' out)" -ge "$3" ] || return
    cap=$(head -n 1 out)
    echo "$cap $2" >> acknowledged
}

gives() { ends "$1" 0 get "$cap" --grid g -o got && cmp -s got "$2"; }

# All that was acknowledged is given back.
gives_all() {
    while read -r cap file; do
        gives 120 "$file" || return
    done < acknowledged
}

# Does something to a host, and runs a command so many tenths of a second before that.
during() {
    tenths=$1 what_happens=$2 host=$3
    shift 3
    (sleep "$(echo "$tenths" | sed 's/.$/.&/; s/^\./0./')"; "$what_happens" "$host") &
    "$@"
    result=$?
    wait $!
    return $result
}

# ---- five hosts

elsewhere=
for host in 1 2 3 4 5; do
    makes_host $host
    for server in $(servers_of $host); do
        elsewhere="$elsewhere --server $server=10.9.$host.2:700$server"
    done
done
sees 'a grid over five hosts' tells 'servers 10' 20 0 init g $elsewhere
letters=$(sed -n 's/^grid \([^ ]*\) .*/\1/p' g/grid-mark)
for host in 1 2 3 4 5; do serves $host; done
sleep 2
head -c 100000 /dev/urandom > small
head -c 60000000 /dev/urandom > large

sees 'a put' puts 30 small 10
sees 'a get' gives 30 small
sees 'a check' ends 30 0 check "$cap" --grid g --strict
sees 'a repair' tells 'happiness 10' 30 0 repair "$cap" --grid g
sees 'a put of more' puts 120 large 10
sees 'its get' gives 60 large
stored=$cap

# ---- one is away before

cuts_off 1
head -c 60000000 /dev/urandom > other
sees 'a get without a host' gives 60 large
sees 'a put without a host' puts 60 other 8
sees 'a check without a host' tells 'healthy no recoverable yes happiness 8' 60 0 \
    check "$stored" --grid g
sees 'a put that wants all' ends 60 4 put other --grid g --happy 10
brings_back 1
sees 'a repair behind it' tells 'happiness 10' 60 0 repair "$cap" --grid g
cap=$stored

# ---- one goes in the midst: it is cut off, stops, dies, is started anew

# Each put is of another file, of which no server has a share yet.
for happens in cuts_off stops dies restarts; do
    file=file-$happens
    head -c 60000000 /dev/urandom > $file
    sees "a put while host 2 $happens" during 10 $happens 2 puts 150 $file 7
    brings_back 2 && goes_on 2 && dies 2 && sleep 1 && serves 2 && sleep 1
    sees 'its repair' ends 150 0 repair "$cap" --grid g
    sees "a get while host 3 $happens" during 4 $happens 3 gives 100 $file
    brings_back 3 && goes_on 3 && dies 3 && sleep 1 && serves 3 && sleep 1
    rm host4/6/*.* host4/7/*.*
    dies 4 && sleep 1 && serves 4 && sleep 1
    sees "a repair while host 5 $happens" during 6 $happens 5 ends 150 0 repair "$cap" --grid g
    brings_back 5 && goes_on 5 && dies 5 && sleep 1 && serves 5 && sleep 1
    sees 'what was acknowledged' gives_all
done

# ---- all are far away

ways=
for host in 1 2 3 4 5; do
    for server in $(servers_of $host); do
        ways="$ways 127.0.0.1:800$server 10.9.$host.2:700$server"
        echo "127.0.0.1:800$server" > g/server-00$server
    done
done
python3 "$here/tests/delay.py" 20 $ways &
echo $! > proxy
sleep 2
head -c 16777216 /dev/urandom > middle
for each in 'puts 60 middle 10' 'gives 30 middle' 'checks'; do
    checks() { ends 60 0 check "$cap" --grid g --strict; }
    begun=$(date +%s%N)
    sees "$each, 20 ms away" $each
    echo "20 ms away: $each took $((($(date +%s%N) - begun) / 1000000)) ms"
done
kill "$(cat proxy)" && rm proxy
for host in 1 2 3 4 5; do
    for server in $(servers_of $host); do echo "10.9.$host.2:700$server" > g/server-00$server; done
done

# ---- much, and many

head -c 1073741824 /dev/urandom > huge
sees 'a put of 1 GiB' puts 900 huge 10
sees 'its get' gives 600 huge
rm -f huge got
sed -i '/ huge$/d' acknowledged

# A client puts a hundred files of its own, one after the other.
puts_hundred() {
    for number in $(seq 100); do
        echo "file $number of client $1" | cat - small > "file.$1"
        timeout 60 "$grid" put "file.$1" --grid g > "out.$1" 2> "err.$1" || return 1
        echo "$(head -n 1 "out.$1") $number" >> "caps.$1"
    done
}
clients=
for client in 1 2 3 4 5 6 7 8 9 10; do
    puts_hundred $client &
    clients="$clients $!"
done
for client in $clients; do
    sees 'the puts of a client' wait "$client"
done
gives_hundred() {
    while read -r cap number; do
        echo "file $number of client $1" | cat - small > file
        gives 60 file || return
    done < "caps.$1"
}
for client in 1 2 3 4 5 6 7 8 9 10; do
    sees 'what a client put' gives_hundred $client
done
sees 'what was acknowledged' gives_all

counts
