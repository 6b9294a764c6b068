#!/bin/sh
# What `./grid` does with servers that it reaches by ssh: five hosts in network namespaces of this
# machine serve two folders each at Unix sockets, and an ssh for each host carries its sockets. One
# ssh is away before a command; and then ssh stops, is killed, or its host is cut off in the midst
# of a put and of a get, and another one begins. Processes that serve are started again under it, an
# sshd stops, and sockets are swapped.
#
#     tests/served-ssh.sh [PROGRAM]
#
# Run by hand, as root. Where no program is named it is that of GRID, or it is built first where it
# is not. It needs `ssh`, `ssh-keygen`, `sshd`, `ip`, `unshare` and `nsenter` (Debian's packages
# openssh-client, openssh-server, iproute2 and util-linux) and 300 MB below TMPDIR. It works in a
# mount and a network namespace of its own, with keys and settings of its own, and leaves nothing.
# Each line that begins with `differs` tells what was otherwise than it has to be; the last line
# counts them, and the status is 0 where there are none.

if [ "$1" != inside ]; then
    exec unshare --mount --net "$0" inside "$@"
fi
here=$(cd "$(dirname "$0")/.." && pwd) || exit 2
grid=${2:-${GRID:-$("$here/grid" --program)}} && grid=$(realpath "$grid") || exit 2
"$grid" cap URI:LIT: > /dev/null || exit 2
sshd=$(command -v sshd || echo /usr/sbin/sshd)
for tool in "$sshd" ssh ssh-keygen ip nsenter; do
    command -v "$tool" > /dev/null || { echo "$tool is not here" >&2; exit 2; }
done
room=$(mktemp -d) || exit 2
cd "$room" || exit 2
. "$here/tests/looks.sh"

# ---- hosts, each in a network namespace of its own, with an sshd and two folders that are served

# The programs below a program.
sessions_of() {
    for each in $(pgrep -P "$1"); do
        echo "$each"
        sessions_of "$each"
    done
}

ends_all() {
    for each in host*/ssh host*/pid.*; do
        [ ! -e "$each" ] || kill -9 "$(cat "$each")" 2> /dev/null
    done
    for each in host*/sshd; do
        [ ! -e "$each" ] || kill -9 $(sessions_of "$(cat "$each")") "$(cat "$each")" 2> /dev/null
    done
    for each in host*/pid; do
        [ ! -e "$each" ] || kill -9 "$(cat "$each")" 2> /dev/null
    done
    cd / && rm -rf "$room"
}
trap ends_all EXIT
trap 'exit 2' HUP INT TERM
# a folder that sshd wants to be there
mount -t tmpfs -o mode=755 none /run && mkdir /run/sshd || exit 2

# Waits until a command succeeds, for a minute at most.
waits() {
    for half in $(seq 120); do
        ! "$@" || return 0
        sleep 0.5
    done
    return 1
}

net_of() { readlink "/proc/$1/ns/net"; }
has_own_net() { [ "$(net_of "$1")" != "$(net_of self)" ]; }
inside_host() {
    inside=$1
    shift
    nsenter --net="/proc/$(cat "host$inside/pid")/ns/net" "$@"
}

# Makes a host, which is reached at 10.9.HOST.2 and where the user of this script may log in.
makes_host() {
    mkdir -p "host$1"
    unshare --net sleep 100000 &
    echo $! > "host$1/pid"
    waits has_own_net $!
    ip link add "h$1" type veth peer name far netns "$!"
    ip address add "10.9.$1.1/24" dev "h$1" && ip link set "h$1" up
    inside_host "$1" ip address add "10.9.$1.2/24" dev far
    inside_host "$1" ip link set far up
    ssh-keygen -q -t ed25519 -N '' -f "host$1/key"
    echo "10.9.$1.2 $(cut -d ' ' -f 1,2 "host$1/key.pub")" >> known
    printf '%s\n' 'Port 22' "ListenAddress 10.9.$1.2" "HostKey $room/host$1/key" \
        "AuthorizedKeysFile $room/user.pub" 'PidFile none' 'StrictModes no' 'UsePAM no' \
        'PasswordAuthentication no' > "host$1/sshd.conf"
    nsenter --net="/proc/$(cat "host$1/pid")/ns/net" "$sshd" -D -f "$room/host$1/sshd.conf" \
        -E "$room/host$1/sshd.log" &
    echo $! > "host$1/sshd"
    waits grep -qs '^Server listening' "host$1/sshd.log"
    printf '%s\n' "Host host$1" "HostName 10.9.$1.2" >> config
}

# The servers of a host.
servers_of() { echo $((2 * $1 - 2)) $((2 * $1 - 1)); }

# No function is called in the background, whose process would be a shell's and not the program's.
serves() {
    for server in $(servers_of "$1"); do
        mkdir -p "host$1/$server" && rm -f "host$1/said.$server"
        nsenter --net="/proc/$(cat "host$1/pid")/ns/net" "$grid" serve "host$1/$server" \
            --listen "unix:$room/host$1/$server.sock" --mark "grid $letters server $server" \
            2> "host$1/said.$server" &
        echo $! > "host$1/pid.$server"
    done
    for server in $(servers_of "$1"); do
        waits grep -qs '^serving ' "host$1/said.$server"
    done
}

ends_serving() {
    for server in $(servers_of "$1"); do
        kill -9 "$(cat "host$1/pid.$server")" && waits is_gone "$(cat "host$1/pid.$server")"
    done
}

# Begins an ssh that makes sockets here, which lead to the sockets of a host's servers. They may be
# given as they are to stand.
leads_to() {
    [ $# != 1 ] || set -- "$1" $(servers_of "$1")
    rm -f "host$1/log"
    ssh -F config -E "host$1/log" -L "$room/here/$((2 * $1 - 2)).sock:$room/host$1/$2.sock" \
        -L "$room/here/$((2 * $1 - 1)).sock:$room/host$1/$3.sock" "host$1" &
    echo $! > "host$1/ssh"
}
is_led() { grep -qs 'Entering interactive session' "host$1/log"; }
leads_anew() { leads_to "$@" && waits is_led "$1"; }

is_gone() { ! kill -0 "$1" 2> /dev/null; }
stops() { kill -STOP "$(cat "host$1/ssh")"; }
dies() { kill -KILL "$(cat "host$1/ssh")" 2> /dev/null; :; }
is_cut_off() { ip link set "h$1" down; }
has_ended() { is_gone "$(cat "host$1/ssh")"; }

# After what happened, the ssh of the host has ended, by itself where the host is cut off, and
# another one begins.
brings_back() {
    [ "$1" = is_cut_off ] || dies "$2"
    waits has_ended "$2"
    ip link set "h$2" up
    leads_anew "$2"
}

# ---- what is looked at

# A put of this file ends, and has the happiness that is wanted at least. Its cap is kept.
puts() {
    ends "$1" 0 put "$2" --grid g && [ "$(sed -n 's/^happiness //p' out)" -ge "$3" ] || return
    echo "$(head -n 1 out) $2" >> acknowledged
}

cap_of() { sed -n "s/ $1\$//p" acknowledged | tail -n 1; }
gives() { ends "$1" 0 get "$(cap_of "$2")" --grid g -o got && cmp -s got "$2"; }
mends() { tells 'happiness 10' "$1" 0 repair "$(cap_of "$2")" --grid g; }
is_whole() {
    tells 'healthy yes recoverable yes happiness 10' 60 0 check "$(cap_of "$1")" --grid g --strict
}

# All that was acknowledged is given back.
gives_all() {
    for file in $(cut -d ' ' -f 2 acknowledged); do gives 60 "$file" || return; done
}

# Whether the command ends so, and standard error has so many lines that begin with this text.
notes() {
    count=$1 text=$2
    shift 2
    ends "$@" && [ "$(grep -c "^$text" err)" = "$count" ]
}

# The kilobytes that the folders of a host's servers hold.
holds() { du -sk "host$1" | cut -f 1; }

# A put of a new file, of which each share has three million bytes. Something happens to host 2 when
# it has taken some of its two, which is before the put ends.
puts_while() {
    head -c 9000000 /dev/urandom > "$1"
    rm -f ended in_midst
    begun=$(holds 2)
    (
        until [ -e ended ] || [ "$(holds 2)" -gt $((begun + 100)) ]; do sleep 0.01; done
        "$1" 2
        [ -e ended ] || : > in_midst
    ) &
    puts 60 "$1" 8
    result=$?
    : > ended
    wait $!
    [ $result = 0 ] && [ -e in_midst ]
}

# The bytes that the server has read, which are those of its shares and what clients sent.
has_read() { sed -n 's/^rchar: //p' "/proc/$(cat host*/"pid.$1")/io"; }

# A get of that file, which waits where its first megabyte was taken. Then something happens to the
# host of the server of which most was read, and which has more to tell.
gives_while() {
    for server in 0 1 2 3 4 5 6 7 8 9; do has_read $server > "read.$server"; done
    {
        timeout 60 "$grid" get "$(cap_of "$1")" --grid g 2> err
        echo "status $?" >> err
    } | {
        head -c 1000000
        most=0
        for server in 0 1 2 3 4 5 6 7 8 9; do
            read=$(($(has_read $server) - $(cat "read.$server")))
            if [ $read -gt $most ]; then
                most=$read
                echo $((server / 2 + 1)) > host
            fi
        done
        echo $most > most
        "$1" "$(cat host)"
        cat
    } > got
    : > out
    grep -qx 'status 0' err && cmp -s got "$1" && [ "$(cat most)" -lt 2500000 ]
}

# ---- five hosts

mkdir -m 700 here
ip link set lo up
ssh-keygen -q -t ed25519 -N '' -f user || exit 2
printf '%s\n' 'User root' "IdentityFile $room/user" 'IdentitiesOnly yes' 'IdentityAgent none' \
    "UserKnownHostsFile $room/known" 'GlobalKnownHostsFile /dev/null' 'BatchMode yes' \
    'KexAlgorithms curve25519-sha256' 'Ciphers aes128-gcm@openssh.com' 'LogLevel DEBUG1' \
    'SessionType none' 'StdinNull yes' 'ConnectTimeout 60' 'ServerAliveInterval 3' \
    'ExitOnForwardFailure yes' 'StreamLocalBindUnlink yes' > config
elsewhere=
for host in 1 2 3 4 5; do
    makes_host $host
    for server in $(servers_of $host); do
        elsewhere="$elsewhere --server $server=unix:$room/here/$server.sock"
    done
done
sees 'a grid of sockets' tells 'servers 10' 20 0 init g $elsewhere
letters=$(sed -n 's/^grid \([^ ]*\) .*/\1/p' g/grid-mark)
for host in 1 2 3 4 5; do serves $host && leads_to $host; done
are_led() { for host in 1 2 3 4 5; do waits is_led $host || return; done; }
sees 'the sockets of the hosts' are_led
[ $differed = 0 ] || { counts; exit 1; }
head -c 100000 /dev/urandom > small
head -c 100000 /dev/urandom > other

sees 'a put' puts 60 small 10
sees 'a get' gives 60 small
sees 'a check' is_whole small
rm host5/8/*.* host5/9/*.*
ends_serving 5 && serves 5
sees 'a repair beside the same ssh, where other processes serve' mends 60 small

# ---- an ssh is away before

dies 1 && waits has_ended 1
sees 'a get without a host' gives 60 small
sees 'those that are silent' notes 2 'server-00[01] silent: it does not answer' 60 0 \
    put other --grid g -v
sees 'a put without a host' puts 60 other 8
is_refused() {
    ssh -F config -E err -o StreamLocalBindUnlink=no \
        -L "$room/here/0.sock:$room/host1/0.sock" host1
    [ $? = 255 ] && grep -q 'cannot bind to path .*: Address already in use' err
}
sees 'an ssh that takes no socket away' is_refused
sees 'an ssh that does' leads_anew 1
sees 'a repair behind it' mends 60 other

# ---- it goes in the midst: it stops, dies, or its host is cut off, so that it ends by itself

for happens in stops dies is_cut_off; do
    sees "a put while ssh of host 2 $happens" puts_while $happens
    brings_back $happens 2
    sees 'its repair' mends 60 $happens
    sees "a get while ssh of a host $happens" gives_while $happens
    brings_back $happens "$(cat host)"
    sees 'its check' is_whole $happens
done

# ---- sshd of a host stops

# One of a connection that was cut off may end meanwhile.
sessions=$(sessions_of "$(cat host3/sshd)")
kill -STOP $sessions 2> /dev/null
sees 'a get beside an sshd that stopped' gives 60 dies
sees 'that ssh ends' waits has_ended 3
kill -CONT $sessions 2> /dev/null
leads_anew 3

# ---- others than they should be

dies 4 && waits has_ended 4 && leads_anew 4 7 6
ls -lR host4/6 host4/7 > before
head -c 100000 /dev/urandom > third
sees 'sockets that are swapped' notes 2 'server-00[67] silent: it greets as another server' 60 0 \
    put third --grid g -v
sees 'a get beside them' gives 60 small
ls -lR host4/6 host4/7 > behind
sees 'that nothing was written there' cmp -s before behind
dies 4 && waits has_ended 4 && leads_anew 4
sees 'what was acknowledged' gives_all

counts
