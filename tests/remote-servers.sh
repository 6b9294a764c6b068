#!/bin/sh
# What `./grid` does with servers on other machines, over sshfs: hosts in network namespaces of this
# machine hold six of ten folders, and are cut off before, in the midst of and behind a put and a
# get.
#
#     tests/remote-servers.sh
#
# Run by hand, as root: the program is built first where it is not. It needs `sshfs`, `sshd`,
# `ssh-keygen`, `ip` and `unshare` (Debian's packages sshfs, openssh-server, iproute2, util-linux)
# and /dev/fuse. It works in a mount and a network namespace of its own, and leaves nothing. Each
# line that begins with `differs` tells what was otherwise than it has to be; the last line counts
# them, and the status is 0 where there are none.

if [ "$1" != inside ]; then
    exec unshare --mount --net "$0" inside
fi
here=$(cd "$(dirname "$0")/.." && pwd) || exit 2
grid=${GRID:-$here/grid}
"$grid" cap URI:LIT: > /dev/null || exit 2
sshd=$(command -v sshd || echo /usr/sbin/sshd)
for tool in "$sshd" sshfs ssh-keygen ip; do
    command -v "$tool" > /dev/null || { echo "$tool is not here" >&2; exit 2; }
done
room=$(mktemp -d) || exit 2
cd "$room" || exit 2
# a folder that sshd wants to be there
mkdir -p /run/sshd && mount -t tmpfs -o mode=755 none /run/sshd
. "$here/tests/looks.sh"
hosts=

# ---- hosts, each in a network namespace of its own

# The programs below a program.
sessions_of() {
    for each in $(pgrep -P "$1"); do
        echo "$each"
        sessions_of "$each"
    done
}

ends_all() {
    for host in 1 2 3 again; do
        umount -l m/$host 2> /dev/null
    done
    for host in $hosts; do kill -9 "$host" 2> /dev/null; done
    for pid in host*/sshd.pid; do
        for each in $(sessions_of "$(cat "$pid")") "$(cat "$pid")"; do
            kill -9 "$each" 2> /dev/null
        done
    done
    cd / && rm -rf "$room"
}
trap ends_all EXIT

ssh-keygen -q -t ed25519 -N '' -f user || exit 2
ip link set lo up
# Makes a host, which is reached at 10.9.HOST.2.
makes_host() {
    mkdir -p "host$1/disk" "m/$1"
    ssh-keygen -q -t ed25519 -N '' -f "host$1/key"
    printf '%s\n' 'Port 22' "ListenAddress 10.9.$1.2" "HostKey $room/host$1/key" \
        "AuthorizedKeysFile $room/user.pub" "PidFile $room/host$1/sshd.pid" 'StrictModes no' \
        'UsePAM no' 'PasswordAuthentication no' 'Subsystem sftp internal-sftp' > "host$1/sshd.conf"
    unshare --net sleep 100000 &
    hosts="$hosts $!"
    sleep 0.2
    ip link add "h$1" type veth peer name far netns "$!"
    ip address add "10.9.$1.1/24" dev "h$1" && ip link set "h$1" up
    nsenter --net="/proc/$!/ns/net" ip address add "10.9.$1.2/24" dev far
    nsenter --net="/proc/$!/ns/net" ip link set far up
    nsenter --net="/proc/$!/ns/net" "$sshd" -f "$room/host$1/sshd.conf"
}

# Mounts a host's disk at a folder. A call on it ends in four seconds where the host is away.
mounts() {
    sshfs "root@10.9.$1.2:$room/host$1/disk" "$2" -o "IdentityFile=$room/user" \
        -o StrictHostKeyChecking=no,UserKnownHostsFile=/dev/null,LogLevel=ERROR \
        -o ServerAliveInterval=1,ServerAliveCountMax=3,ConnectTimeout=5 -o dir_cache=no
}

# A host that is cut off sends nothing any more, and its connections are not closed.
cuts_off() { ip link set "h$1" down; }

# It is there again, and its disk is mounted anew.
brings_back() {
    ip link set "h$1" up
    umount -l "m/$1" 2> /dev/null
    sleep 1
    mounts "$1" "m/$1"
}

# ---- what is looked at

# Whether the command ends so, and standard error has so many lines that begin with this text.
notes() {
    count=$1 text=$2
    shift 2
    ends "$@" && [ "$(grep -c "^$text" err)" = "$count" ]
}

gives_file() { ends "$1" 0 get "$cap" --grid g -o got && cmp -s got "$2"; }
is_empty() { [ -z "$(ls -A "$1")" ]; }

# Runs a command beside a host that is cut off after so many tenths of a second.
while_cutting() {
    host=$1 tenths=$2
    shift 2
    (sleep "$(echo "$tenths" | sed 's/.$/.&/; s/^\./0./')"; cuts_off "$host") &
    "$@"
    result=$?
    wait $!
    return $result
}

for host in 1 2 3; do makes_host $host; done
sleep 1
for host in 1 2 3; do mounts $host m/$host || exit 2; done
mkdir g
for host in 1 2 3; do
    for server in $((2 * host - 2)) $((2 * host - 1)); do
        mkdir "host$host/disk/$server"
        ln -s "../m/$host/$server" "g/server-00$server"
    done
done
head -c 100000 /dev/urandom > small
head -c 60000000 /dev/urandom > large

# ---- all hosts are there

sees 'a grid over three hosts' tells 'servers 10' 20 0 init g
sees 'a put' tells 'happiness 10' 20 0 put small --grid g
cap=$(head -n 1 out)
sees 'a get' gives_file 20 small
sees 'a check' ends 20 0 check "$cap" --grid g --strict
sees 'a repair' tells 'happiness 10' 20 0 repair "$cap" --grid g
sees 'a scrub' tells 'shares 10 damaged 0' 20 0 scrub --grid g

mkdir twice m/again host1/disk/both && mounts 1 m/again || exit 2
ln -s ../m/1/both twice/server-000 && ln -s ../m/again/both twice/server-001
sees 'one folder by two mounts' notes 1 'grid: 96 SameFolder server-000 server-001$' 20 3 \
    init twice --servers 2
umount m/again

# ---- a host is cut off before

cuts_off 1
sees 'a get without a host' gives_file 30 small
sees 'another get' gives_file 10 small
sees 'a check without a host' tells 'healthy no recoverable yes happiness 8' 10 0 \
    check "$cap" --grid g
sees 'the servers that are silent' notes 2 'server-00[01] silent: ' 10 0 \
    get "$cap" --grid g -v -o got
sees 'a put without a host' tells 'happiness 8' 10 0 put small --grid g
sees 'a put that wants all hosts' ends 10 4 put small --grid g --happy 10
sees 'a scrub without a host' ends 10 5 scrub --grid g
umount -l m/1 2> /dev/null
sees 'folders that are not mounted' notes 2 'server-00[01] silent: ' 10 0 put small --grid g -v
sees 'nothing below the mount' is_empty m/1
brings_back 1
sees 'a repair behind it' tells 'happiness 10' 20 0 repair "$cap" --grid g
sees 'a check behind it' ends 20 0 check "$cap" --grid g --strict

# ---- a host is cut off in the midst of a put, and of a get

sees 'a put that loses a host' while_cutting 2 10 tells 'happiness 8' 60 0 \
    put large --grid g --no-sync
cap=$(head -n 1 out)
sees 'what it stored' gives_file 20 large
brings_back 2
sees 'its repair' tells 'happiness 10' 60 0 repair "$cap" --grid g --no-sync
sees 'a get that loses a host' while_cutting 1 2 gives_file 60 large
sees 'a get behind it' gives_file 20 large
brings_back 1
sees 'a check of all' ends 60 0 check "$cap" --grid g --strict

# ---- a host that hangs: its programs are stopped, and it still has its address

stopped=$(sessions_of "$(cat host3/sshd.pid)")
for pid in $stopped; do kill -STOP "$pid"; done
sees 'a get beside a host that hangs' gives_file 30 large
sees 'a put beside a host that hangs' tells 'happiness 8' 10 0 put small --grid g
for pid in $stopped; do kill -KILL "$pid"; done
brings_back 3
sees 'a check when it is mounted again' ends 60 0 check "$cap" --grid g --strict

# ---- too few are left

for host in 1 2 3; do cuts_off $host; done
sees 'a put with four servers' ends 60 4 put small --grid g
sees 'a get with four servers' gives_file 20 large

counts
