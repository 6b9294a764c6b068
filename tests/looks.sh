# What the scripts have in common that look at `./grid` beside servers. They read it where `$here`
# is the root of the project and `$grid` the program. `looks-at-many.sh` reads it for `sees` and
# `counts`.

differed=0
seen=0

# Tells what was looked at where it was not as it has to be.
sees() {
    seen=$((seen + 1))
    what=$1
    shift
    if ! "$@"; then
        differed=$((differed + 1))
        echo "differs: $what"
        cut -c 1-90 out err | head -n 30 | sed 's/^/    /'
    fi
}

# Whether the command ends within so many seconds with this status.
ends() {
    limit=$1 wanted=$2
    shift 2
    timeout "$limit" "$grid" "$@" > out 2> err
    status=$?
    echo "status $status" >> err
    [ $status = "$wanted" ]
}

# The same, and standard output has this line.
tells() {
    line=$1
    shift
    ends "$@" && grep -qx "$line" out
}

# Counts what was looked at, and what of it was otherwise. The status is 0 where nothing was.
counts() {
    echo "$seen seen, $differed differed"
    [ $differed = 0 ]
}
