# Read by the scripts of benchmarks, which set `here` to their own folder and call
#
#     prepare LIBRARIES
#
# It makes a folder for one run, with the crates of the repository that these libraries are or stand
# on and, as the crate `bench` over these libraries, the benchmark's sources, which end in .txt so
# that they are no part of the crates here. It goes to that crate, and the folder is removed at the
# end.
prepare() {
    libraries=$1
    root=$(cd "$here/../.." && pwd)
    work=$(mktemp -d)
    trap 'rm -rf "$work"' EXIT
    for name in $("$root/tools/crates-below" $libraries); do
        mkdir -p "$work/crates/$name"
        (cd "$root/crates/$name" && tar cf - --exclude=./out .) | tar xf - -C "$work/crates/$name"
        grep "^$name:" "$root/crates.txt" >> "$work/crates.txt"
    done
    echo "bench: $libraries" >> "$work/crates.txt"
    mkdir -p "$work/crates/bench/src"
    for source in "$here"/*.rt.txt; do
        cp "$source" "$work/crates/bench/src/$(basename "$source" .txt)"
    done
    (cd "$work" && git init -q .)
    cd "$work/crates/bench"
}
