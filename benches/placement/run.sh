#!/bin/sh
# Proves and runs the benchmark of the placement, and its twin in C, in a folder of their own. The
# sources end in .txt, so that they are no part of the crates.
set -e
here=$(cd "$(dirname "$0")" && pwd)
work=$(mktemp -d)
trap 'rm -rf "$work"' EXIT
bench=$work/crates/bench
mkdir -p "$bench/src" "$work/crates/placement"
(cd "$here/../../crates/placement" && tar cf - --exclude=./out .) |
    tar xf - -C "$work/crates/placement"
printf 'placement: sha1 indexmap smallvec\nbench: placement\n' > "$work/crates.txt"
for name in main graphs; do cp "$here/$name.rt.txt" "$bench/src/$name.rt"; done
for file in "$here"/proofs/*.txt; do
    name=$(basename "$file" .txt)
    folder=$bench/proofs/graphs/${name%%.*}
    mkdir -p "$folder"
    cp "$file" "$folder/${name#*.}"
done
(cd "$work" && git init -q .)
cc -O2 -o "$work/twin" "$here/twin.c"
cd "$bench"
echo "The times of a placing, of the happiness of the pairs held and of its check. Ours:"
rt run
echo "The twin in C:"
"$work/twin"
