#!/bin/sh
# Makes the release anew from the sources: the program for both processors, stripped, with their
# sums and what they were made of. No other way changes the folder release/.
#
#     tests/release.sh
#
# Run by hand, once for a change of the program that is handed in. It proves and builds what is not
# built; afterwards `./grid --build` says 'the same'. The program's bits depend on the sources and
# the kit alone.
here=$(cd "$(dirname "$0")/.." && pwd) || exit 1
cd "$here" || exit 1
sources=$(tools/sources-sum)
mkdir -p release
for processor in x86-64-v2 x86-64-v3; do
    ./grid --build $processor
    if [ "$(cat built/grid-$processor.sources 2> /dev/null)" != "$sources" ]; then
        echo "built/grid-$processor is not of these sources" >&2
        exit 1
    fi
    cp built/grid-$processor release/ || exit 1
done
(cd release && sha256sum grid-x86-64-v2 grid-x86-64-v3 > SHA256SUMS)
printf 'sources %s\nkit %s\n' "$sources" "$(rt version)" > release/SOURCES
cat release/SOURCES release/SHA256SUMS
