#!/bin/bash
# Looks at what shells and `man` know of grid: that completions/ and docs/grid.1 are what
# tools/completions makes of the help, what bash offers at some words, and, where they are
# installed, that zsh, fish and man take theirs.
#
#     tests/completions.sh
#
# It writes what differed, and the status is 1 then.
cd "$(dirname "$0")/.." || exit 2
differed=0
tools/completions --check || differed=1
# shellcheck source=/dev/null
. completions/grid.bash
root=$PWD
room=$(mktemp -d) || exit 2
trap 'rm -rf "$room"' EXIT
trap 'exit 2' HUP INT TERM
mkdir "$room/a grid" && : > "$room/a file" && cd "$room" || exit 2

# offers WANTED WORD..: what is offered in the place of the last word
offers() {
    local wanted=$1
    shift
    COMP_WORDS=("$@")
    COMP_CWORD=$(($# - 1))
    _grid
    [ "${COMPREPLY[*]}" = "$wanted" ] || {
        echo "$*: offered <${COMPREPLY[*]}>, wanted <$wanted>"
        differed=1
    }
}

offers 'repair' grid re
offers '--segment --servers --secret --secret-file' grid put --se
offers 'a grid' grid put --grid ''
offers 'a file a grid' grid put a
offers 'a file a grid' grid get --caps a
offers '' grid put --k ''
offers 'a grid' grid init a
offers '--version' grid --v

if command -v zsh > /dev/null; then
    zsh -n "$root/completions/_grid" || differed=1
fi
if command -v fish > /dev/null; then
    fish --no-execute "$root/completions/grid.fish" || differed=1
    found=$(fish -c "source '$root/completions/grid.fish'; complete -C 'grid re'" | cut -f 1)
    [ "$found" = repair ] || { echo "fish offers <$found>" && differed=1; }
fi
if command -v man > /dev/null; then
    said=$(man --warnings -l "$root/docs/grid.1" 2>&1 > /dev/null)
    [ -z "$said" ] || { echo "man: $said" && differed=1; }
fi
exit $differed
