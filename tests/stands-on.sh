#!/bin/sh
# Compares what the documents say of the crates with crates.txt.
#
#     tests/stands-on.sh
#
# Run by hand whenever crates.txt changes. Each crate's README.md lists, behind 'Crates of this
# project:', those that it stands on, and docs/ARCHITECTURE.md has an entry for each crate, in an
# order in which each comes after those that it stands on, and names none below it that it does not
# stand on. A line tells each difference. The status is 0 where there is none, else 1.

cd "$(dirname "$0")/.." || exit 2
map=docs/ARCHITECTURE.md
differences=$(
    sed -n 's/^\([a-z0-9_]*\)\( staticlib\)*:/\1:/p' crates.txt | while IFS=: read -r name below; do
        said=$(sed -n '/^Crates of this project:/,/^$/p' "crates/$name/README.md" |
            grep -o '`[a-z0-9_]*`' | tr -d '`' | sort)
        own=$(for it in $below; do [ ! -d "crates/$it" ] || echo "$it"; done | sort)
        [ "$said" = "$own" ] || echo "crates/$name/README.md stands on:" $own
        grep -q "^ *- \`$name\`" "$map" || echo "$map has no entry for $name"
    done
    grep -o '^ *- `[a-z0-9_]*`.*' "$map" | sed 's/^ *- `\([a-z0-9_]*\)`/\1/' |
        awk 'NR == FNR { split($0, line, ":"); sub(/ .*/, "", line[1])
                  deps[line[1]] = " " line[2] " "; next }
            { name = $1; sub(/[,:].*/, "", name); if (!(name in deps)) next
              place[++count] = name; position[name] = count; rest[name] = $0 }
            END {
                for (p = 1; p <= count; p++) {
                    n = split(deps[place[p]], below, " ")
                    for (i = 1; i <= n; i++)
                        if (below[i] in position && position[below[i]] > p)
                            print place[p] " stands before " below[i] " in the map"
                    while (match(rest[place[p]], /`[a-z0-9_]+`/)) {
                        word = substr(rest[place[p]], RSTART + 1, RLENGTH - 2)
                        rest[place[p]] = substr(rest[place[p]], RSTART + RLENGTH)
                        if (word in deps && index(deps[place[p]], " " word " ") == 0)
                            print place[p] " does not stand on " word
                    }
                }
            }' crates.txt -
)
[ -z "$differences" ] || { echo "$differences"; exit 1; }
echo "the documents say what crates.txt says"
