#!/bin/sh
# Compares the list of docs/REFUSALS.md with what the crate refusal_rows writes, which the gate runs
# and compares with its file stdout: each number, each name, the crates and the exit status.
#
#     tests/refusals.sh
#
# An entry of the list is `- NUMBER **NAME**, status STATUS: cause (CRATE, CRATE as NAME or NAME)`.
# A crate without names of its own has the one in bold. It also sees that each line of a definition
# in specs/ that gives a refusal's number has its row, so that none is left out of the rows. It
# writes the lines that differ, `<` of the list or of specs/ and `>` of the rows, and has status 1
# where there are any.
cd "$(dirname "$0")/.." || exit 2
room=$(mktemp -d) || exit 2
trap 'rm -rf "$room"' EXIT
trap 'exit 2' HUP INT TERM

# Of a row the type is left out.
sed 's/::.*//' crates/refusal_rows/stdout | sort -u > "$room/rows"

awk '
    /^- [0-9]+ \*\*/ { if (entry != "") tell(entry); entry = $0; next }
    entry != "" && /^  / { entry = entry " " substr($0, 3); next }
    entry != "" { tell(entry); entry = "" }
    END { if (entry != "") tell(entry) }
    function tell(entry,    number, name, words, count, i, teller, own) {
        number = entry
        sub(/^- /, "", number)
        sub(/ .*/, "", number)
        name = entry
        sub(/^[^*]*\*\*/, "", name)
        sub(/\*\*.*/, "", name)
        if (match(entry, /\*\*, status [0-9]+/))
            print number, name, "status", substr(entry, RSTART + 11, RLENGTH - 11)
        sub(/.*\(/, "", entry)
        sub(/\)[^)]*$/, "", entry)
        gsub(/,/, "", entry)
        count = split(entry, words, / +/)
        teller = ""
        for (i = 1; i <= count; i++) {
            if (words[i] == "as" || words[i] == "or")
                continue
            if (words[i] ~ /^[A-Z]/) {
                own = 1
                print number, words[i], teller
                continue
            }
            if (teller != "" && !own)
                print number, name, teller
            teller = words[i]
            own = 0
        }
        if (teller != "" && !own)
            print number, name, teller
    }' docs/REFUSALS.md | sort -u > "$room/list"

# The lines `DEFINITION VARIANT = NUMBER` of the definitions that clauses of `number()` name.
for file in $(grep -rlE 'pub enum [A-Za-z]*(Error|Fault|Check) ' crates/*/src); do
    crate=$(echo "$file" | cut -d / -f 2)
    grep -A 1 'pub fn number(' "$file" |
        sed -n 's/^ *ensures { result ≡ \([a-z_]*\) self\(\.now\)\{0,1\} }$/\1/p' |
        while read -r definition; do
            cat "crates/$crate/specs/"*.antt | sed -n -E \
                "s/^$definition \(?([a-z_]*\.)?([A-Z][A-Za-z0-9]*).* = ([0-9]+)\$/\3 \2 $crate/p"
        done
done > "$room/given"

differ=0
diff "$room/list" "$room/rows" | grep '^[<>]' && differ=1
# A name of a text may go on behind the variant, as FileFault does behind File.
while read -r number variant crate; do
    grep -q "^$number $variant[A-Za-z]* $crate\$" "$room/rows" || {
        echo "< $number $variant $crate"
        differ=1
    }
done < "$room/given"
echo "$(wc -l < "$room/rows") rows, $(wc -l < "$room/given") lines of definitions"
exit $differ
