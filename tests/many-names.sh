#!/bin/sh
# Catalogues that somebody made up: names that lead elsewhere, long names, lines that are none, and
# words that choose files.
#
#     tests/many-names.sh [PROGRAM]
#
# Run by hand: `tests/looks-at-many.sh` says how. A get of made-up names must not leave its folder,
# whatever stands there; each name of up to 255 bytes has to come back, beside whatever a get that
# was killed left; and words have to choose the same files for each command. It needs a C compiler
# `cc`. With TMPDIR in memory it takes some seconds.

here=$(cd "$(dirname "$0")/.." && pwd) || exit 2
. "$here/tests/looks-at-many.sh"
cc -shared -fPIC -O1 -o record.so "$here/tests/record.c" || exit 2

makes_grid g
printf 'one' > one
head -c 1000 /dev/urandom > thousand
"$program" put one thousand --grid g > caps 2> err || exit 2

# A catalogue of these names, each of a file of three bytes.
made_up() {
    head_of caps
    printf 'URI:LIT:n5xgk  %s\n' "$@"
}

# Whether a get of a made-up catalogue ends with this status, and tells this last.
gets() {
    wanted=$1 told=$2
    shift 2
    exits "$wanted" "$told" get --caps made.caps --into into --grid g "$@"
}

# ---- a get never leaves its folder

mkdir outside && printf 'theirs' > outside/victim && ln outside/victim victim
# What stands outside of the folder.
outside() { find outside victim -printf '%p %y %s %n\n' && cat outside/victim; }
outside > outside.was
is_outside() { outside | cmp -s - outside.was; }

long=$(printf %0256d 0)
for name in ../outside/x /../outside/x ./../outside/x a/../../outside/x ../outside/victim .. . \
    a/.. a/. a/./b a//b a/ / ./ // /./ .//../x "$long" "a/$long"; do
    made_up "$name" last > made.caps
    rm -rf into
    sees "a get of $name" gets 3 "grid: 112 BadName ($name)"
    sees "the file behind $name alone" [ "$(files_in into)" = 'last ' ]
    sees "a verify of $name" exits_with "$(last_of verify 2 1)" 3 "grid: 112 BadName ($name)" \
        $(over verify made.caps)
    sees "a check of $name" exits_with "$(last_of check 2 2)" 0 '' $(over check made.caps)
done
sees 'nothing was written outside' is_outside
rm -rf into
made_up "$room/outside/x" //b /./c ././/d ... a/... a/..b '~/e' > made.caps
sees 'a get of names that begin with slashes' gets 0 ''
sees 'they stand below the folder' \
    [ "$(files_in into)" = "... a/... a/..b b c d ${room#/}/outside/x ~/e " ]
sees 'nothing stands outside' is_outside

# What stands in the way: links that lead out, and what is no file or no folder.
rm -rf into && mkdir into into/folder into/sub
ln -s ../outside into/link
ln -s ../../outside into/sub/link
ln -s ../outside/victim into/file-link
ln -s ../outside/new into/dangling
ln -s ../outside/new into/last.part
ln -s loop into/loop
ln outside/victim into/hard
printf 'mine' > into/file
mkfifo into/pipe
outside > outside.was
made_up link/x sub/link/x sub/link/victim file-link dangling loop loop/x link folder file/x pipe \
    pipe/x last > made.caps
for more in '' --overwrite; do
    sees "a get over links $more" gets 7 'grid: 90 FileFault into/pipe (pipe/x)' $more
    sees "each is refused $more" [ "$(grep -c '^grid: 90 FileFault into/' err)" = 12 ]
    sees "the last is written $more" [ "$(cat into/last)" = one ]
    sees "nothing is written outside $more" is_outside
    sees "the file that was there $more" [ "$(cat into/file)" = mine ]
    rm into/last
done
sees 'the link beside the last file stays' [ -L into/last.part ]
made_up file hard > made.caps
sees 'a get over files that are there' gets 7 'grid: 90 FileFault into/hard (hard)'
sees 'they stay' [ "$(cat into/file into/hard)" = minetheirs ]
sees 'a get that replaces them' gets 0 '' --overwrite
sees 'they are replaced' [ "$(cat into/file into/hard)" = oneone ]
sees 'the file outside that had one of their names too stays' \
    [ "$(cat outside/victim victim)" = theirstheirs ]
rm -rf into && mkdir real && ln -s real into
made_up a/b a a/c a/b/d x.part x ./x > made.caps
sees "names that are in each other's way, below a link that was named" \
    gets 7 'grid: 90 FileFault into/x (./x)'
sees 'those that came first' [ "$(files_in real)" = 'a/b a/c x x.part ' ]
rm -rf into real
printf 'mine' > into
sees 'a get into a file' gets 7 'grid: 90 FileFault into'
sees 'a get into no name' exits 7 'grid: 90 FileFault ' get --caps made.caps --into '' --grid g
rm into

# A thousand folders, one in the other, and a path that is longer than the system takes.
deep=$(printf 'a/%.0s' $(seq 1000))x
made_up "$deep" "$(printf "$(printf %0250d 0)/%.0s" $(seq 20))x" last > made.caps
gets_too_long() {
    "$program" $(over get made.caps) 2> err
    [ $? = 7 ] && sed -n '3s|URI:LIT:n5xgk  \(.*\)|(\1)|p' made.caps > name &&
        [ "$(wc -l < err)" = 2 ] && sed -n '2s|^grid: 90 FileFault into/[0/]* ||p' err |
        cmp -s - name
}
sees 'a get of too long a path' gets_too_long
sees 'how many files then' [ "$(find into -type f | wc -l)" = 2 ]
sees 'the files beside it' [ "$(cat "into/$deep" into/last)" = oneone ]

# ---- long names

# A get writes a new file beside the one that has the name in the end: NAME.part, or .part.2 behind
# it where that is taken, and of a name that leaves no room for that grid-get.part.
long=$(printf %0255d 0)
printf 'long' > "$long"
sees 'a put of a name of 255 bytes' \
    exits_with "URI:LIT:nrxw4zy  $long" 0 '' put one "$long" --grid g
mv out made.caps
rm -rf into
sees 'a get of a name of 255 bytes' gets 0 ''
sees 'the file of that name' [ "$(cat "into/$long" 2> /dev/null)" = long ]

# Whether a get beside this file writes this new one, which then has the name.
renames() {
    left=$1 new=$2
    shift 2
    rm -rf into record && mkdir into && echo left > "into/$left"
    before="env LD_PRELOAD=$room/record.so RECORD_ROOT=$room/into RECORD_FILE=$room/record"
    exits 0 '' "$@"
    ended=$?
    before=
    [ $ended = 0 ] && grep -a '^rename' record > renames &&
        printf 'rename\t%s\t%s\n' "$room/into/$new" "$room/into/$name" | cmp -s - renames &&
        [ "$(cat "into/$name" "into/$left")" = oneleft ] && [ "$(find into -type f | wc -l)" = 2 ]
}
for name in $(printf '%0247d %0248d %0250d %0255d' 0 0 0 0) "$(printf 'é%.0s' $(seq 124))"; do
    made_up "$name" > made.caps
    size=$(printf %s "$name" | wc -c)
    part=grid-get.part
    [ "$size" -gt 247 ] || part=$name.part
    for left in other grid-get.part "$name.part"; do
        [ "$(printf %s "$left" | wc -c)" -le 255 ] || continue
        new=$part
        [ "$left" != "$part" ] || new=$part.2
        way="a name of $size bytes beside ${left#"$name"}"
        sees "a get of $way" renames "$left" "$new" $(over get made.caps)
        sees "a get -o of $way" renames "$left" "$new" get -o "into/$name" URI:LIT:n5xgk --grid g
    done
done
rm -rf into
made_up grid-get.part "$long" > made.caps
sees 'a get of what is called as such a new file' gets 0 ''
sees 'both came' [ "$(files_in into)" = "$long grid-get.part " ]

# ---- names that are no text, lines that are none, and lines of verify caps

rm -rf into
{
    made_up a
    printf 'URI:LIT:n5xgk  bad\377\nURI:LIT:n5xgk  b\n'
} > made.caps
no_text=$(printf 'bad\357\277\275')
sees 'a get of a name that is no UTF-8' gets 7 "grid: 90 FileFault $no_text ($no_text)"
sees 'the others' [ "$(files_in into)" = 'a b ' ]
sees 'a check of it' exits 0 '' $(over check made.caps) --json
sees 'its objects' many objects made.caps out yes 6
for line in '' ' ' 'URI:LIT:n5xgk x' 'URI:LIT:n5xgk  ' 'URI:LIT:N5XGK  x' '# a comment' \
    '\URI:LIT:n5xgk  x' 'URI:LIT:n5xgk  a\b' '\URI:LIT:n5xgk  a\\b\n\x' \
    "URI:LIT:n5xgk  x$(printf '\r')" 'URI:CHK:x:3:6:56  x'; do
    { made_up a && printf '%s\n' "$line" && echo 'URI:LIT:n5xgk  b'; } > made.caps
    rm -rf into
    for command in get check repair verify; do
        sees "a $command with the line '$line'" exits_with "$(last_of $command 1 1)" 3 \
            'grid: 111 NotALine 3' $(over $command made.caps)
    done
    sees 'the file before that line alone' [ "$(files_in into)" = 'a ' ]
done
{ made_up a && printf 'URI:LIT:n5xgk  b'; } > made.caps
sees 'a last line without its end' gets 3 'grid: 111 NotALine 3' --overwrite
{
    head_of caps
    "$program" cap "$(sed -n 's/  thousand$//p' caps)" | sed -n 's/^verify \(.*\)/\1  x/p'
} > made.caps
sees 'a get of a verify cap' gets 3 'grid: 94 NeedsReadCap (x)'
sees 'a check of a verify cap' exits 0 '' $(over check made.caps) --strict

# ---- words that choose

made_up ./a/x a/y /a/z a/b/x ab a.x '[ab]' 'a*' '*' -d other > made.caps
printf '%s\n' '\URI:LIT:n5xgk  a\\b' >> made.caps
# Whether these words choose these files, for each command.
choose() {
    wanted=$1
    shift
    rm -rf into
    "$program" $(over get made.caps) -- "$@" > out 2> err || return 1
    [ "$(files_in into)" = "$wanted" ] &&
        "$program" $(over check made.caps) -- "$@" > out 2> err &&
        "$program" $(over verify made.caps) -- "$@" > verify.out 2> err &&
        [ "$(($(wc -l < out) - 1))" = "$(find into -type f | wc -l)" ] &&
        [ "$(wc -l < out)" = "$(wc -l < verify.out)" ]
}
sees 'a folder' choose 'a/b/x a/x a/y a/z ' a
sees 'a folder and ./' choose 'a/b/x a/x a/y a/z ' ./a
sees 'a folder and a slash before it' choose 'a/b/x a/x a/y a/z ' /a
sees 'stars and no slash' choose '* -d [ab] a* a.x a/b/x a/x a/y a/z a\b ab other ' '*'
sees 'what is in a folder' choose 'a/b/x a/x a/y a/z ' 'a/*'
sees 'a star and a slash' choose 'a/b/x a/x ' '*/x' 'a/b'
sees 'a question mark' choose 'a* ab ' 'a?'
sees 'a question mark takes no slash' choose 'a.x ' 'a?x'
sees 'a bracket is a bracket' choose '[ab] ' '[ab]'
sees 'a star behind a backslash' choose 'a* ' 'a\*'
sees 'a backslash behind a backslash' choose 'a\b ' 'a\\b'
sees 'a backslash before a letter' choose 'ab ' 'a\b'
sees 'a hyphen' choose '-d ' -d
sees 'two words, of which one takes nothing' choose 'other ' nothing other
# A pattern that a search with steps back would try for ever.
made_up $(for number in $(seq 200); do printf '%0240d%d\n' 0 "$number"; done) > zeros.caps
sees 'a pattern of a hundred stars' exits 3 'grid: 112 BadName' \
    $(over check zeros.caps) -- "$(printf '*0%.0s' $(seq 100))b"
for word in nothing 'x' 'A' '' 'a/x/y' '../a' '**/q'; do
    rm -rf into
    for command in get check repair verify; do
        sees "a $command of '$word'" exits_with "$(last_of $command 0 0)" 3 'grid: 112 BadName' \
            $(over $command made.caps) -- "$word"
    done
done

counts
