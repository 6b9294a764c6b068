#!/bin/sh
# Lists and catalogues that are none, that are too long or that have no end; files of a list that
# cannot be put; and standard output that is full, or that nobody reads.
#
#     tests/many-lists.sh [PROGRAM]
#
# Run by hand: `tests/looks-at-many.sh` says how. It needs a file system that keeps sparse files of
# more than a tebibyte. Where it runs as root, a file that may not be read needs `setpriv`, which
# takes root's right to read all away; else that is skipped, which is told. With TMPDIR in memory it
# takes some seconds.

here=$(cd "$(dirname "$0")/.." && pwd) || exit 2
. "$here/tests/looks-at-many.sh"

makes_grid g
printf 'one' > one
head -c 1000 /dev/urandom > thousand
printf '%s\n' one thousand > two
mkdir folder
"$program" put one thousand --grid g > caps 2> err || exit 2

# Whether nothing was made by commands that were refused.
is_nothing() { [ ! -e none ] && [ ! -e into ]; }

# ---- what is no list and no catalogue

for text in '' 'URI:LIT:n5xgk  x' "$(head_of caps | sed 's/catalogue 1/catalogue 2/')"; do
    printf '%s\n' "$text" > none.caps
    sees "since what is no catalogue: $text" exits_with '' 3 'grid: 110 NotACatalogue' \
        put --files-from two --since none.caps --grid none
    for command in get check repair verify; do
        sees "$command of what is no catalogue: $text" exits_with '' 3 'grid: 110 NotACatalogue' \
            $(over $command none.caps)
    done
done
for words in '--files-from two --since missing' '--files0-from missing'; do
    sees "what is missing: $words" exits_with '' 7 'grid: 90 FileFault missing' \
        put $words --grid none
done
sees 'a list that is a folder' exits_with '' 7 'grid: 90 FileFault folder' \
    put --files-from folder --grid none
sees 'standard input that is the list and a file' exits_with '' 3 'grid: 2 BadParameters' \
    put - --files-from - --grid none < two
sees 'nothing was made then' is_nothing

# ---- too long a list or a catalogue

# Too many names, and too many bytes.
{ yes a | head -n 2097153; } > long.list
tr '\n' '\0' < long.list > long.nuls
for words in '--files-from long.list' '--files0-from long.nuls'; do
    sees "a list of too many names: $words" exits_with '' 3 'grid: 30 TooLarge' \
        put $words --grid none
done
truncate -s 67108865 long.list
sees 'a list of too many bytes' exits_with '' 3 'grid: 30 TooLarge' \
    put --files-from long.list --grid none
rm long.list long.nuls
{ head_of caps; yes 'URI:LIT:n5xgk  one' | head -n 4000000; } > long.caps

# One without an end, from standard input, a FIFO and a device: it is refused at 64 MiB, and no file
# is made for it, so that it is no matter where TMPDIR leads.
mkfifo endless
refuses_endless() {
    yes a > endless 2> /dev/null &
    writer=$!
    before="env TMPDIR=$room/nowhere"
    yes a 2> /dev/null | exits_with '' 3 'grid: 30 TooLarge' "$@"
    refused=$?
    before=
    kill -KILL $writer 2> /dev/null
    wait $writer 2> /dev/null
    return $refused
}
for words in 'put --grid none --files-from' 'put --grid none --files0-from' \
    'put one --grid none --since' get check repair verify; do
    for way in - endless /dev/zero long.caps; do
        case "$words $way" in
            *-from\ long.caps) continue ;;
            put*) set -- $words $way ;;
            *) set -- $(over "$words" $way) ;;
        esac
        sees "too long: $*" refuses_endless "$@"
    done
done
rm long.caps
# Up to there it is read: a line that is none is seen in it.
checks_cut() { { head_of caps; yes 2> /dev/null; } | head -c "$1" | exits 3 "$2" $(over check -); }
sees 'a catalogue of 64 MiB' checks_cut 67108864 'grid: 111 NotALine 2'
sees 'a catalogue of a byte more' checks_cut 67108865 'grid: 30 TooLarge'
sees 'nothing was made for these' is_nothing

# ---- lists, and the files that they name

: > nothing
sees 'an empty list' exits 0 '' put --files0-from nothing --grid g
sees 'its first line alone' [ "$(wc -l < out)" = 1 ]
printf 'one\0\0missing\0one' > list
sees 'names twice, an empty one and one that is missing' exits 7 \
    'grid: 90 FileFault missing (missing)' put --files0-from list --grid g
sees 'two lines of the name' [ "$(tail -n +2 out)" = 'URI:LIT:n5xgk  one
URI:LIT:n5xgk  one' ]
sees 'the empty name is told' grep -qxF 'grid: 90 FileFault  ()' err
cp out twice.caps
sees 'a get of a name that stands twice' exits 7 'grid: 90 FileFault into/one (one)' \
    $(over get twice.caps)
sees 'a get that may replace it' exits 0 '' $(over get twice.caps) --overwrite
rm -rf into
truncate -s 1099511627777 large
sees 'the status of the first refusal, 3' exits 3 'grid: 90 FileFault missing (missing)' \
    put large one missing --grid g
sees 'the line between' [ "$(tail -n +2 out)" = 'URI:LIT:n5xgk  one' ]
sees 'the status of the first refusal, 7' exits 7 'grid: 30 TooLarge (large)' \
    put missing one large --grid g
truncate -s 1100000000 large
sees 'too many segments' exits 3 'grid: 31 TooManySegments (large)' \
    put one large --grid g --segment 1000
rm large

# A name that is no UTF-8 is a wrong word, and nothing is done; in a list it is refused alone.
no_text=$(printf 'bad\377') as_told=$(printf 'bad\357\277\275')
printf 'two' > "$no_text"
for words in 'put one --grid none' 'put --grid none' 'put --files-from two --grid none' \
    "$(over get caps)" "$(over check caps)" "$(over repair caps)" "$(over verify caps)"; do
    sees "a word that is no UTF-8: $words" \
        exits_with '' 2 "For more information, try '--help'." $words "$no_text"
done
sees 'nothing was made for these words' is_nothing
printf '%s\n' "$no_text" one > list
tr '\n' '\0' < list > list.nuls
for words in '--files-from list' '--files0-from list.nuls'; do
    sees "a name of a list that is no UTF-8: $words" \
        exits_with 'URI:LIT:n5xgk  one' 7 "grid: 90 FileFault $as_told ($as_told)" \
        put $words --grid g
done

# Where too few servers are there, files that their caps hold are stored still.
makes_grid small
rm -rf small/server-00[0-2]
sees 'too few servers' exits 4 'grid: 70 Unhappy reached 3 wanted 5 (thousand)' \
    put one thousand thousand --grid small
sees 'the line of the one that its cap holds' [ "$(tail -n +2 out)" = 'URI:LIT:n5xgk  one' ]
sees 'both are told' [ "$(grep -c '^grid: 70 Unhappy reached 3 wanted 5 (thousand)$' err)" = 2 ]

# What may not be read.
printf 'closed' > closed && chmod 0 closed
if [ "$(id -u)" = 0 ]; then
    rights=-dac_override,-dac_read_search
    before="setpriv --bounding-set=$rights --inh-caps=$rights"
fi
if $before true 2> err && ! $before cat closed > out 2> err; then
    sees 'a file that may not be read' exits 7 'grid: 90 FileFault closed (closed)' \
        put closed one --grid g
    sees 'the one behind it' [ "$(tail -n +2 out)" = 'URI:LIT:n5xgk  one' ]
    { head_of caps; echo 'URI:LIT:mnwg643fmq  closed'; } > closed.caps
    sees 'a verify of it' exits_with "$(last_of verify 1 0)" 7 \
        'grid: 90 FileFault closed (closed)' verify --caps closed.caps
    mkdir shut && chmod 0 shut
    sees 'a get into a folder that may not be written' exits 7 'grid: 90 FileFault shut/one (one)' \
        get --caps twice.caps --into shut --grid g
else
    echo 'skipped: no file can be closed to root without setpriv'
fi
before=

# ---- standard output that is full, or that nobody reads

# What each command prints of so many long names is more than a pipe holds.
mkdir k
for number in $(seq 300); do
    printf 'file %0100d of many' "$number" > "k/$(printf %0240d "$number")"
done
find k -type f | LC_ALL=C sort > list
put='put --files-from list --grid g --no-sync'
"$program" $put > k.caps 2> err
# No command keeps a file open behind it: twenty are enough for six servers.
for words in "$put" "$(over get k.caps)" "$(over check k.caps) --strict" \
    "$(over repair k.caps) --no-sync" "$(over verify k.caps)"; do
    opens_few() { (ulimit -n 20; exits 0 '' $words); }
    sees "few open files: $words" opens_few
done
rm -rf into
# Whether a command over these files tells that its output fails: a full disk, a reader that is
# gone, and one that reads a few bytes.
is_output_told() { [ "$1" = 7 ] && [ "$(tail -n 1 err)" = 'grid: 99 OutputFault' ]; }
tells_output() {
    "$program" "$@" > /dev/full 2> err
    is_output_told $? || return 1
    for reader in : 'head -c 20'; do
        { "$program" "$@" 2> err; echo $? > status; } | $reader > part
        is_output_told "$(cat status)" || return 1
    done
}
for words in "$put" "$put --since k.caps" "$(over check k.caps)" "$(over check k.caps) --json" \
    "$(over repair k.caps) --no-sync" 'verify --caps k.caps'; do
    sees "output that fails: $words" tells_output $words
done
full_status() {
    "$program" status --grid g > /dev/full 2> err
    is_output_told $?
}
sees 'a status whose output fails' full_status
full_error() {
    "$program" put missing one --grid g > out 2> /dev/full
    [ $? = 7 ]
}
sees 'standard error that is full' full_error
# A put whose output failed stores no further files.
makes_grid short
{ "$program" put --files-from list --grid short --no-sync 2> err; } | head -c 20 > part
sees 'it ended early' [ "$(count_shares short)" -lt 1800 ]
full_get() { "$program" $(over get k.caps) > /dev/full 2> err; }
sees 'a get of many prints nothing, and so does not fail' full_get

counts
