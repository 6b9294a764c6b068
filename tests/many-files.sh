#!/bin/sh
# Commands over many files: a tree of odd names, its catalogue, and files that change.
#
#     tests/many-files.sh [PROGRAM]
#
# Run by hand: `tests/looks-at-many.sh` says how. A tree of odd names, links, pipes and a sparse
# file is put by a list; its catalogue is put itself, got back, checked, repaired, verified and gone
# on from. Then files change and go while others are put. Names are read by `tests/many_files.py`.
#
# It needs a file system that keeps sparse files of a tebibyte, and some 2 GB on it. With TMPDIR in
# memory it takes two minutes on a busy machine.

here=$(cd "$(dirname "$0")/.." && pwd) || exit 2
. "$here/tests/looks-at-many.sh"

# Does something in the tree.
in_t() { (cd t && "$@"); }

# The names of a list, each behind a NUL: of all below the current folder, in one order.
list_all() { find . "$@" -print0 | LC_ALL=C sort -z; }

# ---- a tree of odd names

many tree t || exit 2
makes_grid g
in_t list_all > all
in_t list_all ! -name sparse > few
sleep 2.5
sees 'a put of an odd tree' in_t exits 7 'grid: 90 FileFault ./up (./up)' \
    put --files0-from - --grid ../g < all
cp out caps && cp err told
sees 'its lines and its refusals' in_t many listed nul ../all ../caps ../told

# A list with a name a line has other names where a name has a line feed.
tr '\0' '\n' < few > lines
sees 'a put of lines' in_t exits 7 'grid: 90 FileFault ./up (./up)' \
    put --files-from - --grid ../g < lines
sees 'the lines of a put of lines' in_t many listed line ../lines ../out ../err

# Names that begin with a hyphen, `-` among them, are names in a list.
in_t list_all -mindepth 1 -maxdepth 1 ! -name sparse | sed -z 's|^\./||' > bare
sees 'a put of bare names' in_t exits 7 'grid: 90 FileFault up (up)' \
    put --files0-from ../bare --grid ../g < /dev/null
sees 'the lines of a put of bare names' in_t many listed nul ../bare ../out ../err
cp out bare.caps
sees 'a put of odd words' in_t exits 0 '' put --grid ../g -- -dash '*' --grid
sees 'its three lines' [ "$(names_of out)" = '-dash * --grid ' ]

# ---- the catalogue, as one that keeps a folder by one cap

count=$(count_of caps)
sees 'a put of the catalogue' exits 0 '' put caps --grid g -q
cp out cap
gives_caps() { exits 0 '' get --cap-file cap --grid g && cmp -s out caps; }
sees 'a get of the catalogue' gives_caps
gets_all() {
    "$program" get --cap-file cap --grid g | exits 0 '' get --caps - --into back --grid g
}
sees 'a get of all from the cap of the catalogue' gets_all
sees 'nothing on standard output then' [ ! -s out ]
sees 'all files came back' many same caps t back
sees 'a second get, which replaces them' exits 0 '' \
    get --caps caps --into back --grid g --overwrite
sees 'they are the same' many same caps t back
sees 'a get of bare names' exits 0 '' get --caps bare.caps --into bare.back --grid g
sees 'these came back' many same bare.caps t bare.back

# Whether a command's output is a line for each file, with these words or those of a file that its
# cap holds, and then a last line.
has_lines() {
    many lines caps "$1" "$2" > wanted && echo "$3" >> wanted && cmp -s out wanted
}
well='healthy yes recoverable yes happiness 6'
sees 'a check of all' exits 0 '' check --caps caps --grid g --strict
sees 'a check of all: its lines' has_lines "$well" literal "$(last_of check $count $count)"
checks_piped() { "$program" check --caps - --grid g < caps | cmp -s - out; }
sees 'a check of a catalogue that comes through a pipe' checks_piped
sees 'a check of all for programs' exits 0 '' check --caps caps --grid g --json
sees 'its objects' many objects caps out yes 6
# A repair wants seven servers where it is not said, whatever ways the grid has.
sees 'a repair of all that are healthy' exits 0 '' $(over repair caps)
sees 'a repair of all that are healthy: its lines' \
    has_lines 'happiness 6' literal "$(last_of repair $count $count)"

# The large file is left out from here on, since it takes most of the time.
grep -v '  \./sparse$' caps > smaller && mv smaller caps
rm t/sparse back/sparse
count=$(count_of caps)
for server in 0 2 5; do
    rm g/server-00$server/*.*
done
literals=$(grep -c '^\\*URI:LIT' caps)
sees 'a check without three servers of six' exits 0 '' $(over check caps)
sees 'a check without three servers of six: its lines' \
    has_lines 'healthy no recoverable yes happiness 3' literal \
    "files $count healthy $literals recoverable $((count - literals)) lost 0"
sees 'a strict check without them' exits 5 '' $(over check caps) --strict
sees 'objects of a check without them' exits 0 '' $(over check caps) --json
sees 'they tell it' many objects caps out no 3
sees 'a repair of all' exits 0 '' $(over repair caps)
sees 'a repair of all: its lines' has_lines 'happiness 6' literal "$(last_of repair $count $count)"
sees 'a check behind it' exits_with "$(last_of check $count $count)" 0 '' \
    $(over check caps) --strict

# One content under four names is lost.
cap=$(sed -n 's|  \./x$||p' caps)
index=$("$program" cap "$cap" | sed -n 's/^verify URI:CHK-Verifier:\([^:]*\):.*/\1/p')
rm g/server-00[0-3]/"$index".*
sees 'a check where one content is lost' \
    exits_with "files $count healthy $((count - 4)) recoverable 0 lost 4" 5 '' $(over check caps)
sees 'its four lines' [ "$(grep -c '^healthy no recoverable no happiness 2  ' out)" = 4 ]
sees 'a repair where it is lost' exits_with "$(last_of repair $count $((count - 4)))" 5 \
    'grid: 71 NotEnoughShares (./x)' $(over repair caps)
sees 'what it tells' [ "$(grep -c '^grid: 71 NotEnoughShares (' err)" = 4 ]
rm -rf back
sees 'a get where it is lost' exits 5 'grid: 71 NotEnoughShares (./x)' \
    get --caps caps --into back --grid g
sees 'the others came' [ "$(find back -type f -printf x | wc -c)" = $((count - 4)) ]
sees 'a put of the lost file' in_t exits 0 '' put x --grid ../g
sees 'a get of what was lost' exits 0 '' get --caps caps --into back --grid g \
    x hard-link file-link link-to-link
sees 'now all came' many same caps t back

# ---- verify

sees 'a verify of all' in_t exits 0 '' verify --caps ../caps
sees 'a verify of all: its lines' has_lines same same "$(last_of verify $count $count)"
sees 'a verify of what came back' exits 0 '' verify --caps caps --into back
sees 'a verify of what came back: its lines' has_lines same same "$(last_of verify $count $count)"
printf '\001' 1<> back/ab
rm back/x 'back/[ab]' && mkfifo 'back/[ab]' && rm back/a && mkdir back/a && : > back/a/b
sees 'a verify where four are not as they were' \
    exits_with "files $count same $((count - 4)) differ 1 refused 3" 7 \
    'grid: 90 FileFault back/x (./x)' verify --caps caps --into back
sees 'which differs' [ "$(grep '^differs' out)" = 'differs  ./ab' ]
tells_verify() {
    for name in x '[ab]' a; do
        grep -qxF "grid: 90 FileFault back/$name (./$name)" err || return 1
    done
}
sees 'which are refused' tells_verify
sees 'a verify of one that differs' exits 5 '' verify --caps caps --into back ab
sees 'a verify under another secret' exits_with '' 3 'grid: 2 BadParameters' \
    verify --caps caps --into back --secret other

# ---- put --since

# Nothing is read of files that stay as they are: they are put into a grid that has no share, and
# gets none.
in_t list_all -type f > regular
in_t "$program" put --files0-from ../regular --grid ../g > first.caps 2> err
sees 'a put of regular files' [ -s first.caps ]
makes_grid empty
# A put of the list since a catalogue into the grid without shares.
puts_since() {
    in_t "$program" put --files0-from ../regular --since "$1" --grid ../empty > since.caps 2> err
}
is_kept() { tail -n +2 first.caps > one && tail -n +2 since.caps | cmp -s - one; }
puts_since ../first.caps
sees 'a put since a catalogue keeps its lines' is_kept
sees 'no share was made' [ "$(count_shares empty)" = 0 ]
puts_since - < first.caps
sees 'a catalogue that is standard input' is_kept
sees 'no share was made then' [ "$(count_shares empty)" = 0 ]

# What changed is read: other bytes under the old time and length, more bytes, a new name, a link
# in place of a file, and a file that was only touched.
cp -p t/ab when && printf 'x' 1<> t/ab && touch -r when t/ab
printf 'more' >> t/x
printf 'a new file, of more bytes than a cap holds, so that it needs shares' > t/new
rm t/.hidden && ln -s back\\slash t/.hidden
touch t/--grid
rm 't/[ab]'
in_t list_all ! -type d > regular
in_t "$program" put --files0-from ../regular --grid ../g > anew.caps 2> anew.err
puts_since ../first.caps
sees 'the lines of a put since a catalogue, of files that changed' \
    [ "$(tail -n +2 since.caps)" = "$(tail -n +2 anew.caps)" ]
sees 'what it tells' cmp -s err anew.err
# Those that changed and the links were put, each content once.
changed=$(grep -E '  \./(ab|x|hard-link|new|\.hidden|--grid|file-link|link-to-link)$' anew.caps |
    sed -n 's/^\\*\(URI:CHK:[^ ]*\)  .*/\1/p' | sort -u | wc -l)
sees 'shares of what changed alone' [ "$(count_shares empty)" = $((6 * changed)) ]

# Other numbers, another secret and a time to come read all files anew.
printf '%s\n' x ab back\\slash > three
sleep 2.5
in_t "$program" put --files-from ../three --grid ../g > three.caps 2> err
# Whether a put since a catalogue, with these words, makes shares of so many files, and tells $why.
makes() {
    files=$1 since=$2
    shift 2
    rm -rf other && makes_grid other &&
        in_t exits 0 "$why" put --files-from ../three --grid ../other --since "../$since" "$@" &&
        [ "$(find_shares other | sed 's|.*/||; s|\..*||' | sort -u | wc -l)" = "$files" ] &&
        [ "$(count_of out)" = 3 ]
}
why=
sees 'the same numbers' makes 0 three.caps
contents=$(tail -n +2 three.caps | sed 's/  .*//' | grep -c CHK)
sed 's/begun [0-9]*/begun 99999999999/' three.caps > later.caps
why='all files are read: the catalogue was begun with other numbers or another secret, or later'
why="$why than now by the clock"
for words in 'three.caps --k 2' 'three.caps --n 5' 'three.caps --segment 1000' \
    'three.caps --secret other' later.caps; do
    sees "files that are all read: $words" makes "$contents" $words
done
why=
sees 'another number for --happy' makes 0 three.caps --happy 3
{ head_of three.caps; tail -n 1 three.caps; echo; sed -n 2,3p three.caps; } > broken.caps
why='line 3 of the catalogue is none, and what follows it is not looked at'
sees 'a catalogue with an empty line' makes $((contents - 1)) broken.caps
why=
# The last of several lines of a name counts, and a verify cap keeps no line.
{ cat three.caps; sed -n 3p three.caps | sed 's|  .*|  x|'; } > double.caps
sees 'two lines of a name, the last of another size' makes 1 double.caps
sed -n 2p three.caps >> double.caps
sees 'three lines of a name, the last of its size' makes 0 double.caps
sed "2s|.*|$("$program" cap "$(sed -n '2s/  .*//p' three.caps)" |
    sed -n 's/^verify //p')  x|" three.caps > verify.caps
sees 'a line with a verify cap' makes 1 verify.caps
# A file of a tebibyte could not be read in this time.
truncate -s 1T t/huge && sleep 2.5
{
    in_t "$program" put --files-from ../three --grid ../g --segment 1048576 2> err | head -n 1
    echo "$(sed -n '2s/:[0-9]*:[0-9]*:[0-9]*  .*//p' three.caps):3:6:1099511627776  huge"
} > huge.caps
keeps_huge() {
    in_t exits 0 '' put huge --since ../huge.caps --grid ../g --segment 1048576 &&
        [ "$(sed -n 2p out)" = "$(sed -n 2p huge.caps)" ]
}
sees 'a file of a tebibyte keeps its line' keeps_huge
rm -rf t back bare.back g empty other

# ---- files that change and go while others are put

# Begins a put of a list to the grid new, waits until it writes the shares of its first file, and
# does what the words say. The put has to end with 7, tell this, and have lines of these files.
looks_meanwhile() {
    way=$1 told=$2 names=$3
    shift 3
    rm -rf new && makes_grid new
    printf 'gone' > gone
    rm -f large && truncate -s 120M large
    "$program" put --files-from list --grid new --no-sync > out 2> err &
    putting=$!
    for turn in $(seq 600); do
        [ "$(find new -name '*.open' | wc -l)" = 6 ] && break
        kill -0 $putting 2> /dev/null || break
        sleep 0.05
    done
    "$@"
    wait $putting
    sees "a file that is $way: the status" [ $? = 7 ]
    sees "a file that is $way: it is told" [ "$(grep -v -e '^made ' -e '^gone: ' err)" = "$told" ]
    sees "a file that is $way: the others have lines" [ "$(names_of out)" = "$names" ]
}
printf 'one' > one
head -c 1000 /dev/urandom > thousand
printf '%s\n' large one gone thousand > list
looks_meanwhile removed 'grid: 90 FileFault gone (gone)' 'large one thousand ' rm gone
looks_meanwhile cut 'grid: 74 SourceChanged (large)' 'one gone thousand ' truncate -s 1M large
cp out after.caps
sees 'the shares of the others stand' exits 0 '' check --caps after.caps --grid new --strict
looks_meanwhile overwritten 'grid: 74 SourceChanged (large)' 'one gone thousand ' \
    dd if=/dev/urandom of=large bs=1M count=120 conv=notrunc status=none

counts
