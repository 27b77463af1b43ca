# No file that is read is written: under no name, and before anything is read.
for file in image table words events; do
    cp "good/case.$file" "read.$file"
done
cp "$east" read.east
cp waiting read.state
mkdir read-through
for file in image table words events east state; do
    ln "read.$file" "read.$file-2"
    ln -s "../read.$file" "read-through/$file"
    cp "read.$file" "unread.$file"
done

# kept_apart FILE OPTION PART ARGUMENT..: the option names the file that the part reads, by each of its names
kept_apart() {
    file=$1 option=$2
    shift 2
    for output in "read.$file" "./read.$file" "$PWD/read.$file" "read.$file-2" "read-through/$file"; do
        tried "$1: $option $output" 2 "^plex: $option $output is the same file as .*read.$file, which is read$" \
            "$@" "$option" "$output"
        same "$1: $option $output" "read.$file" "unread.$file"
    done
}
for input in image table words events; do
    kept_apart "$input" --out run read.image read.table read.words read.events
    kept_apart "$input" --answers run read.image read.table read.words read.events
done
for input in image table events; do
    kept_apart "$input" --out run read.image read.table read.events --state read.state
done
kept_apart state --answers run read.image read.table read.events --state read.state
for input in image east table; do
    kept_apart "$input" --out link read.image read.east read.table
done
for input in image table state; do
    kept_apart "$input" --svg waits read.image read.table read.state
done
tried 'before anything is read' 2 '--out read.events is the same file as read.events, which is read' \
    run nowhere nowhere nowhere read.events --out read.events
tried 'a file that is not there yet' 2 '--out ./nowhere is the same file as nowhere, which is read' \
    run nowhere "$table" "$words" "$events" --out ./nowhere
tried 'a file in no folder' 2 '--out nowhere/x is the same file as nowhere/x, which is read' \
    run nowhere/x "$table" "$words" "$events" --out nowhere/x
tried 'another file of two' 2 '--answers read.words is the same file as read.words, which is read' \
    run read.image read.table read.words read.events --out new --answers read.words
tried 'an output that is two files' 2 '--out read.state is the same file as read.state, which is read' \
    run read.image read.table read.state --state read.state --out read.state

# ---- standard input and devices
# from_input NAME FILE PATTERN ARGUMENT..: the file is standard input, and one file read is an output
from_input() {
    name=$1 file=$2 pattern=$3
    shift 3
    "$plex" "$@" <"$file" >said 2>&1
    holds "$name: status" [ $? = 2 ]
    holds "$name: no '$pattern'" grep -qe "$pattern" said
}
from_input 'standard input' read.table '^plex: --out read.table-2 is the same file as standard input, which is read$' \
    link "$image" "$east" - --out read.table-2
from_input 'standard input as an output' read.events '^plex: --out /dev/stdin is the same file as standard input,' \
    run "$image" "$table" "$words" - --out /dev/stdin
from_input 'standard input by its device' read.events '^plex: --out read.events is the same file as /dev/stdin,' \
    run "$image" "$table" "$words" /dev/stdin --out read.events
from_input 'a device' /dev/null '^plex: --out /dev/null is the same file as /dev/null, which is read$' \
    run "$image" "$table" "$words" /dev/null --out /dev/null
from_input 'a device as standard input' /dev/null '^plex: --out /dev/null is the same file as standard input,' \
    run "$image" "$table" "$words" - --out /dev/null
tried 'standard input that is not read' 0 'all threads idle' run "$image" "$table" "$words" "$events" --out /dev/null
(cd read-through && "$plex" run "../$image" "../$table" "../$words" - --quiet --out ./- <"../$events" >../said 2>&1)
holds 'a file called -: status' [ $? = 0 ]

# ---- standard output
"$plex" check "$image" read.table >>read.table 2>said
holds 'printed into what is read: status' [ $? = 2 ]
holds 'printed into what is read' grep -q '^plex: standard output is the same file as read.table, which is read$' said
"$plex" run "$image" "$table" "$events" --state read.state >>read.state-2 2>said
holds 'printed into a state: status' [ $? = 2 ]
"$plex" check "$image" - <read.table >>read.table 2>said
holds 'printed into standard input: status' [ $? = 2 ]
holds 'printed into standard input' grep -q 'standard output is the same file as standard input, which is read$' said
"$plex" check "$image" read.table --quiet >>read.table 2>said
holds 'not printed into what is read: status' [ $? = 0 ]
for file in image table words events east state; do
    same 'read and not written' "read.$file" "unread.$file"
done

# ---- the one file that is read and written: a state to go on with, under each of its names
"$plex" run "$image" "$table" "$events" --state waiting --quiet --out went-on
for output in read.state ./read.state read-through/state; do
    cp unread.state read.state
    tried "on with $output" 0 '^15 events' run "$image" "$table" "$events" --state read.state --out "$output"
    same "on with $output" read.state went-on
done
cp unread.state read.state
"$plex" run "$image" "$table" "$events" --state - --quiet --out read.state <read.state
same 'on with a state from standard input' read.state went-on
