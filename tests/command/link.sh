# plex link: two images for one table.
tried 'a link' 0 '^linked: both, 28 records, 13 of good/case.image and 15 of good/east.image; labels of good/east.image are 13 higher$' \
    link "$image" "$east" "$table" --out both
same 'the linked image that the demo writes' both "$demo_image"
tried 'the check of the linked image' 0 'accepted: both, 28 records in 10 blocks' check both "$table"
head -c 1092 both >part
same 'the first image' part "$image"
tried "the second image's labels" 0 '^   13  external  ASSIGN w0 := w0 + r0, on to 14$' show both
tried 'both labels of a statement' 0 '^   14            SEND JOBTREE to 16 WITH w0, on to 15$' show both
tried 'the label of a division' 0 '^   21            DIVIDE r0, w0 := r0 / r1, on to 22$' show both
tried 'the label of a decimal sum' 0 '^   24  external  DECIMAL ADD w0 := w0 + r0, on to 25$' show both
tried 'the label of an unpacking' 0 '^   25            UNPACK r0 := r0, on to 26$' show both
tried 'a link of a packing' 0 '^linked: packed, 28 records' link "$image" packing "$table" --out packed
tried 'its label' 0 '^   25            PACK r0 := r0, on to 26$' show packed
tail -c 84 both >part
tail -c 84 "$east" >exit
same 'labels that are not used' part exit

# ---- each guest's events on the linked image
ran 'the first guest alone' alone answered "$image" "$table" "$words" "$events"
ran 'the first guest' linked answered-2 both "$table" "$words" "$events"
same 'answers of the first guest' answered answered-2
same 'state of the first guest' alone linked
tried 'the other way round' 0 '^linked: turned, 28 records, 15 of .*; labels of good/case.image are 15 higher$' \
    link "$east" "$image" "$table" --out turned
altered "$events" moved 2:17 57:27 112:30
ran 'the second guest' linked answered-2 turned "$table" "$words" moved
same 'answers of the second guest' answered answered-2
same 'state of the second guest' alone linked
# after eight events thread 0 is inside two calls, thread 1 inside a job, and tree 1 has a signal
head -c 440 moved >moved-eight
altered waiting waiting-2 512:25 517:20 519:23 800:30 3245:27
ran 'the second guest at work' linked answered-2 turned "$table" "$words" moved-eight
same 'state of the second guest at work' waiting-2 linked
# thread 2 is inside a job that holds a signal
altered to-holding moved 2:15
altered holding holding-2 1088:17 1164:20
ran 'the second guest with a held signal' linked answered-2 both "$table" "$words" moved
same 'state of the second guest with a held signal' holding-2 linked

# ---- a machine that runs goes on with a guest linked behind its image, and back without it
tail -c +441 "$events" >rest
ran 'a machine that runs' linked answered-2 both "$table" rest --state waiting
same 'a machine that runs' alone linked
ran 'eight more events' left-2 answered-2 both "$table" eight --state linked
ran 'the rest on the shorter image' left-3 answered-2 "$image" "$table" rest --state left-2
ran 'all of them on the shorter image' left-2 answered-2 "$image" "$table" "$events" --state alone
same 'back to the shorter image' left-2 left-3

# ---- refused, with nothing altered
# unlinked NAME PATTERN FIRST SECOND TABLE
unlinked() {
    name=$1 pattern=$2
    shift 2
    tried "$name" 1 "$pattern" link "$@" --out kept
    same "$name: the file of --out" kept old
}
head -c 100 "$image" >short
repeated exit 513 long
repeated exit 500 many-exits
head -c 43008 long >most-exits
tr '\011' '\004' <most-exits >other-exits
byte "$image" 508 143 bad
byte "$east" 84 20 bad-east
byte "$table" 19 2 bad-table
look_around
unlinked 'no such file' 'nowhere: cannot be read: No such file' "$image" nowhere "$table"
unlinked 'short first' '^plex: short: 100 bytes; an image is' short "$east" "$table"
unlinked 'short second' '^plex: short: 100 bytes; an image is' "$image" short "$table"
unlinked 'long second' '^plex: long: 43,092 bytes; an image is' "$image" long "$table"
unlinked 'both of a wrong length' '^plex: short: 100 bytes' short long "$table"
unlinked 'a length before a record' '^plex: short: 100 bytes' bad short "$table"
unlinked 'a length before the table' '^plex: short: 100 bytes' "$image" short empty
unlinked 'its number' 'refused with number 1, place 0' "$image" short "$table"
unlinked 'short table' '^plex: empty: 0 bytes; a block table is 48' bad "$east" empty
unlinked 'a bad table before a record' 'bad-table: block 6 (thread 3, kind 2, lock 6) has a field' bad "$east" bad-table
unlinked 'a record of the first' '^plex: bad: the record at label 6 (block 2) breaks a rule' bad "$east" "$table"
unlinked 'a record of the second' '^plex: bad-east: the record at label 1 (block 5) breaks a rule' \
    "$image" bad-east "$table"
unlinked 'why' 'opcode 16 is none of 1 to 15' "$image" bad-east "$table"
unlinked 'its place' 'refused with number 4, place 1$' "$image" bad-east "$table"
unlinked 'a record of each' '^plex: bad: the record at label 6' bad bad-east "$table"
unlinked 'a block of both' '^plex: both and good/east.image: both images name the same block$' both "$east" "$table"
unlinked 'which block' '^      both have records in block 9$' both exit "$table"
unlinked 'which blocks of the second' '^      both have records in blocks 5 6 7 8 9$' both "$east" "$table"
unlinked 'which blocks' '^      both have records in blocks 0 1 2 3 4$' both "$image" "$table"
unlinked 'the number of a block of both' 'refused with number 13, place 0' both "$east" "$table"
unlinked 'too many records' ': the images have more than 512 records together$' "$image" many-exits "$table"
unlinked 'how many' '^      13 and 500 records are 513, and an image has at most 512$' "$image" many-exits "$table"
unlinked 'how many at most' '^      512 and 512 records are 1,024, and an image' most-exits other-exits "$table"
unlinked 'the number of too many' 'refused with number 14, place 0' "$image" many-exits "$table"
unlinked 'a block of both before too many records' 'refused with number 13' both many-exits "$table"
nothing_left 'refused links'
repeated exit 499 many-exits
tried 'the most records' 0 '^linked: most, 512 records, 13 of' link "$image" many-exits "$table" --out most

# ---- the file that is written
tried 'no --out' 2 '--out is missing' link "$image" "$east" "$table"
"$plex" link "$image" "$east" - --out new-link <"$table" >said 2>&1
holds 'a table from standard input: status' [ $? = 0 ]
same 'a table from standard input' new-link both
"$plex" link - "$east" "$table" --out=own <"$image" >said 2>&1
holds 'an image from standard input: status' [ $? = 0 ]
holds 'an image from standard input' grep -q '13 of standard input and 15 of good/east.image' said
same 'an image from standard input' own both
tried 'standard input twice' 2 'stands for one file alone' link - - "$table" --out own
look_around
"$plex" link "$image" "$east" "$table" --out kept >/dev/full 2>said
holds 'a link to a full standard output: status' [ $? = 1 ]
same 'a link to a full standard output: the file of --out' kept old
tried 'a link to a full device' 1 '/dev/full: cannot be written: No space left' \
    link "$image" "$east" "$table" --out /dev/full
tried 'no linked image' 1 'nowhere/image: cannot be written' link "$image" "$east" "$table" --out nowhere/image
nothing_left 'links that are not written'
rm own
"$plex" link "$image" "$east" "$table" --quiet --out own >said 2>&1
holds 'a quiet link: status' [ $? = 0 ]
holds 'a quiet link speaks' [ ! -s said ]
same 'a quiet link' own both
