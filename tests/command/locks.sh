# One lock for several blocks, and tables of format 2 or before.
# former PART ARGUMENT..: it refuses the table of format 2 or before
former() {
    tried "$1" 1 'former-table: 32 bytes, as a table had in format 2 or before; today.s has 48: plex upgrade table takes' "$@" --quiet
    holds "$1: number 2" grep -q 'refused with number 2, place 0' said
}
former check "$image" former-table
former show "$image" former-table
former run "$image" former-table "$words" "$events"
former link "$image" "$east" former-table --out kept
former state "$image" former-table waiting
former waits "$image" former-table waiting
tried 'a table of a former format, with a trace' 1 'former-table: 32 bytes, as a table had in format 2 or before; today.s has 48' \
    run "$image" former-table "$events" --state waiting
same 'a table of a former format: the file of --out' kept old

# ---- widened, it is the same machine as before: a wait names the lock that has the block's number
tried 'a wait without groups' 0 'waiting for lock 1 of block 1; at label 9, locks 4,' \
    run "$image" lone-table "$words" "$events" --answers answers
printf '\001\000\001\000\001\000\005\000\006\000\005\000\004\001\006\000' >expected
printf '\010\001\006\000\005\000\010\002\006\000\006\000\007\000' >>expected
same 'answers without groups' answers expected
ran 'eight events without groups' apart answered "$image" lone-table "$words" eight
tried 'three locks for three blocks' 0 '^  0  at label 6, locks 0 1 2, return labels 1 4,' state apart

# ---- a state goes with the locks of its table; one where no job runs goes with any
tried 'its own table' 0 '^well formed with' state "$image" lone-table apart
tried 'the table with the group' 1 'thread 0 has label 6 without lock 9 of its block 2$' state "$image" "$table" apart
tried 'the table without groups' 1 'thread 0 has label 6 without lock 2 of its block 2$' state "$image" lone-table waiting
tried 'its number' 1 'refused with number 6, place 0' state "$image" lone-table waiting
for either in "$table" lone-table; do
    tried "no job runs, $either" 0 '^well formed with' state "$image" "$either" left
done

# ---- locks of a state: thread 0 holds 0 and 9, thread 1 holds 4
byte waiting 514 0 bad
tried 'a return label without its lock' 1 'thread 0 has label 1 without lock 0 of its block 0$' \
    state "$image" "$table" bad
byte waiting 803 2 bad
tried 'a lock of two threads' 1 'threads 0 and 1 both hold lock 9$' state "$image" "$table" bad
byte waiting 515 202 bad
tried 'a lock of no block of the image' 0 '^  lock 15 of no block of the image is held by thread 0$' \
    state "$image" "$table" bad

# ---- the audit calls the tariffs while North's job is in its charging: with one lock it waits, and the job
# goes on into the tariffs; with two it is let in, and North's job has to wait half way
byte "$image" 760 6 second
tried 'the second block of a group' 0 '6  step of thread 1, .* waiting for lock 9 of blocks 1 2; at label 9' \
    run second "$table" "$words" eight
holds 'into it without waiting' grep -q '7  step of thread 0, .* moved on; at label 6, locks 0 9,' said
tried 'the same without groups' 0 '6  step of thread 1, .* moved on; at label 6, locks 2 4,' \
    run second lone-table "$words" eight
holds 'held up half way' grep -q '7  step of thread 0, .* waiting for lock 2 of block 2; at label 3' said

# ---- blocks that call each other close a ring, as those of waits.sh, but not if they have one lock
byte "$table" 14 11 with-audit
ran 'one lock for the blocks of a ring' open answered ring with-audit "$words" eight
tried 'no ring' 0 '^thread 1 --lock 9--> thread 0, which does not wait$' waits ring with-audit open
tried 'its blocks' 0 '^lock 9 guards blocks 1 2 4$' waits ring with-audit open

# ---- a lock may guard blocks of two guests, of which one then waits for the other
byte "$table" 17 11 with-east
altered arrival east-arrival 2:15
cat eight east-arrival step-2 >meeting
tried 'guests with one lock' 0 '^linked: together' link "$image" "$east" with-east --out together
tried 'a guest waits for the other' 0 'step of thread 2 *waiting for lock 9 of blocks 1 2 5; idle, locks none' \
    run together with-east "$words" meeting
