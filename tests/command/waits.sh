# plex waits.
tried 'a wait' 0 '^thread 1 --lock 9--> thread 0, which does not wait$' \
    waits "$image" "$table" waiting
tried 'the blocks of its lock' 0 '^lock 9 guards blocks 1 2$' waits "$image" "$table" waiting
holds 'no other lock' [ "$(wc -l <said)" = 2 ]
tried 'no wait' 0 'no thread waits' waits "$image" "$table" left
tried 'a graph' 0 '  t1 -> t0 \[label="lock 9"\];' waits "$image" "$table" waiting --dot
tried 'waits in a short state' 1 'short-state: 9,632 bytes; a state is' \
    waits "$image" "$table" short-state
# North's charging calls the audit: label 3 goes to 10, whose entry is direct
byte "$image" 256 12 ring-1
byte ring-1 842 1 ring
tried 'into a ring' 0 '2  waiting' run ring "$table" "$words" eight --summary --out closed
tried 'a ring' 3 '^thread 0 --lock 4--> thread 1 --lock 9--> thread 0 again: a ring$' waits ring "$table" closed
holds 'a ring is said once' [ "$(grep -c 'a ring' said)" = 1 ]
holds 'nothing but a ring, what opens it and its locks' [ "$(wc -l <said)" = 4 ]
holds 'what opens a ring' grep -q '^  to open it, cut thread 1 and then, in the same call, step thread 0$' said
tried 'a lock of the ring' 3 '^lock 4 guards block 4$' waits ring "$table" closed
tried 'the other lock of the ring' 3 '^lock 9 guards blocks 1 2$' waits ring "$table" closed
tried 'a ring in the graph' 3 't0 -> t1 \[label="lock 4", color=red\]' \
    waits ring "$table" closed --dot
"$plex" waits ring "$table" closed --quiet >said 2>&1
holds 'a ring, quietly: status' [ $? = 3 ]
holds 'a ring, quietly' [ ! -s said ]
"$plex" waits ring "$table" closed >/dev/full 2>said
holds 'a ring to a full standard output: status' [ $? = 1 ]

# ---- what opens it does: the job is cut, the one before it moves on, and no ring is left
byte step 0 3 cut
byte cut 1 1 cut-1
byte step 1 0 step-0
cat cut-1 step-0 >opening
ran 'what opens a ring' opened answered ring "$table" opening --state closed
printf '\011\000\006\000' >expected
same 'the answers to what opens a ring' answered expected
tried 'an opened ring' 0 '^no thread waits$' waits ring "$table" opened

# ---- two rings, and threads that wait for one of them. Block b is on thread b with lock b; its labels are 3 x b, a CALL into
# another block, 3 x b + 1, EXIT, and 3 x b + 2, where it is called and does RETURN
# bytes NUMBER..
bytes() {
    for number; do
        printf '%b' "\\0$(printf %o "$number")"
    done
}
: >rings-image
: >rings-table
: >rings-events
: >rings-steps
block=0
for called in 1 2 0 2 5 4 3 7; do
    { bytes 7 $block 3 0 $((3 * called + 2)) 0 $((3 * block + 1)) 0; head -c 76 /dev/zero; } >>rings-image
    { bytes 10 $block; head -c 82 /dev/zero; bytes 8 $block 1; head -c 81 /dev/zero; } >>rings-image
    bytes $block 1 $block >>rings-table
    { bytes 1 0 $((3 * block)); head -c 52 /dev/zero; } >>rings-events
    { bytes 2 $block; head -c 53 /dev/zero; } >>rings-steps
    block=$((block + 1))
done
head -c 24 /dev/zero >>rings-table
cat rings-steps >>rings-events
ran 'into two rings' rings answered rings-image rings-table "$words" rings-events
cat >expected <<'END'
thread 0 --lock 1--> thread 1 --lock 2--> thread 2 --lock 0--> thread 0 again: a ring
  to open it, cut thread 2 and then, in the same call, step thread 1
thread 3 --lock 2--> thread 2, which is on a ring
thread 4 --lock 5--> thread 5 --lock 4--> thread 4 again: a ring
  to open it, cut thread 5 and then, in the same call, step thread 4
thread 6 --lock 3--> thread 3 --lock 2--> thread 2, which is on a ring
lock 0 guards block 0
lock 1 guards block 1
lock 2 guards block 2
lock 3 guards block 3
lock 4 guards block 4
lock 5 guards block 5
END
tried 'two rings' 3 'a ring' waits rings-image rings-table rings
same 'two rings' said expected
{ bytes 3 2; head -c 53 /dev/zero; bytes 2 1; head -c 53 /dev/zero; } >opening
{ bytes 3 5; head -c 53 /dev/zero; bytes 2 4; head -c 53 /dev/zero; } >>opening
ran 'what opens two rings' opened answered rings-image rings-table opening --state rings
bytes 9 0 6 0 9 0 6 0 >expected
same 'the answers to what opens two rings' answered expected
tried 'two opened rings' 0 'which does not wait$' waits rings-image rings-table opened
holds 'two opened rings: one is left' lacks said 'a ring'

# ---- the graph: short boxes, one below the other
"$plex" waits ring "$table" closed --dot >graph
holds 'a graph down the page' grep -q 'rankdir=TB' graph
holds 'a graph that fits a page' grep -q 'size="7.5,10"' graph
holds 'a box' grep -q 't1 \[label="thread 1\\nat label 9\\nholds 1 lock\\nwaits for lock 9"\]' graph

# ---- the picture
# drawn NAME STATUS ARGUMENT..: plex draws a picture and says nothing
drawn() {
    name=$1 status=$2
    shift 2
    "$plex" waits "$@" --svg picture >said 2>&1
    holds "$name: status" [ $? = "$status" ]
    holds "$name: words" [ ! -s said ]
}
drawn 'a picture' 0 "$image" "$table" waiting
holds 'an arrow in the picture' grep -q 'marker-end="url(#wait)"' picture
holds 'a lock in the picture' grep -q '>waits for lock 9</text>' picture
holds 'a ring in a picture without one' lacks picture 'url(#ring)'
drawn 'a picture of a ring' 3 ring "$table" closed
holds 'two arrows of the ring' [ "$(grep -c 'url(#ring)' picture)" = 2 ]
drawn 'a picture of no waits' 0 "$image" "$table" left
holds 'a picture of no waits says so' grep -q '>no thread waits</text>' picture
tried 'a picture that cannot be written' 1 '/dev/full: cannot be written: No space left' \
    waits "$image" "$table" waiting --svg /dev/full
"$plex" waits "$image" "$table" waiting --dot --svg kept >/dev/full 2>said
holds 'a graph to a full standard output: status' [ $? = 1 ]
same 'a graph to a full standard output: the picture' kept old

# ---- a graph and a picture by one command, as help says
tried 'help of both' 0 '^Use: plex waits IMAGE TABLE STATE \[--dot\] \[--svg FILE\]$' help waits
tried 'both' 0 '^digraph waits {$' waits "$image" "$table" waiting --dot --svg picture-2
drawn 'a picture alone' 0 "$image" "$table" waiting
same 'the picture of both' picture-2 picture
