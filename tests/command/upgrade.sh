# plex upgrade, and files of former formats: tables of format 2 and before, states of format 1.
# shortened STATE NEW: the state as format 1 had it, 75 bytes a thread
shortened() {
    head -c 512 "$1" >"$2"
    thread=0
    while [ "$thread" -lt 8 ]; do
        tail -c +$((513 + 288 * thread)) "$1" | head -c 75 >>"$2"
        thread=$((thread + 1))
    done
    tail -c +2817 "$1" >>"$2"
}
ran 'eight events without groups' apart answered "$image" lone-table "$words" eight
shortened apart former-apart
shortened left former-left
holds 'the length of a state of format 1' [ "$(wc -c <former-apart)" = 7929 ]

# ---- each part that reads a table or a state says whose format it has
# former_state PART ARGUMENT..
former_state() {
    tried "$* of a former state" 1 \
        '^plex: former-apart: 7,929 bytes, as a state had in format 1; today.s has 9,633: plex upgrade state takes it over$' "$@"
}
former_state state former-apart
former_state state "$image" lone-table former-apart
holds 'state of a former state: number 5' grep -q 'refused with number 5, place 0' said
former_state waits "$image" lone-table former-apart
former_state run "$image" lone-table "$events" --state former-apart --out kept
same 'run of a former state: the file of --out' kept old

# ---- taken over
rm -f widened lengthened
tried 'a table' 0 '^upgraded: widened, a table of format 3, from former-table, of format 2 or before$' \
    upgrade table former-table --out widened
same 'a table' widened lone-table
tried 'a state' 0 '^upgraded: lengthened, a state of format 3, from former-apart, of format 1$' \
    upgrade state former-apart --out lengthened
same 'a state' lengthened apart
tried 'they go together' 0 '^well formed with' state "$image" widened lengthened
tail -c +441 "$events" >rest
ran 'events before and after' whole answered "$image" widened "$words" "$events"
ran 'events after' after answered-2 "$image" widened rest --state lengthened
same 'events after' after whole
tried 'a state where no job runs' 0 '^upgraded: lengthened' upgrade state former-left --out lengthened
same 'a state where no job runs' lengthened left

# ---- refused, with nothing written
# not_taken NAME PATTERN KIND FILE
not_taken() {
    tried "$1" 1 "^plex: $4: $2" upgrade "$3" "$4" --out kept
    same "$1: the file of --out" kept old
}
look_around
not_taken 'a table of today' '48 bytes; a table of format 3 already: there is nothing to take over$' table lone-table
not_taken 'a state of today' '9,633 bytes; a state of format 3 already: there is nothing to take over$' state apart
not_taken 'no bytes' '0 bytes; a table of format 2 or before is 32 bytes$' table empty
not_taken 'a table for a state' \
    '32 bytes; a state of format 1 is 7,929 bytes; a table of format 2 or before has this length: plex upgrade table takes it' \
    state former-table
not_taken 'a state for a table' \
    '7,929 bytes; a table of format 2 or before is 32 bytes; a state of format 1 has this length: plex upgrade state takes it' \
    table former-apart
not_taken 'a file too long' '9,681 bytes; a state of format 1 is 7,929 bytes$' state long-state
nothing_left 'files of other lengths'
for size in 31 33 47; do
    head -c "$size" lone-table >other
    not_taken "a table of $size bytes" "$size bytes; a table of format 2 or before is 32 bytes$" table other
done
for size in 7,928 7,930 9,632; do
    head -c "$(echo "$size" | tr -d ,)" apart >other
    not_taken "a state of $size bytes" "$size bytes; a state of format 1 is 7,929 bytes$" state other
done
not_taken 'no such file' 'cannot be read: No such file' table absent
not_taken 'a folder' 'cannot be read: Is a directory' state good

# not_allowed KIND FILE FORMAT WHY OFFSET:OCTAL..: with these bytes changed it is no file of its format
not_allowed() {
    kind=$1 whole=$2 format=$3 why=$4
    shift 4
    altered "$whole" bad "$@"
    not_taken "a $kind with $*" "no $kind of format $format$" "$kind" bad
    holds "a $kind with $*: no '$why'" grep -qe "^      $why" said
}
not_allowed table former-table '2 or before' 'block 5: its thread is 8, and threads are 0 to 7$' 10:10
not_allowed table former-table '2 or before' 'block 6: its kind is 2, and kinds are 0 (FD) and 1 (CMX)$' 13:2
not_allowed table former-table '2 or before' 'block 0: its thread is 255' 0:377 31:2
not_allowed table former-table '2 or before' 'block 15: its kind is 2' 31:2
not_allowed state former-apart 1 'thread 2 is idle, and its other fields are not all 0$' 664:1
not_allowed state former-apart 1 'thread 7 is idle, and its other fields are not all 0$' 1111:1
not_allowed state former-apart 1 'thread 0 has 9 return labels, and a thread has at most 8$' 516:11
not_allowed state former-apart 1 'unused return label 2 of thread 0 is not 0$' 521:1
not_allowed state former-apart 1 'thread 0 has a presence bit above 24$' 536:2
not_allowed state former-apart 1 'absent register 1 of thread 0 is not 0$' 539:1
not_allowed state former-apart 1 "thread 0 has label 518, and an image's labels are below 512$" 513:2
not_allowed state former-apart 1 "thread 0 has label 513, and an image's labels are below 512$" 518:2
not_allowed state former-apart 1 'thread 1 has label 9 and holds no lock$' 589:0
not_allowed state former-apart 1 'threads 0 and 1 both hold lock 0$' 589:21
not_allowed state former-apart 1 'the tree count is 17, and a machine has at most 16$' 1112:21
not_allowed state former-apart 1 'tree 0 has thread 8, and threads are 0 to 7$' 1113:10
not_allowed state former-apart 1 'tree 0 has 9 pending signals, and a tree has at most 8$' 1114:11
not_allowed state former-apart 1 "signal 0 of tree 1: its label is 520, and an image's labels are below 512$" 1542:2
not_allowed state former-apart 1 'signal 0 of tree 1: its value count is 26, and a signal has 0 to 25 values$' 1543:32
not_allowed state former-apart 1 'signal 0 of tree 1: a byte after its last value is not 0$' 1546:1
not_allowed state former-apart 1 'a byte after the last signal of tree 1 is not 0$' 1594:1
not_allowed state former-apart 1 "tree 1 has no pending signal and is not a running thread's first$" \
    1540:0 1541:0 1543:0 1544:0 1545:0
not_allowed state former-apart 1 'thread 1 is running and has no tree$' 1112:2
not_allowed state former-apart 1 'a byte after the last of the 3 trees is not 0$' 2391:1
not_allowed state former-left 1 'a byte after the last of the 0 trees is not 0$' 7928:1
altered former-apart bad 0:377 512:5
tried 'what only an image could tell' 0 '^upgraded: lengthened' upgrade state bad --out lengthened

# ---- the arguments, and the file that is written
tried 'another kind' 2 'words is neither table nor state' upgrade words former-table --out kept
tried 'a kind alone' 2 'a file is missing after table' upgrade table --out kept
tried 'no --out' 2 '--out is missing: what is taken over wants a file' upgrade table former-table
rm -f own own-2
cp former-table own
ln own own-2
for name in own ./own own-2; do
    tried "a table in place, $name" 2 "--out $name is the same file as own, which is read" upgrade table own --out "$name"
done
"$plex" upgrade table - --out own-2 <own >said 2>&1
holds 'a table in place, from standard input: status' [ $? = 2 ]
holds 'a table in place, from standard input' grep -q -- '--out own-2 is the same file as standard input, which is read' said
same 'a table in place' own former-table
rm own own-2
cp former-table table
tried 'a file that is called as the kind' 0 '^upgraded: table' upgrade table former-table --out table
rm table
"$plex" upgrade --quiet --out=own -- state - <former-apart >said 2>&1
holds 'a state from standard input: status' [ $? = 0 ]
holds 'a quiet upgrade speaks' [ ! -s said ]
same 'a state from standard input' own apart
cp old own
chmod 640 own
tried 'a file that is there' 0 '^upgraded: own' upgrade table former-table --out own
same 'a file that is there' own lone-table
holds 'a file that is there got another mode' [ "$(stat -c %a own)" = 640 ]
look_around
"$plex" upgrade table former-table --out kept >/dev/full 2>said
holds 'an upgrade to a full standard output: status' [ $? = 1 ]
same 'an upgrade to a full standard output: the file of --out' kept old
tried 'an upgrade to a full device' 1 '/dev/full: cannot be written: No space left' \
    upgrade state former-apart --out /dev/full
tried 'no folder for it' 1 'absent/table: cannot be written' upgrade table former-table --out absent/table
nothing_left 'upgrades that are not written'
