# The files that plex writes: both in place or none, under the names given, with their modes.
full='cannot be written: No space left on device'

# written ARGUMENT..: a run that goes through
written() {
    "$plex" run "$image" "$table" "$words" "$events" --summary "$@" >said 2>&1
}

# ---- both or none
cp waiting own
look_around
for option in --answers=new --summary; do
    "$plex" run "$image" "$table" "$events" --state own --out own $option >/dev/full 2>said
    holds "a full standard output, $option: status" [ $? = 1 ]
    holds "a full standard output, $option" grep -q "standard output $full" said
    same "a full standard output, $option: the state" own waiting
    holds "a full standard output, $option: the answers" [ ! -e new ]
done
tried 'a full device for --out' 1 "/dev/full: $full" \
    run "$image" "$table" "$words" "$events" --answers kept --out /dev/full
same 'a full device for --out: the answers' kept old
nothing_left 'full devices'

# the name of --out becomes a folder while the run goes on
mkfifo events-pipe
look_around
for answers in kept new; do
    : >said
    "$plex" run "$image" "$table" "$words" events-pipe --out late --answers "$answers" >said 2>&1 &
    run=$!
    cat "$events" >events-pipe &
    exec 8<>events-pipe
    soon grep -q '^      14  ' said
    mkdir late
    exec 8>&-
    wait "$run"
    holds "--out that cannot be put in place: status" [ $? = 1 ]
    holds "--out that cannot be put in place" grep -q 'late: cannot be written: Is a directory' said
    rmdir late
done
same 'answers beside such an --out' kept old
holds 'new answers beside such an --out' [ ! -e new ]
nothing_left 'an --out that cannot be put in place'

# ---- a full disk is called by its name
look_around
"$plex" show "$image" >/dev/full 2>said
holds 'a full listing: status' [ $? = 1 ]
holds 'a full listing' grep -q "standard output $full" said
"$plex" run "$image" "$table" "$words" many --out kept >/dev/full 2>said
holds 'a full trace: status' [ $? = 1 ]
holds 'a full trace' grep -q "standard output $full" said
tried 'many answers to a full device' 1 "/dev/full: $full" \
    run "$image" "$table" "$words" many --summary --out kept --answers /dev/full
(trap '' XFSZ; ulimit -f 1
    "$plex" run "$image" "$table" "$words" many --summary --out new --answers kept >said 2>&1)
holds 'a limit on files: status' [ $? = 1 ]
holds 'a limit on files' grep -q 'cannot be written: File too large' said
same 'after full devices' kept old
holds 'a new file after a limit on files' [ ! -e new ]
nothing_left 'full disks'

# ---- closed standard streams
"$plex" run "$image" "$table" "$words" "$events" --out kept <&- >&- 2>said
holds 'closed standard output: status' [ $? = 1 ]
holds 'closed standard output' grep -q 'standard output cannot be written: Bad file descr' said
same 'closed standard output: the file of --out' kept old
mkfifo not-printed
timeout 20 cat not-printed >got &
"$plex" run "$image" "$table" "$words" "$events" --answers not-printed <&- >&- 2>said
wait
holds 'closed standard output: the trace among the answers' lacks got arrival
"$plex" run "$image" "$table" "$words" "$events" --quiet --out new-2 <&- >&- 2>&-
holds 'all closed: status' [ $? = 0 ]
written --out new
same 'all closed: the state' new-2 new
"$plex" check - "$table" <&- >said 2>&1
holds 'closed standard input: status' [ $? = 1 ]
holds 'closed standard input' grep -q 'standard input: cannot be read: Bad file descriptor' said
"$plex" waits "$image" "$table" waiting --svg picture <&- >said 2>&1
holds 'a picture with closed standard input: status' [ $? = 0 ]
holds 'a picture with closed standard input' grep -q '</svg>' picture

# ---- modes
mode() {
    cp old kept
    chmod "$1" kept
    written --out kept
    same "the state into a file of mode $1" kept new
    holds "a file of mode $1 got another" [ "$(stat -c %a kept)" = "$1" ]
}
mode 640
mode 666
mode 4711
if [ "$(id -u)" = 0 ]; then
    chown 12345:23456 kept
    written --out kept
    holds 'a file got another owner' [ "$(stat -c %u:%g kept)" = 12345:23456 ]
else
    cp old read-only
    chmod 444 read-only
    tried 'a file that may not be written' 1 'read-only: cannot be written: Permission denied' \
        run "$image" "$table" "$words" "$events" --out read-only
    same 'a file that may not be written' read-only old
fi
rm -f new-2
(umask 027; written --out new-2)
holds 'a new file follows the umask' [ "$(stat -c %a new-2)" = 640 ]
rm -f kept
cp old kept

# ---- one file under two names
one_file() {
    tried "one file: $1 and $2" 2 "^plex: --answers $2 is the same file as --out $1, which is written$" \
        run "$image" "$table" "$words" "$events" --out "$1" --answers "$2"
}
mkdir sub
ln -s ../kept sub/link
ln -s nowhere dangling
ln kept second
one_file kept kept
one_file kept ./kept
one_file kept sub/link
one_file kept second
one_file unborn ./unborn
one_file sub/../unborn unborn
one_file dangling nowhere
one_file "$PWD/unborn" unborn
one_file /dev/null /dev/null
same 'one file under two names' kept old

# ---- links
tried 'a dangling link' 0 'all threads idle' run "$image" "$table" "$words" "$events" --out dangling
holds 'a dangling link stays one' [ -h dangling ]
same 'the file of a dangling link' nowhere new
ln -s dangling chain
rm nowhere
tried 'a link to a dangling link' 0 'all threads idle' \
    run "$image" "$table" "$words" "$events" --out chain
same 'the file of a link to a dangling link' nowhere new
ln -s ../unborn sub/dangling
tried 'a dangling link elsewhere' 0 'all threads idle' \
    run "$image" "$table" "$words" "$events" --out sub/dangling
same 'the file of a dangling link elsewhere' unborn new
ln -s missing/state lost
tried 'a link into no folder' 1 'lost: cannot be written: No such file' \
    run "$image" "$table" "$words" "$events" --out lost
ln -s turning turning
tried 'a link to itself' 1 'turning: cannot be written: Too many levels' \
    run "$image" "$table" "$words" "$events" --out turning
tried 'a folder' 1 'sub: cannot be written: Is a directory' \
    run "$image" "$table" "$words" "$events" --out sub
long=$(printf '%0250d' 0)
tried 'a long name' 0 'all threads idle' run "$image" "$table" "$words" "$events" --out "$long"
same 'the file of a long name' "$long" new
rm -f new new-2 unborn
