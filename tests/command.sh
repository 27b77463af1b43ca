#!/bin/sh
# The command plex on good and bad files; each subject has a file in the folder command.
# Use: command.sh PLEX DEMO TERMINAL, three programs; the demo writes the files of the case from the
# field, and the last one runs a command on a terminal.
set -u
plex=$(realpath "$1")
demo=$(realpath "$2")
terminal=$(realpath "$3")
tests=$(realpath "$(dirname "$0")")/command
folder=$(mktemp -d)
trap 'rm -rf "$folder"' EXIT
cd "$folder" || exit 1
mkdir good && "$demo" good || exit 1
image=good/case.image table=good/case.table words=good/case.words events=good/case.events
east=good/east.image demo_image=good/linked.image demo_events=good/linked.events

passed=0
failed=0
# tried NAME STATUS PATTERN ARGUMENT..: what plex says has the pattern, and its status is this one
tried() {
    name=$1 status=$2 pattern=$3
    shift 3
    "$plex" "$@" >said 2>&1 </dev/null
    got=$?
    holds "$name: status $got, expected $status" [ "$got" = "$status" ]
    holds "$name: no '$pattern'" grep -qe "$pattern" said
}

# ran NAME OUT ANSWERS ARGUMENT..: a quiet run goes through and says nothing; both files are new
ran() {
    name=$1 out=$2 answers=$3
    shift 3
    rm -f "$out" "$answers"
    "$plex" run "$@" --quiet --out "$out" --answers "$answers" >said 2>&1
    got=$?
    holds "$name: status $got, expected 0" [ "$got" = 0 ]
    holds "$name: it speaks" [ ! -s said ]
}

# holds NAME COMMAND..: the command succeeds
holds() {
    what=$1
    shift
    if "$@"; then
        passed=$((passed + 1))
    else
        failed=$((failed + 1))
        echo "command: $what; plex said last:"
        tail -n 4 said
    fi
}

# same NAME FILE FILE: two files have the same bytes
same() {
    holds "$1: $2 and $3 differ" cmp -s "$2" "$3"
}

# lacks FILE PATTERN
lacks() {
    ! grep -qe "$2" "$1"
}

# byte FILE OFFSET OCTAL NEW: a copy with one byte changed
byte() {
    cp "$1" "$4"
    printf '%b' "\\0$3" | dd of="$4" bs=1 seek="$2" conv=notrunc 2>/dev/null
}

# look_around, and later nothing_left NAME: there are the same files as then
look_around() {
    there=$(ls -A)
}
nothing_left() {
    holds "$1: a file is left" [ "$(ls -A)" = "$there" ]
}

# soon COMMAND..: the command succeeds within ten seconds
soon() {
    tries=0
    until "$@" 2>/dev/null; do
        tries=$((tries + 1))
        [ "$tries" -lt 500 ] || return 1
        sleep 0.02
    done
}

# repeated FILE TIMES NEW
repeated() {
    : >"$3"
    i=0
    while [ "$i" -lt "$2" ]; do
        cat "$1" >>"$3"
        i=$((i + 1))
    done
}

# altered FILE NEW OFFSET:OCTAL..: a copy with these bytes changed
altered() {
    cp "$1" "$2"
    new=$2
    shift 2
    for change; do
        byte "$new" "${change%:*}" "${change#*:}" part
        mv part "$new"
    done
}

# the files that more than one subject uses: 4,500 events; the case after them; the case after its
# eighth event, where the audit waits for North's job; East's guest alone with a value of 25, a step
# before its job ends, where it holds a signal; East's image with a packing in place of the meter's unpacking;
# the case's table as format 2 and before had it, without locks, and widened again, each block with the lock of its own
# number; and files that are to stay as they are
: >empty
repeated "$events" 300 many
head -c 440 "$events" >eight
head -c 55 "$events" >arrival
tail -c +166 "$events" | head -c 55 >step
byte step 1 2 step-2
cat arrival step-2 step-2 step-2 >to-holding
byte "$east" 1008 15 packing
: >former-table
: >lone-table
block=0
while [ "$block" -lt 16 ]; do
    dd if="$table" bs=3 skip="$block" count=1 2>/dev/null | head -c 2 >row
    cat row >>former-table
    printf '%b' "\\0$(printf %o "$block")" | cat row - >>lone-table
    block=$((block + 1))
done
printf 'old' >old
cp old kept
"$plex" run "$image" "$table" "$words" many --summary --out left >said || exit 1
"$plex" run "$image" "$table" "$words" eight --summary --out waiting >said || exit 1
"$plex" run "$east" "$table" "$words" to-holding --summary --out holding >said || exit 1
head -c 9632 left >short-state
cat left empty "$table" >long-state

for subject in arguments check show link run refused outputs inputs streams signals state waits locks upgrade printed terminal; do
    . "$tests/$subject.sh"
done

echo "command: $passed passed, $failed failed"
[ "$failed" = 0 ]
