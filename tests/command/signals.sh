# Signals while a run goes on: unfinished files go away, and ignored signals stay ignored.
ulimit -c 0
mkfifo held

# begun COMMAND..: a run through the command, waiting for its second event, with a file unfinished
begun() {
    : >said
    "$@" "$plex" run "$image" "$table" "$words" held --out kept --answers new >said 2>&1 &
    run=$!
    exec 8<>held
    head -c 55 "$events" >&8
    soon grep -q '^       0  ' said
}

# the sanitizers leave these signals to the program
ASAN_OPTIONS=handle_segv=0:handle_sigbus=0:handle_sigfpe=0:handle_sigill=0
export ASAN_OPTIONS
for signal in 1 2 3 4 5 6 7 8 10 11 12 13 14 15 16 24 25 26 27 29 30 31 34 64; do
    look_around
    begun env --default-signal
    holds "no unfinished file before signal $signal" [ "$(ls -A)" != "$there" ]
    kill -$signal "$run"
    wait "$run" 2>/dev/null
    holds "signal $signal: status" [ $? = $((128 + signal)) ]
    exec 8>&-
    nothing_left "signal $signal"
done
unset ASAN_OPTIONS
same 'signals: the file of --out' kept old
holds 'signals: the file of --answers' [ ! -e new ]

look_around
for signal in HUP INT TERM; do
    begun env --ignore-signal=$signal
    kill -s $signal "$run"
    tail -c +56 "$events" >&8
    exec 8>&-
    wait "$run" 2>/dev/null
    holds "ignored $signal: status" [ $? = 0 ]
    holds "ignored $signal: the file of --answers" [ "$(wc -c <new)" = 30 ]
    rm -f new
    cp old kept
done
(trap '' PIPE; "$plex" run "$image" "$table" "$words" many --out kept 2>said; echo $? >status) | true
holds 'a reader that goes away, its signal ignored: status' [ "$(cat status)" = 1 ]
rm status
holds 'a reader that goes away, its signal ignored' grep -q 'written: Broken pipe' said
same 'a reader that goes away, its signal ignored: the file of --out' kept old
nothing_left 'ignored signals'
