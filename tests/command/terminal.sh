# Colour and the bar: on a terminal alone.
escape=$(printf '\033')
"$plex" run "$image" "$table" "$words" "$events" >said 2>&1
holds 'colour in a file' lacks said "$escape"

# seen STATUS ARGUMENT..: what plex says on a terminal, and its status
seen() {
    status=$1
    shift
    "$terminal" "$@" </dev/null >said 2>&1
    got=$?
    holds "on a terminal: $*: status $got" [ "$got" = "$status" ]
}
seen 0 "$plex" check "$image" "$table"
holds 'no colour on a terminal' grep -q "$escape\\[32maccepted" said
seen 0 env NO_COLOR=1 "$plex" check "$image" "$table"
holds 'colour in spite of NO_COLOR' lacks said "$escape\\[32m"
seen 0 "$plex" run "$image" "$table" "$words" many --summary
holds 'a bar at once' lacks said 'of 4,500 events'
holds 'a summary on a terminal' grep -q '^4,500 events in 5 calls' said

# ---- no events: no bar, and no unfinished file
: >nothing-done
look_around
seen 0 "$plex" run "$image" "$table" "$words" empty --summary --out nothing-done
holds 'no events on a terminal' grep -q '^.*0 events in 1 call' said
holds 'no events on a terminal: the file of --out' [ -s nothing-done ]
nothing_left 'no events on a terminal'

# ---- the bar, after a second
repeated many 9 lots
byte lots 2089727 5 bad-lots

# slowly NAME COMMAND..: what a run of lots of events says on a terminal goes to the file seen-NAME; it has to wait, since
# nobody reads its answers for two seconds, and they are more than a pipe takes
slowly() {
    slow=$1
    shift
    mkfifo "slow-$slow"
    { sleep 2; cat >/dev/null; } <"slow-$slow" &
    "$terminal" "$@" --answers "slow-$slow" </dev/null >"seen-$slow" 2>&1 &
}
bar='\[#*\.*\] .*of 40,500 events'
slowly summary "$plex" run "$image" "$table" "$words" lots --summary
slowly file sh -c '"$@" >traced' sh "$plex" run "$image" "$table" "$words" lots
slowly trace sh -c '"$@" | tail -n 3' sh "$plex" run "$image" "$table" "$words" lots
slowly pipe sh -c '"$@" | cat' sh "$plex" run "$image" "$table" "$words" lots --summary
slowly quiet "$plex" run "$image" "$table" "$words" lots --quiet
slowly error env NO_COLOR=1 "$plex" run "$image" "$table" "$words" bad-lots --summary
wait
cp seen-summary said
holds 'no bar on a terminal' grep -q "$bar" said
holds 'a summary beside the bar' grep -q "40,500 events.$escape\\[K40,500 events in 40 calls" said
cp seen-file said
holds 'no bar beside a trace to a file' grep -q "$bar" said
cp seen-trace said
holds 'a bar beside a trace through a pipe' lacks said 'of 40,500'
holds 'a trace through a pipe' grep -q 'all threads idle' said
cp seen-pipe said
holds 'a bar beside a summary through a pipe' lacks said 'of 40,500'
holds 'a summary through a pipe' grep -q '^40,500 events in 40 calls' said
holds 'a bar in spite of --quiet' [ ! -s seen-quiet ]

# ---- an error begins its line: the bar is cleared first
cp seen-error said
holds 'an error beside the bar' grep -q "$bar.$escape\\[Kplex: bad-lots: event 37,995 breaks" said
