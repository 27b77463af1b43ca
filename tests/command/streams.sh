# What comes out while a pipe is still open.
rm -f traced answered
mkfifo slow answers-pipe

# ---- a trace: the first event and a part of the second are there
"$plex" run "$image" "$table" "$words" slow --out state-2 | cat >traced &
exec 8<>slow
head -c 60 "$events" >&8
holds 'a trace waits for the end of its pipe' soon grep -q '^       0  arrival at 0' traced
holds 'a trace of half an event' lacks traced '^       1  '
tail -c +61 "$events" >&8
holds 'a trace waits for the end of its pipe, later' soon grep -q '^      14  ' traced
holds 'a summary before the end' lacks traced '15 events'
exec 8>&-
wait
holds 'a trace of a pipe' grep -q '^15 events in 15 calls$' traced
"$plex" run "$image" "$table" "$words" "$events" --summary --out state-3 >said
same 'the state of a slow pipe' state-2 state-3

# ---- answers to a pipe
timeout 20 cat answers-pipe >answered &
"$plex" run "$image" "$table" "$words" - --quiet --answers answers-pipe <slow &
exec 8<>slow
head -c 110 "$events" >&8
holds 'answers wait for the end of a pipe' soon [ -s answered ]
holds 'two answers' [ "$(wc -c <answered)" = 4 ]
exec 8>&-
wait

# ---- a pipe that gives many events in pieces of another size
{ head -c 70000 many; tail -c +70001 many; } | dd bs=997 2>/dev/null \
    | "$plex" run "$image" "$table" "$words" - --summary --out state-2 >said
same 'the state of pieces' state-2 left
holds 'the calls of pieces' grep -q '^4,500 events in 5 calls$' said
