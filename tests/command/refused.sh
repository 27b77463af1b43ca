# plex run turned back, with nothing altered.
# refused NAME PATTERN ARGUMENT..
refused() {
    name=$1 pattern=$2
    shift 2
    tried "$name" 1 "$pattern" run "$@" --out kept --answers new
    same "$name: the file of --out" kept old
    holds "$name: the file of --answers was written" [ ! -e new ]
}
head -c 824 "$events" >short
refused 'short events' 'short: 824 bytes; events are 55 bytes each, and 54' \
    "$image" "$table" "$words" short
head -c 4999 many >short
refused 'many short events' 'short: 4,999 bytes; events are 55 bytes each, and 49' \
    "$image" "$table" "$words" short
head -c 511 "$words" >short
refused 'short words' 'short: 511 bytes; initial words are 512' "$image" "$table" short "$events"
head -c 513 "$image" >long
refused 'long words' 'long: 513 bytes; initial words' "$image" "$table" long "$events"
refused 'short state' 'short-state: 9,632 bytes; a state is 9,633' \
    "$image" "$table" "$events" --state short-state
head -c 7929 left >former-state
refused 'a state of the formats before' 'former-state: 7,929 bytes, as a state had in format 1; today.s has 9,633: plex' \
    "$image" "$table" "$events" --state former-state
refused 'long state' 'long-state: 9,681 bytes; a state is 9,633 bytes' "$image" "$table" "$events" \
    --state long-state
byte left 512 0 bad
refused 'bad state' 'bad: not well formed with good/case.image and' \
    "$image" "$table" "$events" --state bad
refused 'its cause' 'thread 0 has label 65280, and the image.s labels are below 13' \
    "$image" "$table" "$events" --state bad
byte many 109727 5 bad
refused 'bad event' 'bad: event 1,995 breaks a rule: arrival at 5' "$image" "$table" "$words" bad
refused 'bad event, summary' 'bad: event 1,995 breaks a rule: arrival at 5' \
    "$image" "$table" "$words" bad --summary
refused 'its place in the file' 'refused with number 8, place 1,995' "$image" "$table" "$words" bad
refused 'its place in the file, summary' 'refused with number 8, place 1,995' \
    "$image" "$table" "$words" bad --summary
refused 'its cause' 'whose entry is none, and arrivals go to entry external' \
    "$image" "$table" "$words" bad --summary
byte "$events" 165 11 bad
refused 'bad kind' 'event 3 breaks a rule: unknown kind 9' "$image" "$table" "$words" bad
byte "$events" 166 10 bad
refused 'bad thread' 'its thread is 8, and threads are 0 to 7' "$image" "$table" "$words" bad
byte "$image" 0 0 bad
refused 'bad image' 'bad: the record at label 0' bad "$table" "$words" "$events"
refused 'no events' 'nowhere: cannot be read: No such file' "$image" "$table" "$words" nowhere
refused 'a folder of events' 'good: cannot be read: Is a directory' \
    "$image" "$table" "$words" good
tried 'no folder for --out' 1 'nowhere/s: cannot be written: No such file' \
    run "$image" "$table" "$words" "$events" --out nowhere/s
head -c 824 "$events" | "$plex" run "$image" "$table" "$words" /dev/stdin --out kept >said 2>&1
holds 'short pipe' grep -q 'stdin: 824 bytes; events are 55 bytes each' said
same 'short pipe: the file of --out' kept old
look_around
"$plex" run "$image" "$table" "$words" many --out kept --answers new 2>said | head -n 1 >said
same 'a reader that goes away: the file of --out' kept old
nothing_left 'a reader that goes away'
