# An output that leads to the file that standard output is: nothing that is in it gets lost.
# mixed NAME WHICH ARGUMENT..: what is printed would go into the output, whether the file is begun or appended to
mixed() {
    name=$1 which=$2
    shift 2
    cp old both
    "$plex" "$@" >>both 2>said
    holds "$name, appended: status" [ $? = 2 ]
    holds "$name, appended" grep -q "^plex: standard output is the same file as $which, which is written$" said
    same "$name, appended: the file" both old
    "$plex" "$@" >both 2>said
    holds "$name: status" [ $? = 2 ]
    holds "$name: the file" [ ! -s both ]
}
ln -s both to-both
mixed 'a trace into the state' both run "$image" "$table" "$words" "$events" --out both
mixed 'a trace into the answers' ./both run "$image" "$table" "$words" "$events" --answers ./both
mixed 'a graph into the picture' to-both waits "$image" "$table" waiting --dot --svg to-both
mixed 'a line into the linked image' /dev/stdout link "$image" "$east" "$table" --out /dev/stdout

# ---- with --quiet, the bytes follow what is there
cat old lone-table >expected
for output in /dev/stdout both to-both; do
    cp old both
    "$plex" upgrade table former-table --quiet --out "$output" >>both 2>said
    holds "appended to $output: status" [ $? = 0 ]
    same "appended to $output" both expected
    "$plex" upgrade table former-table --quiet --out "$output" >both 2>said
    same "alone in $output" both lone-table
done
cat lone-table apart >expected
{
    "$plex" upgrade table former-table --quiet --out /dev/stdout
    "$plex" upgrade state former-apart --quiet --out /dev/stdout
} >both
same 'two commands into one file' both expected
ran 'a state and answers in files of their own' state-2 expected "$image" "$table" "$words" "$events"
look_around
"$plex" run "$image" "$table" "$words" "$events" --quiet --out /dev/stdout --answers new >both
same 'a state beside its answers' both state-2
same 'answers beside such a state' new expected
rm new
nothing_left 'an output to standard output'
holds 'a link to it stays one' [ -h to-both ]
