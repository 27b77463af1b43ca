# Help and wrong use.
tried 'no part' 2 'see plex --help'
tried 'help' 0 'plex waits IMAGE TABLE STATE' --help
tried 'unknown part' 2 'there is no part walk' walk
parts='check show link run state waits upgrade'
for part in $parts; do
    tried "help of $part" 0 "^Use: plex $part " "$part" --help
    tried "$part without arguments" 2 'missing' "$part"
    tried "$part with an unknown option" 2 'no option --nothing' "$part" --nothing
    tried "$part with a file too many" 2 'one argument too many' "$part" a b c d e
    tried "$part, quiet twice" 2 '^plex: --quiet is given twice$' "$part" --quiet a --quiet
done
tried 'check without its files' 1 'a: cannot be read: No such file' check a b
tried 'show without its file' 1 'a: cannot be read: No such file' show a
tried 'link without its files' 1 'a: cannot be read: No such file' link a b c --out d
tried 'run without its files' 1 'a: cannot be read: No such file' run a b c d
tried 'state without its file' 1 'a: cannot be read: No such file' state a
tried 'waits without its files' 1 'a: cannot be read: No such file' waits a b c
tried 'run with words and a state' 2 'there are 4 files, and 3 are wanted' run a b c d --state e
tried 'check with one file' 2 '^plex: there is 1 file, and 2 are wanted: some are missing$' check a
tried 'show without a file' 2 '^plex: there are 0 files, and 1 or 2 are wanted: some are missing$' show
tried 'state without a file' 2 '^plex: there are 0 files, and 1 or 3 are wanted: some are missing$' state
tried 'run without a file for --out' 2 'wants the name of a file' run a b c d --out
tried 'nor after =' 2 '--out wants the name of a file' run a b c d --out=
tried 'a value for a flag' 2 '--summary has no value' run a b c d --summary=yes
for option in --state --out --answers; do
    tried "$option twice" 2 "^plex: $option is given twice$" run a b c $option d $option e
    tried "$option twice, after =" 2 "^plex: $option is given twice$" run a b c $option=d $option=d
done
tried '--summary twice' 2 '^plex: --summary is given twice$' run a b c d --summary --summary
tried '--out of a link twice' 2 '^plex: --out is given twice$' link a b c --out d --out d
tried '--svg twice' 2 '^plex: --svg is given twice$' waits a b c --svg d --svg=e
tried '--dot twice' 2 '^plex: --dot is given twice$' waits a b c --dot --dot
tried 'a short option' 2 'there is no option -x here' check -x "$table"
tried 'upgrade without its file' 1 'a: cannot be read: No such file' upgrade table a --out b
tried 'help of few letters' 0 'plex waits IMAGE TABLE STATE' -h
tried 'help of a part of few letters' 0 '^Use: plex run ' run -h
tried 'no help after --' 1 '^plex: --help: cannot be read' show -- --help
tried 'the version' 0 '^plex \([0-9][0-9.]*\), library \1, format [0-9][0-9]*$' --version
tried 'the version, and more' 2 '^plex: x is one argument too many$' --version x
tried 'help, and more' 2 '^plex: run is one argument too many$' --help run
"$demo" . x >said 2>&1
holds 'the demo with two folders: status' [ $? = 2 ]
holds 'the demo with two folders' grep -q '^demo: x is one argument too many$' said

# ---- help as a part: the same as --help
"$plex" --help >helped
for part in $parts help; do
    holds "help does not say how $part is used" grep -q "^  plex $part " helped
    "$plex" "$part" --help >helped-2
    tried "help $part" 0 "^Use: plex $part " help "$part"
    same "help $part" said helped-2
done
holds 'a line on each part' [ "$(grep -A 1 '^  plex ' helped | grep -c '^      [a-z]')" = 8 ]
tried 'the part help' 0 '^      lists an image as statements, block by block$' help
same 'the part help' said helped
tried 'the part help, quiet' 0 '^Use: plex PART' help --quiet
same 'the part help, quiet' said helped
tried 'help of no part' 2 'there is no part walk' help walk
tried 'help of two parts' 2 'run is one argument too many' help check run
for part in $parts help; do
    tried "$part is not named without a part" 2 "[ |]$part[ |]"
done
cp "$table" ./--table
tried 'a name with dashes' 0 '^accepted: .*, with --table$' check -- "$image" --table
tried 'a value after =' 0 '^15 events in 1 call$' \
    run "$image" "$table" "$words" "$events" --summary --out=after --answers=answered
holds 'a value after =: the state' [ -s after ]
holds 'a value after =: the answers' [ -s answered ]

# ---- the manual page names every option that the help does
helped=$("$plex" --help; for part in $parts help; do "$plex" "$part" --help; done)
for option in $(echo "$helped" | grep -oe '--[a-z][a-z]*' | sort -u); do
    holds "the manual page lacks $option" \
        grep -qFe "\\-\\-${option#--}" "$tests/../../man/plex.1"
done

# ---- quiet
"$plex" check --quiet "$image" "$table" >said 2>&1
holds 'a quiet check: status' [ $? = 0 ]
holds 'a quiet check speaks' [ ! -s said ]
ran 'a quiet run' after-2 answered-2 "$image" "$table" "$words" "$events"
same 'the state of a quiet run' after after-2
same 'the answers of a quiet run' answered answered-2
"$plex" check "$table" "$table" --quiet >printed 2>said
holds 'a quiet refusal: status' [ $? = 1 ]
holds 'a quiet refusal prints' [ ! -s printed ]
holds 'a quiet refusal does not say why' grep -q 'case.table: 48 bytes; an image is' said

# ---- standard input
"$plex" check - "$table" <"$image" >said 2>&1
holds 'an image from standard input' grep -q '^accepted: standard input, 13 records' said
ran 'words from standard input' after-2 answered-2 "$image" "$table" - "$events" <"$words"
same 'words from standard input' after after-2
"$plex" run "$image" "$table" --state - "$events" --summary <left >said 2>&1
holds 'a state from standard input' grep -q '^15 events' said
ran 'events from standard input' after-2 answered-2 "$image" "$table" "$words" - <"$events"
same 'events from standard input' after after-2
tried 'standard input twice' 2 'stands for one file alone' check - -
tried 'standard input twice, once in an option' 2 'stands for one file alone' \
    run "$image" "$table" - --state -
tried 'standard input as an output' 2 '--out wants a file to write, and - is standard input' \
    run "$image" "$table" "$words" "$events" --out -
one_line() {
    name=$1 pattern=$2
    shift 2
    "$plex" "$@" <old >said 2>&1
    holds "$name: status" [ $? = 2 ]
    holds "$name: no '$pattern'" grep -qe "$pattern" said
    holds "$name: more than one line and the use" [ "$(wc -l <said)" = 2 ]
}
one_line 'wrong use, and standard input as an output' '^plex: --out wants a file to write' \
    run "$image" "$table" "$words" "$events" --answers old --out -
one_line 'wrong use, and one file twice' '^plex: there is no option --nothing here$' \
    run "$image" "$table" "$words" "$events" --out x --answers x --nothing
head -c 40 "$image" | "$plex" check - "$table" >said 2>&1
holds 'a short image from standard input' grep -q 'standard input: 40 bytes; an image is' said
