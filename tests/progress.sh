#!/bin/sh
# What tools/library.sh says while crates are proved, with a prover that only says what the real one says: a line for each crate of
# the library, the number left, the log's end on a failure, the prover's exit status; and the archive is put in its place.
set -u
root=$PWD
folder=$(mktemp -d)
trap 'rm -rf "$folder"' EXIT
mkdir -p "$folder/crates/plex_c/out"
cat >"$folder/crates.txt" <<'END'
# a comment: rules
rules_2:
fields: rules_2
one_by_one: rules_2
waits: rules_2 fields
plex: rules_2 waits
plex_c staticlib: rules_2 plex
trials: plex
END
cat >"$folder/rt" <<'END'
#!/bin/sh
[ "$*" = lib ] && [ "${PWD##*/}" = plex_c ] || exit 9
echo 'rt: chose --jobs 2 for rules_2'
echo 'fn rules_2::sorts::block_of: proved'
echo 'logic=proved functions=1 sum=dac8208d650f15bf'
echo 'rt: waits: begins with what a check kept in elsewhere'
echo 'rt: chose --jobs 2 for waits'
echo 'logic=proved functions=1 sum=dac8208d650f15bf incremental=trusted'
echo 'rt: chose --jobs 2 for plex'
[ "$FAILING" = 0 ] || { echo 'logic=not-proved'; echo 'rt: the library plex did not build, so nothing above it was checked' >&2; exit 3; }
echo 'logic=proved functions=1 sum=dac8208d650f15bf'
echo 'rt: chose --jobs 1 for plex_c'
echo 'logic=proved functions=6 target=x86_64-unknown-linux-gnu sum=dac8208d650f15bf'
echo archive >out/libplex_c.a
END
chmod +x "$folder/rt"

# tried FAILING: what is said, and its status
tried() {
    cd "$folder" && FAILING=$1 PATH="$folder:$PATH" sh "$root/tools/library.sh" >said
}
# holds NAME COMMAND..
holds() {
    name=$1
    shift
    "$@" || { echo "progress: $name: not so"; exit 1; }
}

tried 1
holds 'status 3' [ $? = 3 ]
holds "the log's end" grep -q 'library plex did not build' said
holds 'no archive' [ ! -e target/staticlib/libplex.a ]
tried 0
holds 'status 0' [ $? = 0 ]
holds 'how many there are' grep -q '^libplex.a: 5 crates to prove' said
holds 'a time' grep -q '^rules_2  *[0-9]* s  *4 left$' said
holds 'one that is unchanged' grep -q '^fields  *unchanged  *3 left$' said
holds 'the last but one' grep -q '^plex  *[0-9]* s  *1 left$' said
holds 'the last one' grep -q '^plex_c  *[0-9]* s  *0 left$' said
holds 'a line for each crate' [ "$(grep -c ' left$' said)" = 5 ]
holds 'the log has the rest' grep -q 'block_of: proved' build/prove.log
holds 'the archive in its place' grep -q archive target/staticlib/libplex.a
echo 'progress: as it should be'
