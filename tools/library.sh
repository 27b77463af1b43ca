#!/bin/sh
# Proves the crates that the library is made of and writes target/staticlib/libplex.a, the archive of the crate plex_c: a line for each
# crate, with the time that it took and how many are left. The prover's own words go to a log; if it fails, the log's end is shown and its
# exit status kept. Use: library.sh [proved]
#
# With the word `proved`, right after `rt ci`, it builds plex_c over the libraries that `rt ci` has left, where it left each one, so that
# none is proved again for the same archive; else it writes nothing.
set -u
log=build/prove.log
status=build/prove.status
library=target/staticlib/libplex.a
mkdir -p build target/staticlib
rm -f "$status"

# the crates that plex_c depends on, each behind those that it depends on itself, as rt takes them, and plex_c
crates=$(awk '
    { sub(/#.*/, "") }
    /^[a-z_0-9]+[^:]*:/ { name = $1; sub(/:.*/, "", name); sub(/^[^:]*:/, ""); needs[name] = $0 }
    function list(name, found, names, i) {
        if (name in seen || !(name in needs)) return
        seen[name] = 1
        found = split(needs[name], names, " ")
        for (i = 1; i <= found; i++) list(names[i])
        print name
    }
    END { list("plex_c") }' crates.txt)

if [ "${1-}" = proved ]; then
    kit=$(dirname "$(rt doc)")
    # as rt lib says it to rattle
    set -- --crate-name plex_c src/lib.rt --crate-type staticlib --links plex_c= --backend llvm -o out/libplex_c.a \
        --extern "std=$kit/rlibs/std.rlib" -L "dependency=$kit/rlibs" --antt-project "$kit/rattle/logic/antt-project.json" \
        --logic-built "$kit/logic_built" --toolchain "$kit/toolchain"
    for crate in $(echo "$crates" | grep -vx plex_c); do
        # (where there is a stamp, the library is what an earlier rt lib made)
        [ -e "crates/$crate/out/rlib/$crate.rlib/format" ] && [ ! -e "crates/$crate/out/rlib/stamp" ] || exit 0
        set -- "$@" -L "dependency=../$crate/out/rlib"
    done
    for crate in $(sed -n 's/^plex_c staticlib://p' crates.txt); do
        set -- "$@" --extern "$crate=../$crate/out/rlib/$crate.rlib"
    done
    mkdir -p crates/plex_c/out
    if (cd crates/plex_c && rattle build "$@") >"$log" 2>&1; then
        cp crates/plex_c/out/libplex_c.a "$library"
        echo 'libplex.a: built over the crates that rt ci has proved'
    else
        echo "libplex.a: not built over the crates that rt ci has proved ($log says why); it is made by rt lib"
    fi
    exit 0
fi

# tell CRATE TIME LEFT
tell() {
    printf '%-20s %-10s %2d left\n' "$@"
}

# since TIME
since() {
    echo "$(($(date +%s) - $1)) s"
}

# shellcheck disable=SC2086
set -- $crates
echo "libplex.a: $# crates to prove, some minutes on a fresh machine; the prover's words are in $log"
{
    (cd crates/plex_c && rt lib) 2>&1
    echo $? >"$status"
} | {
    begun=$(date +%s)
    while IFS= read -r line; do
        printf '%s\n' "$line" >&3
        case $line in
            'rt: chose --jobs '*' for '*)
                # (rt says nothing of a crate that is as it was)
                while [ $# -gt 1 ] && [ "$1" != "${line##* }" ]; do
                    tell "$1" unchanged $(($# - 1))
                    shift
                done
                begun=$(date +%s)
                ;;
            'logic=proved '*)
                # (plex_c is compiled behind its proof)
                [ $# -gt 1 ] || continue
                tell "$1" "$(since "$begun")" $(($# - 1))
                shift
                ;;
        esac
    done
    [ "$(cat "$status")" != 0 ] || tell "$1" "$(since "$begun")" 0
} 3>"$log"
code=$(cat "$status" || echo 2)
if [ "$code" -ne 0 ]; then
    echo "libplex.a: not built; the end of $log, without the lines that count modules:"
    grep -v ': modules loaded=' "$log" | tail -n 20
    exit "$code"
fi
cp crates/plex_c/out/libplex_c.a "$library"
