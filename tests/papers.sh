#!/bin/sh
# The papers say what happens: each block of a paper that is marked `console` is carried out line by line, and what is printed has to
# be what the paper shows. A block marked `c` is first written to the file that its first line names. All this in a folder that has
# what the repository has, so that a name that is taken there is taken here, and the examples built. And each target of make that a paper
# of the repository names is there. Use: papers.sh LIBRARY PAPER..
set -eu
library=$1
shift
root=$PWD
folder=$(mktemp -d)
trap 'rm -rf "$folder"' EXIT
for entry in "$root"/*; do
    [ -d "$entry" ] || { ln -s "$entry" "$folder/"; continue; }
    mkdir "$folder/${entry##*/}"
    ln -s "$entry"/* "$folder/${entry##*/}/"
done
rm -rf "$folder/target"
mkdir -p "$folder/target/staticlib"
ln -s "$library" "$folder/target/staticlib/libplex.a"
ln -s "$root/build/guests" "$root/build/one_by_one" "$folder/"

# blocks PAPER: its console blocks joined; its C texts written to their files
blocks() {
    awk -v folder="$folder" '
        /^```/ { kind = kind == "" ? substr($0, 4) : ""; first = 1; next }
        kind == "console" { print }
        kind == "c" && first { file = folder "/" $2; first = 0 }
        kind == "c" { print >file }' "$1"
}

# carried_out SHOWN: its commands, each followed by what it prints
carried_out() {
    sed -n 's/^\$ //p' "$1" | while IFS= read -r line; do
        printf '$ %s\n' "$line"
        (cd "$folder" && sh -c "$line" 2>&1 </dev/null) || echo "status $?"
    done
}

for target in $(grep -ohE '(`|^    )make [a-z]+' "$root"/*.md "$root"/docs/*.md | sed 's/.* //' | sort -u); do
    grep -q "^$target:" "$root/Makefile" || { echo "papers: there is no make $target"; exit 1; }
done

commands=0
for paper in "$@"; do
    blocks "$paper" >"$folder/shown.txt"
    carried_out "$folder/shown.txt" >"$folder/printed.txt"
    diff -u "$folder/shown.txt" "$folder/printed.txt" || { echo "papers: $paper shows something else"; exit 1; }
    found=$(grep -c '^\$ ' "$folder/shown.txt") || { echo "papers: $paper shows no command"; exit 1; }
    commands=$((commands + found))
done
echo "papers: $commands commands print what the papers show"
