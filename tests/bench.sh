#!/bin/sh
# What the benchmark says and writes, with a program in place of those that time the rows that says the same of each of them: nothing is
# timed here. Use: bench.sh BENCH
set -u
folder=$(mktemp -d)
trap 'rm -rf "$folder"' EXIT
said=$("$1" "$folder" "awk 'BEGIN { while (++row <= 64) print 2, 4, 0.5 }'" 2>"$folder/log") ||
    { echo 'bench: it fails'; cat "$folder/log"; exit 1; }
plots=$(echo "$said" | tail -n 1 | sed -n "s|^Plots in $folder: ||p")
written=$(cd "$folder" && ls ./*.svg | wc -l)
# shellcheck disable=SC2086
named=$(cd "$folder" && ls $plots | wc -l)
if [ -z "$plots" ] || [ "$named" != "$written" ]; then
    echo "bench: it writes $written plots, and its last line names: $plots"
    exit 1
fi
echo "bench: its last line names the $written plots"
