#!/bin/sh
# The stack that the calls need is at most 64 KiB, and the papers have the largest figure measured. Use: stack.sh CASE..
set -u
said=$(./build/stack "$@")
status=$?
echo "$said"
[ $status -eq 0 ] || exit 1
largest=$(echo "$said" | awk '/ bytes$/ && $(NF - 1) > most { most = $(NF - 1) } END { print most }')
figure=$(echo "$largest" | sed 's/\([0-9]\)\([0-9]\{3\}\)$/\1,\2/')
for paper in include/plex.h man/plex.3 README.md docs/HOSTS.md; do
    grep -q "$figure bytes" "$paper" || { echo "stack: $paper does not say $figure bytes"; exit 1; }
done
