#!/bin/sh
# What the compiler has left as functions of their own in the library: the calls and the others that host/plex-gdb.py lists, and no other.
# So every function of a step is compiled into plex_run. They move the stack pointer in the ways that the script knows. And the check's
# test of a run of sixteen bytes is vector code. Use: compiled.sh LIBRARY
set -u
symbols=$(nm "$1") && code=$(objdump -d --no-show-raw-insn "$1") || exit 2
found=$(echo "$symbols" | awk '$2 == "t" || $2 == "T" { print $3 }' | sort)
expected=$(sed -n 's/^    "\([A-Za-z0-9_:]*\)",$/\1/p' host/plex-gdb.py | sort)
if [ "$found" != "$expected" ]; then
    echo 'compiled: functions of their own are not those expected:'
    { echo "$expected" | sed 's/^/expected /'; echo "$found" | sed 's/^/found /'; } | sort -k 2 | uniq -u -f 1
    exit 1
fi
moving=$(echo "$code" | grep -E '(,%rsp|leave|enter .*)$' | grep -vE '(sub|add) +\$0x[0-9a-f]+,%rsp$')
if [ -n "$moving" ]; then
    echo "compiled: host/plex-gdb.py does not know these ways of moving the stack pointer: $moving"
    exit 1
fi
# a run's bytes are compared with the kinds, and with their limits, all at once; a loop byte by byte has one such instruction at most, of a
# test of zeros
vectors=$(echo "$code" | awk '/^[0-9a-f]+ <.*>:$/ { is_check = $2 == "<check_image::record_fault>:" }
    is_check && /%xmm/ && $2 ~ /^(pcmpeqb|psubusb|pminub|pmaxub)$/' | wc -l)
if [ "$vectors" -lt 8 ]; then
    echo "compiled: the check of records has $vectors instructions that compare 16 bytes at once: its loop over a run is no vector code"
    exit 1
fi
echo "compiled: $(echo "$found" | grep -c ::) functions beside the calls, and every other in its callers"
