#!/bin/sh
# The library has no data of its own that can change, and calls nothing but three functions of the C library that take no lock and no
# memory: so no heap, no locks, no globals, no system calls. README names the toolchain that proved it,
# and its logic. Use: library.sh LIBRARY
set -u
symbols=$(nm -g "$1") && sections=$(objdump -h "$1") || exit 2
called=$(echo "$symbols" | awk '$1 == "U" { print $2 }' | grep -vx -e memcpy -e memmove -e memset)
offered=$(echo "$symbols" | awk '$2 == "T" { print $3 }' | sort | tr '\n' ' ')
changing=$(echo "$sections" | awk '$2 ~ /^\.(data|bss|tdata|tbss|init_array|ctors)/ && $3 !~ /^0+$/ { print $2 }')
common=$(echo "$symbols" | awk '$2 ~ /^[BCDSGbdsg]$/ { print $3 }')
if [ -n "$called$changing$common" ] || [ "$offered" != 'plex_check plex_fresh plex_link plex_run plex_version plex_walk ' ]; then
    echo "library: offers $offered; calls $called; has data $changing $common"
    exit 1
fi
logic=$(readelf -p .comment "$1" | sed -n 's/.*rattle logic=\([0-9a-f]\{16\}\).*/\1/p')
if [ -z "$logic" ] || ! grep -q "logic $logic" README.md; then
    echo "library: proved in logic $logic, and README says: $(grep -o 'logic [0-9a-f]\{16\}' README.md)"
    exit 1
fi
if command -v rt >/dev/null && ! grep -qF "\`$(rt version)\`" README.md; then
    echo "library: the toolchain is $(rt version), and README names another one"
    exit 1
fi
echo 'library: six calls, no data of its own, calls memcpy, memmove and memset alone'
