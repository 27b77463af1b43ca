#!/bin/sh
# gdb passes through the library with host/plex-gdb.py: where a call stops at a buffer that nobody may touch, bt shows the call and the
# functions of the host that made it, and so it does at each instruction of a check. Without the script, the return addresses are among the
# numbers on the stack. Use: debugger.sh FAULTING, a program that makes the call that it is told
set -u
faulting=$1
folder=$(mktemp -d)
trap 'rm -rf "$folder"' EXIT

# in_gdb ARGUMENT..: what gdb says of the program
in_gdb() {
    timeout 60 gdb -nx -batch "$@" "$faulting" 2>&1
}
if ! in_gdb -ex 'python print(6 * 7)' | grep -qx 42 || ! in_gdb -ex 'run good' | grep -q 'exited normally'; then
    echo 'debugger: not tried: there is no gdb with Python here that can run a program'
    exit 0
fi

for call in check fresh run walk link; do
    in_gdb -x host/plex-gdb.py -ex "run $call" -ex bt >"$folder/said"
    frames=$(sed -n 's/^#[0-9]* .*\(plex_[a-z]*\|lend_[a-z]*\|main\) (.*/\1/p' "$folder/said" | tr '\n' ' ')
    [ "$frames" = "plex_$call lend_$call main " ] || { echo "debugger: $call: bt shows"; tail -n 6 "$folder/said"; exit 1; }
done

cat >"$folder/steps" <<'END'
break *plex_check
run good
set $back = *(long *) $sp
while $pc != $back
    bt
    stepi
end
END
in_gdb -x host/plex-gdb.py -x "$folder/steps" >"$folder/said"
steps=$(grep -c '^#0 ' "$folder/said")
if [ "$steps" -lt 100 ] || [ "$(grep -c '^#[0-9]* .* in main (' "$folder/said")" != "$steps" ] || grep -q '^#.* ?? ' "$folder/said"; then
    echo "debugger: of $steps instructions, bt does not lead to main from each"
    exit 1
fi

in_gdb -ex 'run run' -ex 'x/256a $sp' >"$folder/said"
for function in plex_run lend_run main; do
    grep -q "<$function+" "$folder/said" || { echo "debugger: the stack does not show $function"; exit 1; }
done
echo "debugger: bt leads from five calls, and from each of $steps instructions of a check, to the host"
