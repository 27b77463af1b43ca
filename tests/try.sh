#!/bin/sh
# The trials compiled a third way: without proofs, and with the compiler's assumptions checked, so that an index out of bounds, a sum that
# wraps or a bad access would stop them. rt ci runs the proved program as two compilers make it, LLVM and Rattle's own. Every line of the
# vectors is tried, and printed is what rt ci wants.
set -eu
folder=$(mktemp -d)
trap 'rm -rf "$folder"' EXIT
cd crates/trials
for file in $(cd data && find . -type f | sed 's|^\./||'); do
    set -- "$@" --data "$file=data/$file"
done
rt try --seconds 600 "$@" >"$folder/stdout" 2>"$folder/said" </dev/null ||
    { echo "try: status $?"; tail -n 5 "$folder/said"; exit 1; }
grep -q '^checked: ended status=0$' "$folder/said" || { echo 'try: they did not end'; tail -n 5 "$folder/said"; exit 1; }
diff "$folder/stdout" stdout || { echo 'try: they print something else'; exit 1; }
echo "try: $(wc -l <stdout) lines printed, as in the proved program"
