#!/bin/sh
# The layout of every text of the repository, and what the house asks of names and sizes. Says each fault, and fails if there is one.
set -u
faults=0

# a heading and the lines that are at fault under it, if any
report() {
    [ -n "$2" ] || return 0
    printf '%s:\n%s\n' "$1" "$2"
    faults=1
}

# (what is not in the layout of rt fmt rt ci refuses itself)
for crate in second compare; do
    report "not in the layout of rustfmt ($crate)" "$(cd $crate && cargo fmt --check 2>&1 | head -n 20)"
done
sources=$(git ls-files '*.c' '*.h')
if command -v clang-format >/dev/null; then
    report 'not in the layout of clang-format' "$(clang-format --dry-run -Werror $sources 2>&1 | head -n 20)"
fi
texts=$(git ls-files '*.c' '*.h' '*.rs' '*.sh' '*.awk' '*.py' '*.rt' '*.antt' '*.edit' '*.md' '*.txt' Makefile ':!crates/trials/data')
report 'tabs or spaces at the end of a line' "$(grep -nE '[[:space:]]+$' $texts)"
report 'lines over 140 columns' "$(git ls-files '*.c' '*.h' '*.rs' '*.sh' '*.awk' '*.py' '*.rt' '*.antt' Makefile | xargs perl -CSD -ne \
    'chomp; print "$ARGV:$.\n" if length($_) > 140; close ARGV if eof')"
report 'files over 300 lines' "$(git ls-files '*.c' '*.h' '*.rs' '*.sh' '*.py' '*.rt' '*.antt' | xargs wc -l |
    awk '$2 != "total" && 300 < $1')"

# a module with the name of a crate could not be told from it
crates=$(sed -n 's/^\([a-z_0-9]*\)\( staticlib\)*:.*/\1/p' crates.txt)
report 'modules with the name of a crate' "$(for crate in $crates; do ls crates/*/src/$crate.rt 2>/dev/null; done)"

# the sizes and places of the formats stand in rules alone
sizes=$(git grep -nwE '9633|9_633|2816|2817|426' -- 'crates/*.rt' 'crates/*.antt' ':!crates/rules' ':!crates/trials')
report 'sizes as numbers outside rules' "$sizes"

report 'docs/map.dot is not what `make map` makes of crates.txt' "$(awk -f tools/map.awk crates.txt | diff - docs/map.dot | head -n 5)"
report 'crates that docs/map.svg does not show' \
    "$(for crate in $crates; do grep -q "<title>$crate</title>" docs/map.svg || echo "$crate"; done)"

# a set that is not in the list would not be tried
report 'sets of vectors that sets.txt does not have' \
    "$(cd crates/trials/data && for index in */index.txt; do grep -q "^${index%/*} " sets.txt || echo "${index%/*}"; done)"

# no path of one machine
report 'paths of one machine' "$(git grep -nE '(^|[^[:alnum:]_.])/(work|root|home)/[A-Za-z]' -- . ':!tests/style.sh')"

[ $faults -eq 0 ] && echo 'style: every text is in its layout'
exit $faults
