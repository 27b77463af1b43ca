#!/bin/sh
# No installed text names a file of the repository that is not installed: what it names with a folder of the repository before it, and
# what the repository has at its top, in docs or in host, has to stand beside the installed papers. But for the list of changes, none
# asks for a target of the Makefile.
# Use: references.sh PLACE PAPERS, the folder of the installation and in it that of the papers
set -eu
folders="$(git ls-files | sed -n 's|/.*||p' | sort -u | tr '\n' '|')build|target"
tops="$(git ls-files | sed -n 's,^\(docs\|host\)/\([^/]*\)$,\2,p; /\//!p' | sed 's/[.]/[.]/g' | tr '\n' '|')README"
texts=$(find "$1" -type f ! -name plex ! -name libplex.a)

# shellcheck disable=SC2086
named=$(grep -ohE '[A-Za-z0-9_./*-]+' $texts | sed 's/[.]*$//' | grep -E "^($folders)/[A-Za-z0-9_*]|^($tops)$" | sort -u)
set -f
missing=
for name in $named; do
    [ -n "$(find "$2" -path "$2/$name")" ] || missing="$missing $name"
done
if [ -n "$missing" ]; then
    echo "references: named in an installed text, and not installed:$missing"
    exit 1
fi
# shellcheck disable=SC2086
if grep -nE '(`|^ +)make [a-z]' $texts | grep -v '/CHANGELOG[.]md:'; then
    echo 'references: no Makefile is installed'
    exit 1
fi
echo "references: $(echo "$named" | wc -l) names in installed texts, all of them installed"
