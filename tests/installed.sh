#!/bin/sh
# An installation by itself, with a folder for libraries of another name: a program built with what pkg-config says of it runs, the
# versions agree, each call has its manual page, the examples are built as the guide for hosts says, no text names a file of the repository
# that is not installed, and uninstall leaves no file, with DESTDIR as without.
set -eu
# (elsewhere than here, where rt ci takes no symbolic link)
folder=$(mktemp -d)
trap 'rm -rf "$folder"' EXIT
place=$folder/installed
libdir=$place/lib/elsewhere
papers=$place/share/doc/plex

# put DESTDIR TARGET
put() {
    make --no-print-directory "$2" "DESTDIR=$1" "PREFIX=$place" "LIBDIR=$libdir" >>build/install.log
}
# files FOLDER: what is there that is no folder
files() {
    find "$1" ! -type d
}

rm -f build/install.log
put '' install
export PKG_CONFIG_PATH="$libdir/pkgconfig"
# shellcheck disable=SC2046
$CC -std=c11 -Wall -Wextra -Werror -o build/header-installed tests/header*.c $(pkg-config --cflags --libs plex)
./build/header-installed
"$place/bin/plex" --help >>build/install.log
sh tests/versions.sh "$place/bin/plex" "$papers/CHANGELOG.md" build/plex_other
[ "$(pkg-config --variable=libdir plex)" = "$libdir" ] || { echo "installed: libdir is not $libdir"; exit 1; }
calls=$(sed -n 's/^uint32_t \(plex_[a-z]*\)(.*/\1/p' include/plex.h)
[ -n "$calls" ] || { echo 'installed: the header has no calls'; exit 1; }
for call in $calls; do
    [ "$(readlink "$place/share/man/man3/$call.3")" = plex.3 ] || { echo "installed: $call has no manual page"; exit 1; }
    for paper in "$place/share/man/man3/plex.3" "$papers/MACHINE.md"; do
        grep -q "$call\>" "$paper" || { echo "installed: $paper does not name $call"; exit 1; }
    done
done

# the commands of the guide for hosts, in a folder that has a copy of the installed examples
rm -rf build/examples
mkdir build/examples
cp -R "$papers/examples" build/examples/
grep -q 'Copy `examples` to a folder of yours' "$papers/HOSTS.md" || { echo 'installed: HOSTS.md builds where it stands'; exit 1; }
sed -n 's/^    \(cc .*\)/\1/p' "$papers/HOSTS.md" >build/examples/commands
(cd build/examples && sh -e ./commands && ./guests >guests.txt && ./one_by_one >one_by_one.txt && [ -x scheduler ]) ||
    { echo 'installed: the examples are not built as HOSTS.md says'; exit 1; }
sh tests/references.sh "$place" "$papers"

installed=$(files "$place" | wc -l)
put "$folder/staged" install
[ "$(files "$folder/staged" | wc -l)" = "$installed" ] || { echo 'installed: DESTDIR gets other files'; exit 1; }
put "$folder/staged" uninstall
put '' uninstall
left=$(files "$place"; files "$folder/staged")
[ -z "$left" ] || { echo "installed: uninstall leaves $left"; exit 1; }
[ ! -d "$papers" ] || { echo "installed: uninstall leaves the folder $papers"; exit 1; }
echo "installed: $installed files put in place and taken away"
