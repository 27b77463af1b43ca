#!/bin/sh
# One version wherever it is said: text and number of the installed header, the library's call, the command, pkg-config, the newest heading
# of CHANGELOG. A command that is linked with a library of another version says both, and its status is 2.
# Use: versions.sh COMMAND CHANGELOG OTHER, the last a command with another library; PKG_CONFIG_PATH leads to plex.pc
set -eu
# shellcheck disable=SC2046
$CC -std=c11 -Wall -Wextra -Werror -o build/version tests/version.c $(pkg-config --cflags --libs plex)
./build/version >build/version.txt
version=$(sed -n 1p build/version.txt)
formats=$(sed -n 4p build/version.txt)

# agrees WHAT SAID EXPECTED
agrees() {
    [ "$2" = "$3" ] || { echo "versions: $1: '$2', and with the text of the header: '$3'"; exit 1; }
}
agrees 'the number of the header' "$(sed -n 2p build/version.txt)" "$version"
agrees 'the library' "$(sed -n 3p build/version.txt)" "$version"
agrees 'the command' "$("$1" --version)" "plex $version, library $version, format $formats"
agrees 'pkg-config' "$(pkg-config --modversion plex)" "$version"
agrees 'the newest heading of CHANGELOG' "$(sed -n 's/^## //p' "$2" | head -n 1)" "$version (formats: version $formats)"

status=0
said=$("$3" --version 2>&1) || status=$?
if [ $status != 2 ] || ! echo "$said" | grep -q "^plex $version, library ${version%.*}\.$((${version##*.} + 1)), format $formats$" ||
    ! echo "$said" | grep -q '^plex: the library is not of the version'; then
    echo "versions: a command with another library: status $status; it says: $said"
    exit 1
fi
echo "versions: $version of header, library, command, pkg-config and CHANGELOG"
