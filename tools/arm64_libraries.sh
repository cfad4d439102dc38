#!/usr/bin/env bash
# The shared libraries that programs for aarch64 need, among Debian's packages in build/arm64-root.
#   tools/arm64_libraries.sh paths FILE..      prints the path of each
#   tools/arm64_libraries.sh packages FILE..   prints their packages, each with its version
#   tools/arm64_libraries.sh depends FILE..    prints those that the files name, as a Debian package depends on them that has
#                                              these files
set -eu
top=$(dirname "$(dirname "$(realpath "$0")")")
root=$top/build/arm64-root
folder=$root/usr/lib/aarch64-linux-gnu

named() { # FILE: the libraries that it names
    readelf -d "$1" | sed -n 's/.*(NEEDED).*\[\(.*\)\]$/\1/p'
}

paths_of() { # FILE: those, and what they name, and so on
    local name
    for name in $(named "$1"); do
        [ -e "$folder/$name" ] || continue # our own
        echo "$folder/$name"
        paths_of "$folder/$name"
    done
}

packages_with() { # NAME..: the packages that have libraries of these names
    local name
    for name in "$@"; do
        sed -n "s/^${name//[.+]/\\&} //p" "$root/libraries"
    done | LC_ALL=C sort -u | LC_ALL=C join - <(LC_ALL=C sort "$root/versions")
}

each() { # COMMAND FILE..
    local command=$1 file
    shift
    for file in "$@"; do "$command" "$file"; done | LC_ALL=C sort -u
}

command=$1
shift
case $command in
paths) each paths_of "$@" ;;
packages) packages_with $(each paths_of "$@" | sed 's|.*/||') ;;
depends) packages_with $(each named "$@" | grep -vxF "$(basename -a "$@")") | sed 's/ \([0-9]*:\)\?\([0-9.]*\).*/ (>= \1\2)/' | paste -sd , | sed 's/,/, /g' ;;
*) echo "usage: tools/arm64_libraries.sh paths|packages|depends FILE.." >&2 && exit 2 ;;
esac
