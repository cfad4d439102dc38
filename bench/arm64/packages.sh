#!/usr/bin/env bash
# Compares the rows of 108 of Debian 12's packages for arm64, all their programs and libraries, with those of aarch64's readelf.
#   bench/arm64/packages.sh [FOLDER]
# FOLDER (build/arm64-packages) keeps the packages that packages.txt names, 1.2 GB. The rows are those that the library on this
# machine reads, from sections added to a process and in place (rows_beside.c); the gate compares those of some libraries with
# the library for aarch64. Of a file whose section is refused, bad records are left out, and listed; the rows of all others are
# compared. Needs what `make` has built, and some 3 minutes of a processor: a look-up in place reads an FDE from its beginning,
# and cc1 has FDEs with thousands of rows. Prints a line for each file with rows that differ, and how many rows of how many
# files there are; the status is 1 if a row differs.
set -eu
top=$(dirname "$(dirname "$(dirname "$(realpath "$0")")")")
folder=$(realpath -m "${1:-$top/build/arm64-packages}")
out=$(mktemp -d)
trap 'rm -rf "$out"' EXIT

"$top/tools/packages.sh" install arm64
"$top/tools/arm64_root.sh" "$folder" bookworm $(cat "$top/bench/arm64/packages.txt")
cc -std=gnu11 -D_GNU_SOURCE -O2 -I"$top/c/include" "$top/bench/arm64/rows_beside.c" "$top/build/libdwcheck.a" -o "$out/rows_beside"
"$top/bench/arm64/packages.py" "$folder" -- "$out/rows_beside"
