#!/bin/sh
# Runs the main job before anything is proved: checks a section and prints its rows, by the program
# worked_rows. Takes a minute at most, writes nothing into the repository, and needs the kit alone.
set -eu
top=$(dirname "$(dirname "$(realpath "$0")")")
"$top/tools/kit.sh"
echo "compiling the libraries, without proofs: up to a minute" >&2
log=$(mktemp)
trap 'rm -f "$log"' EXIT
cd "$top/crates/worked_rows"
rt try 2> "$log" || { tail -n 5 "$log" >&2; exit 1; }
