#!/usr/bin/env bash
# Builds the crash reporter, makes a core file of a program with two threads, and lets the crash
# reporter print the threads' stacks. All frames must have the addresses that elfutils' eu-stack
# finds.
# usage: examples/rust/run.sh
# libdwcheck is searched for in the folder DWCHECK_LIB_DIR, or if that isn't set, with pkg-config.
# This needs cargo, gcc, gdb, elfutils and the packages that rust/cargo.sh names.
set -euo pipefail
here=$(cd "$(dirname "$0")" && pwd)
work=$(mktemp -d)
trap 'rm -rf "$work"' EXIT
(cd "$here" && ../../rust/cargo.sh build --quiet)
libraries=${DWCHECK_LIB_DIR:-$(pkg-config --variable=libdir dwcheck)}
export LD_LIBRARY_PATH=$libraries${LD_LIBRARY_PATH:+:$LD_LIBRARY_PATH}
gcc -O1 -g "$here/crash.c" -o "$work/crash" -pthread
cd "$work"
"$here/../../tools/make_core.sh" ./crash
"${CARGO_TARGET_DIR:-$here/../../rust/target}/debug/stack" core | tee ours

addresses() { # FILE: prints a line for each thread, and one for the address of each of its frames
    awk 'tolower($1) ~ /^(thread|tid)$/ { print "thread", $2 + 0 } /^#/ && $4 != "inlined" { print $2 }' "$1"
}
addresses ours > ours.addresses
eu-stack --core core -e crash > theirs
addresses theirs > theirs.addresses
diff ours.addresses theirs.addresses
echo "$(grep -c ^0x ours.addresses) frames are eu-stack's"
