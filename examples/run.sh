#!/bin/bash
# Runs the examples in C, for gdb and in Rust over the library that make builds in build/, and the job over
# an archive. Prints a line `ok NAME` or `FAILED NAME` for each, and ends with status 1 if one failed.
set -u
top=$(dirname "$(dirname "$(realpath "$0")")")
export DWCHECK_LIB_DIR=${DWCHECK_LIB_DIR:-$top/build}
. "$top/tools/each_test.sh"

test_of examples/c env DWCHECK_FLAGS="-I$top/c/include $top/build/libdwcheck-dl.a $top/build/libdwcheck.a" "$top/examples/c/run.sh"
if [ -z "${DWCHECK_NO_PTRACE:-}" ]; then
    test_of examples/gdb "$top/examples/gdb/run.sh" "$(ls "$top"/build/libdwcheck.so.*.*.*)"
fi
test_of examples/rust "$top/examples/rust/run.sh"
"$top/examples/archive/run.sh" || status=1
exit $status
