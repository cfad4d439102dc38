#!/usr/bin/env bash
# Times walks of dwcheck-dl beside those of glibc and libunwind in one process (times.c): of 27 and 606 frames, each
# three times, and first walks of ten processes.
#   LIBRARY=libdwcheck.a DL_LIBRARY=libdwcheck-dl.a bench/own_stacks/times.sh     seconds
# This needs x86-64, gcc and libunwind-dev.
set -eu
here=$(cd "$(dirname "$0")" && pwd)
top=$(cd "$here/../.." && pwd)
library=$(realpath "${LIBRARY:-$top/build/libdwcheck.a}")
dl_library=$(realpath "${DL_LIBRARY:-$top/build/libdwcheck-dl.a}")
work=$(mktemp -d)
trap 'rm -rf "$work"' EXIT
gcc -std=gnu11 -O2 -Wall -Wextra -Wl,-z,now "-I$top/c/include" "$here/times.c" "$dl_library" "$library" -lunwind -o "$work/times" -pthread -ldl
for _ in 1 2 3; do
    "$work/times" 21
    "$work/times" 600 100
done
for call in first unw glibc; do
    echo "$call:"
    for _ in 1 2 3 4 5 6 7 8 9 10; do "$work/times" "$call"; done
done
