#!/usr/bin/env bash
# Compares walks with kept rows (dwcheck_walk) with the frames of glibc, of gdb and of a cursor, in programs that gcc
# and clang compile at five levels: shapes.c, throws.cc and panics.rs. Then come random walks beside a cursor
# (random.c) and hostile input (hostile.c). Prints a line for each program; the exit status is 1 if an address differs.
#   LIBRARY=libdwcheck.a bench/kept_rows/run.sh [STEPPED] [WALKS]    some minutes
# STEPPED calls are walked at each instruction (4), and there are WALKS random walks (1000000). INCLUDE is the folder
# of dwcheck.h, if it isn't this checkout's. WORK is a folder in which what is built stays.
# This needs x86-64, gcc, g++, clang, clang++, gdb and valgrind; and rustc for panics.rs, which is left out without it.
set -u
here=$(cd "$(dirname "$0")" && pwd)
library=$(realpath "${LIBRARY:-$here/../../build/libdwcheck.a}")
include=$(realpath "${INCLUDE:-$here/../../c/include}")
stepped=${1:-4}
walks=${2:-1000000}
work=${WORK:-$(mktemp -d)}
mkdir -p "$work" && cd "$work" || exit 2
status=0
flags=(-Wall -Wextra -g -I"$here" -I"$include")

failed() { echo "FAILED: $*"; status=1; }
try() { "$@" || failed "$@"; }

gcc -std=gnu11 "${flags[@]}" -O2 -c "$here/own.c" -o own.o || exit 2
for level in O0 O1 O2 O3 Os; do
    for compiler in gcc clang; do
        name=$compiler-$level
        $compiler -std=gnu11 "${flags[@]}" -$level "$here/shapes.c" own.o "$library" -pthread -lm -o "shapes-$name" || failed "$name"
        try "./shapes-$name" 1000 "$stepped"
        gdb -q -batch -x "$here/gdb_frames.py" --args "./shapes-$name" 40 0 > gdb.txt 2>&1 || failed "gdb shapes-$name"
        grep '^gdb: ' gdb.txt
    done
    for compiler in g++ clang++; do
        name=$compiler-$level
        $compiler -std=c++17 "${flags[@]}" -$level "$here/throws.cc" own.o "$library" -pthread -o "throws-$name" || failed "$name"
        try "./throws-$name" 300 "$stepped"
        gdb -q -batch -x "$here/gdb_frames.py" --args "./throws-$name" 40 0 > gdb.txt 2>&1 || failed "gdb throws-$name"
        grep '^gdb: ' gdb.txt
    done
done
if command -v rustc > /dev/null; then
    ar rcs libown.a own.o && cp "$library" libdwcheck.a
    for level in 0 1 2 3 s; do
        rustc -C "opt-level=$level" -C panic=unwind "$here/panics.rs" -L . -l static=own -l static=dwcheck -o "panics-$level" || failed "panics-$level"
        try "./panics-$level" 300 "$stepped"
    done
fi
for name in random hostile; do
    gcc -std=gnu11 "${flags[@]}" -O2 "$here/$name.c" "$library" -pthread -o "$name" || failed "$name"
    gcc -std=gnu11 "${flags[@]}" -O1 -fsanitize=address,undefined -fno-sanitize-recover=all "$here/$name.c" "$library" -pthread -o "$name-asan" || failed "$name"
    try "./$name" "$walks" 1
    try "./$name-asan" $((walks / 20)) 2
    try valgrind -q --error-exitcode=1 "./$name" $((walks / 500)) 3
done
exit $status
