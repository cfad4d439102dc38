#!/usr/bin/env bash
# Checks on x86-64 that dwcheck's walks up the stack of a stopped program agree with gdb's, and that
# its walks from perf's samples of the program agree with perf's. The program is compiled by gcc,
# and by clang if it is installed, with six choices of flags. This needs gdb with Python. If perf
# can't record, the comparison with perf is left out.
#     bench/walk/run.sh DWCHECK [STOPS]        two minutes with 20 STOPS; 250 if not given
set -eu
program=$(realpath "$1") stops=${2:-250}
here=$(cd "$(dirname "$0")" && pwd)
work=$(mktemp -d)
trap 'rm -rf "$work"' EXIT

compiled() { # COMPILER FLAG..: compiles the program, and writes its .debug_frame section to a file
    rm -rf "${work:?}"/* && mkdir "$work/stops"
    "$@" -no-pie -g "$here/walk.c" -o "$work/walk"
    objcopy --dump-section ".debug_frame=$work/walk.frame" "$work/walk" /dev/null
}

beside_gdb() {
    compiled "$@" -fno-asynchronous-unwind-tables
    STOPS=$stops FOLDER=$work/stops gdb --batch --nx -x "$here/stops.py" "$work/walk" > "$work/log" 2>&1 || { cat "$work/log"; return 1; }
    said=$("$here/compare.py" "$program" "$work/walk.frame" "$work/stops")
    echo "$*, gdb: $said"
}

beside_perf() { # perf unwinds by .eh_frame, so the program gets both sections
    compiled "$@" -DBOTH_SECTIONS
    perf record -q -F 999 -e cpu-clock:u --call-graph dwarf,16384 -o "$work/data" "$work/walk" 2000000
    read -r start size < <(readelf -SW "$work/walk" | sed -n 's/.* \.text *PROGBITS *\([0-9a-f]*\) [0-9a-f]* \([0-9a-f]*\).*/\1 \2/p')
    end=$(printf %x $((0x$start + 0x$size)))
    said=$("$here/perf.py" "$program" "$work/walk.frame" "$work/data" "$start" "$end")
    echo "$*, perf: $said"
}

for compiler in gcc clang; do
    command -v "$compiler" > /dev/null || continue
    for flags in -O0 -O1 -O2 -Os "-O2 -fomit-frame-pointer" "-O2 -fno-omit-frame-pointer"; do
        # shellcheck disable=SC2086
        beside_gdb "$compiler" $flags
        if perf record -q -e cpu-clock:u -o "$work/tried" true 2> /dev/null; then
            # shellcheck disable=SC2086
            beside_perf "$compiler" $flags
        fi
    done
done
