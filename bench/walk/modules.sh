#!/usr/bin/env bash
# Checks on x86-64 that dwcheck's walks through two modules agree with gdb's. A position-independent
# program (PIE) calls a library, and the library calls back into the program. Both are compiled by
# gcc, and by clang if it is installed, with six choices of flags.
#     bench/walk/modules.sh DWCHECK [STOPS]        two minutes; 100 STOPS if not given
# This needs gdb with Python. gdb gives the load addresses; each must be the difference between the
# addresses that gdb and `nm` give for a symbol. DWCHECK may also be bench/models/module_model.py,
# the model of such walks in Python.
set -eu
program=$(realpath "$1") stops=${2:-100}
here=$(cd "$(dirname "$0")" && pwd)
work=$(mktemp -d)
trap 'rm -rf "$work"' EXIT

linked() { # FILE SYMBOL: prints the symbol's address as linked
    nm "$1" | sed -n "s/^0*\([0-9a-f]*\) [Tt] $2\$/0x\1/p"
}

# COMPILER FLAG..: compiles the program and the library, and writes the .debug_frame section and a
# symbol of each to files.
compiled() {
    rm -rf "${work:?}"/* && mkdir "$work/stops"
    flags=(-g -gdwarf-5 -fno-asynchronous-unwind-tables -fno-unwind-tables)
    "$@" "${flags[@]}" -shared -fPIC "$here/library.c" -o "$work/libbeside.so"
    "$@" "${flags[@]}" -pie -fPIE "$here/process.c" -L"$work" -lbeside -Wl,-rpath,"$work" -Wl,-z,now -o "$work/process"
    for file in process libbeside.so; do
        objcopy --dump-section ".debug_frame=$work/$file.frame" "$work/$file" /dev/null
    done
    printf '%s\n' "process innermost $(linked "$work/process" innermost)" \
        "libbeside.so through_library $(linked "$work/libbeside.so" through_library)" > "$work/symbols"
}

beside_gdb() {
    compiled "$@"
    STOPS=$stops FOLDER=$work/stops MODULES=$work/symbols gdb --batch --nx -x "$here/stops.py" "$work/process" > "$work/log" 2>&1 ||
        { cat "$work/log"; return 1; }
    said=$("$here/compare.py" "$program" "$work/process.frame" "$work/stops" "libbeside.so=$work/libbeside.so.frame")
    echo "$*: $said"
}

for compiler in gcc clang; do
    command -v "$compiler" > /dev/null || continue
    for flags in -O0 -O1 -O2 -Os "-O2 -fomit-frame-pointer" "-O2 -fno-omit-frame-pointer"; do
        # shellcheck disable=SC2086
        beside_gdb "$compiler" $flags
    done
done
