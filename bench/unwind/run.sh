#!/usr/bin/env bash
# libunwind's calls over the library, judged by others: libunwind's own tests, unchanged programs of Debian, the stacks at
# allocations of large programs (preload.c), and times beside libunwind.
#   bench/unwind/run.sh [FOLDER]     some minutes; FOLDER has our libunwind.so.8 (build/unwind)
# `heaptrack` is timed with a C++ compiler as its program: its median of five runs with ours and with libunwind. So is `perf
# script`, with a recording of the compiler of some 100 MB, which is compared with `dwcheck-elf profile` if there is one in
# build/. WORK is a folder in which what is built stays. This needs what clients.py and suite.sh need.
set -u
here=$(dirname "$(realpath "$0")")
top=$(dirname "$(dirname "$here")")
folder=$(realpath "${1:-$top/build/unwind}")
work=${WORK:-$(mktemp -d)}
mkdir -p "$work"
status=0

of_libunwind() { /sbin/ldconfig -p | sed -n 's/.*libunwind\.so\.8 .*=> //p' | head -n 1; }

with_both() { # PROGRAM WORD..: runs a program that compares its stacks at each seventh malloc
    local theirs
    theirs=$(of_libunwind)
    env LD_PRELOAD="$work/preload.so" OURS="$folder/libunwind.so.8" THEIRS="$theirs" "$@" 2>&1 | grep -a "^[0-9]* stacks, " |
        tee "$work/compared" | sed "s|^|$(basename "$1"): |"
    grep -q ': 0 stacks differ from libunwind.s, 0 from ' "$work/compared"
}

# Stacks in programs of many functions, in which both libraries are.
compare_in_programs() {
    g++ -E "$here/work.cc" -o "$work/work.ii" && cc -O2 -Wall -Wextra -shared -fPIC "$here/preload.c" -o "$work/preload.so" -ldl &&
        with_both "$(g++ -print-prog-name=cc1plus)" -quiet -O1 "$work/work.ii" -o /dev/null &&
        with_both /usr/bin/python3 -c 'import email, json, http.client, re' && with_both gdb -q -batch -ex 'info functions main' /bin/ls
}

times() {
    cc -O2 -g -shared -fPIC "$top/bench/beside_libunwind/through.c" -o "$work/libthrough.so" &&
        cc -std=gnu11 -Wall -Wextra -O2 -g "-I$top/c/include" "$here/times.c" "$work/libthrough.so" "$folder/libunwind.so.8" \
            "-Wl,-rpath,$folder:$work" -ldl -o "$work/times" &&
        "$work/times" "$(of_libunwind)"
}

# Prints the median of the seconds that heaptrack takes with the compiler.
heaptrack_seconds() { # LIBRARIES
    for _ in 1 2 3 4 5; do
        env LD_LIBRARY_PATH="$1" bash -c "TIMEFORMAT=%R; time heaptrack -o '$work/compiler' $compiler -quiet -O1 '$work/work.ii' -o /dev/null" 2>&1 >/dev/null | tail -n 1
    done | sort -n | sed -n 3p
}

heaptrack_times() {
    compiler=$(g++ -print-prog-name=cc1plus)
    g++ -E "$here/work.cc" -o "$work/work.ii" || return 1
    local theirs ours
    theirs=$(heaptrack_seconds "") && ours=$(heaptrack_seconds "$folder")
    python3 -c "print(f'heaptrack of a C++ compiler: {$ours:.2f} s, with libunwind {$theirs:.2f} s: {$ours / $theirs:.2f}')"
}

# A recording of the compiler: at 1,500 samples a second, in eight seconds.
recordings() {
    g++ -E "$here/large.cc" -o "$work/large.ii" || return 1
    [ -s "$work/compiler.perf" ] || perf record -q -N -F 1500 -e cpu-clock --call-graph dwarf,8192 -o "$work/compiler.perf" \
        "$(g++ -print-prog-name=cc1plus)" -quiet -O2 "$work/large.ii" -o /dev/null || return 1
    local words=()
    [ ! -x "$top/build/dwcheck-elf" ] || words=(--profile "$top/build/dwcheck-elf")
    "$here/recordings.py" "$folder" "$work/compiler.perf" "${words[@]}"
}

WORK=$work/suite "$here/suite.sh" "$folder" || status=1
"$here/clients.py" "$folder" || status=1
compare_in_programs || status=1
times || status=1
heaptrack_times || status=1
recordings || status=1
exit $status
