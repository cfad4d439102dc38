#!/bin/sh
# Builds the examples and runs them. The frames that `stack`, `crash`, `attach` and `core` print must be
# those that gdb finds in the same process or core file. The second one that `crash` prints must be in the function `deep`,
# by its file and its address there. A stack that `profiler` prints must contain the function `often`. The CFA that
# `in_place` finds must be the compiler's.
# usage: examples/c/run.sh
# The flags with which the compiler finds the libraries come from pkg-config, or from DWCHECK_FLAGS if
# it is set, for example DWCHECK_FLAGS="-Iinclude libdwcheck-dl.a libdwcheck.a".
set -eu
here=$(cd "$(dirname "$0")" && pwd)
out=$(mktemp -d)
trap 'rm -rf "$out"' EXIT
library=${DWCHECK_FLAGS:-$(pkg-config --cflags --libs dwcheck-dl)}
build="-std=gnu11 -Wall -Wextra -Werror -O2 -g -fno-optimize-sibling-calls -rdynamic"
for program in stack crash profiler attach core in_place; do
    case $program in
    attach | core) with="$here/remote.c $here/state.c" ;;
    in_place) with=$here/state.c ;;
    *) with= ;;
    esac
    # $build, $with and $library aren't quoted, because each is a list of words.
    "${CC:-cc}" $build "$here/$program.c" $with $library -pthread -ldl -o "$out/$program"
done

# $build and $library aren't quoted, for the same reason.
"${CC:-cc}" $build "$here/moved.c" $library -pthread -ldl -o "$out/moved"
"${CC:-cc}" $build -DLIBUNWIND "$here/moved.c" -lunwind -o "$out/before"

# It waits, and lets any process trace it.
printf '#include <sys/prctl.h>\n#include <unistd.h>\nint main(void) { return prctl(PR_SET_PTRACER, -1L, 0, 0, 0), pause(); }\n' |
    "${CC:-cc}" -x c - -o "$out/waiting"

# A gdb script that prints the addresses of a thread's frames on the stack. gdb shows inlined functions too, and
# functions that ended in a jump to another.
cat > "$out/frames.py" << 'END'
frame = gdb.newest_frame()
while frame:
    if frame.type() not in (gdb.INLINE_FRAME, gdb.TAILCALL_FRAME):
        print("gdb %#018x" % frame.pc())
    frame = frame.older()
END

same_as_gdb() { # LEAST: the frames that an example printed are those that gdb printed, and at least LEAST
    sed -n 's/^frame [0-9]* \(0x[0-9a-f]*\).*/\1/p' "$out/frames" > "$out/ours"
    sed -n 's/^gdb \(0x[0-9a-f]*\)$/\1/p' "$out/gdb" | diff "$out/ours" - && [ "$(wc -l < "$out/ours")" -ge "$1" ]
}

until_it_waits() { # PROCESS: until it is in pause, at most a minute. 34 is that call's number on x86-64.
    for _ in $(seq 600); do
        ! grep -qs '^34 ' "/proc/$1/syscall" || return 0
        sleep 0.1
    done
    return 1
}

attached() { # the frames of a process that waits, beside gdb's
    "$out/waiting" &
    sleeper=$!
    trap 'kill "$sleeper"; rm -rf "$out"' EXIT
    until_it_waits "$sleeper" || return 1
    "$out/attach" $sleeper > "$out/frames" || return 1
    gdb -q -batch -ex "set backtrace past-main on" -x "$out/frames.py" -p $sleeper > "$out/gdb" 2>&1
    kill $sleeper
    trap 'rm -rf "$out"' EXIT
    same_as_gdb 5
}

cored() { # the frames of both threads of a core file, beside gdb's
    "${CC:-cc}" -g -O0 -pthread "$here/../rust/crash.c" -o "$out/dies"
    mkdir "$out/dead"
    (cd "$out/dead" && "$here/../../tools/make_core.sh" ../dies)
    "$out/core" "$out/dead/core" > "$out/frames" || return 1
    gdb -q -batch -ex "set backtrace past-main on" -ex "thread apply all -ascending -q source $out/frames.py" \
        "$out/dies" "$out/dead/core" > "$out/gdb" 2>&1
    same_as_gdb 30
}

compared() { # PROGRAM LEAST: its frames, at least LEAST of them, are compared with gdb's
    if [ -n "${DWCHECK_NO_PTRACE:-}" ]; then
        # gdb can't run programs on this machine, so only the number of frames is checked.
        "$out/$1" > "$out/frames" 2>&1 || [ "$1" = crash ]
        [ "$(grep -c ^frame "$out/frames")" -ge "$2" ]
        echo "ok $1: $(grep -c ^frame "$out/frames") frames"
    elif gdb -q -batch -ex "set \$written = \"$out/frames\"" -ex "set \$least = $2" -x "$here/compare.py" "$out/$1" \
        > "$out/gdb" 2>&1; then
        echo "ok $1: $(grep "are gdb's" "$out/gdb")"
    else
        tail -n 9 "$out/gdb"
        exit 1
    fi
}

compared stack 43
ulimit -c 0
compared crash 14
place=$(sed -n 's/^frame 1 .* \(.*\)+\(0x.*\)$/-e \1 \2/p' "$out/frames")
addr2line -f $place | grep -qx deep
echo "ok crash: frame 1 is in deep"
"$out/before" > "$out/theirs"
"$out/moved" | diff - "$out/theirs"
[ "$(grep -c deep "$out/theirs")" -eq 11 ]
echo "ok moved: $(wc -l < "$out/theirs") frames are libunwind's"
if [ -z "${DWCHECK_NO_PTRACE:-}" ]; then
    attached
    echo "ok attach: $(wc -l < "$out/ours") frames are gdb's"
fi
cored
echo "ok core: $(wc -l < "$out/ours") frames of two threads are gdb's"
"$out/profiler" | tee "$out/stacks"
grep -q often "$out/stacks"
echo "ok profiler: often is in a stack"
"$out/in_place" | tee "$out/row"
[ "$(sed -n 's/^cfa \(0x[0-9a-f]*\) by .*/\1/p' "$out/row" | uniq | wc -l)" -eq 1 ]
echo "ok in_place: the CFA of the row is the compiler's"
