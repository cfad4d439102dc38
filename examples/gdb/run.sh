#!/bin/sh
# Walks the stack of a stopped thread by the command of walk.py, in gdb, and compares all frames with those
# that gdb finds: in the process, and then in a core file that gdb has written of it.
# usage: examples/gdb/run.sh LIBDWCHECK.SO
set -eu
here=$(cd "$(dirname "$0")" && pwd)
out=$(mktemp -d)
trap 'rm -rf "$out"' EXIT
"${CC:-cc}" -O1 -g -fno-optimize-sibling-calls "$here/stopped.c" -o "$out/stopped"

cat > "$out/frames.py" << 'END'
frame = gdb.newest_frame()
while frame:
    if frame.type() in (gdb.NORMAL_FRAME, gdb.SIGTRAMP_FRAME):
        print("gdb %#018x" % frame.pc())
    frame = frame.older()
END

compared() { # NAME LIBRARY ARGUMENT..: gdb with these arguments stops where both walk
    name=$1
    library=$2
    shift 2
    gdb -q -batch -ex "set backtrace past-main on" -ex "set backtrace past-entry on" "$@" -ex "source $here/walk.py" \
        -ex "dwcheck $library" -ex "source $out/frames.py" > "$out/printed" 2>&1 || { cat "$out/printed"; exit 1; }
    sed -n 's/^#[0-9]* *\(0x[0-9a-f]*\) cfa .*/\1/p' "$out/printed" > "$out/ours"
    sed -n 's/^gdb \(0x[0-9a-f]*\)$/\1/p' "$out/printed" > "$out/theirs"
    if ! diff "$out/ours" "$out/theirs" || [ "$(wc -l < "$out/ours")" -lt 8 ]; then
        cat "$out/printed"
        exit 1
    fi
    echo "ok gdb, $name: $(wc -l < "$out/ours") frames are gdb's"
}

compared "a process" "$1" "$out/stopped" -ex "break stopped" -ex run -ex "generate-core-file $out/core"
compared "a core file" "$1" "$out/stopped" "$out/core"
