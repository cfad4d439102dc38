#!/bin/bash
# What vm.sh runs in the virtual machine: a line `ok NAME` or `FAILED NAME` for each comparison.
set -u
tests=/test
work=$(mktemp -d)
cd "$work"
ulimit -c unlimited
elf=$tests/dwcheck-elf

# A gdb script that prints the addresses of a thread's frames on the stack.
cat > frames.py << 'END'
frame = gdb.newest_frame()
while frame:
    if frame.type() not in (gdb.INLINE_FRAME, gdb.TAILCALL_FRAME):
        print("gdb %#018x" % frame.pc())
    frame = frame.older()
END

test_of() { # NAME COMMAND..
    local name=$1
    shift
    if "$@" > shown 2>&1; then
        echo "ok $name: $(tail -n 1 shown | cut -c 1-90)"
    else
        echo "FAILED $name"
        tail -n 12 shown | sed 's/^/    /'
    fi
}

gdb_of() { # WORD..: what gdb prints, and nothing is asked
    gdb -q -batch -ex 'set confirm off' -ex 'set backtrace past-main on' "$@" > gdb 2>&1
}

# The frames in the file `frames` are those that gdb has printed, and at least LEAST.
same_as_gdb() { # LEAST
    sed -n '/ tail call$/d; s/^\(frame \|#\)[0-9]* \(0x[0-9a-f]*\).*/\2/p' frames > ours
    sed -n 's/^gdb \(0x[0-9a-f]*\)$/\1/p' gdb > theirs
    diff ours theirs && [ "$(wc -l < ours)" -ge "$1" ] && echo "$(wc -l < ours) frames are gdb's"
}

core_of() { # PROGRAM: runs it until it dies, and leaves its core file as the file `core`
    rm -f core core.*
    "$tests/$1" > /dev/null 2>&1
    if [ ! -f core ]; then mv core.* core; fi
}

compared() { # PROGRAM LEAST: an example beside gdb, which runs it
    gdb -q -batch -ex 'set confirm off' -ex "set \$written = \"$work/frames\"" -ex "set \$least = $2" -x "$tests/compare.py" "$tests/$1"
}

core_example() { # KIND
    core_of "dies-$1"
    "$tests/core-$1" core > frames
    gdb_of -ex "thread apply all -ascending -q source frames.py" "$tests/dies-$1" core
    same_as_gdb 30
}

core_of_threads() { # KIND
    core_of "dies-$1"
    "$elf" stack --no-inline core > frames
    gdb_of -ex "thread apply all -ascending -q source frames.py" "$tests/dies-$1" core
    same_as_gdb 30
}

through_handler() { # KIND: a core of a process that died in a handler
    core_of "handler-$1"
    "$elf" stack --no-inline --strict core > frames
    gdb_of -x frames.py "$tests/handler-$1" core
    same_as_gdb 15
}

# gdb stops the process first, so that both stop it where it waits.
live() { # WORD..: a program that prints the frames of the process whose id comes after these words
    sleep 1000 &
    local sleeper=$!
    sleep 1
    "$@" $sleeper > frames
    gdb_of -x frames.py -p $sleeper
    kill $sleeper
    same_as_gdb 5
}

# Samples of a program with their stacks: perf's and ours have `often` in as many.
profiled() { # KIND
    perf record -q -e cpu-clock -F 200 --call-graph dwarf -o perf.data "$tests/profiler-$1" > /dev/null || return 1
    "$elf" profile perf.data > profile || { tail -n 3 profile; return 1; }
    grep -q often profile && wc -l < profile
}

for kind in plain signed; do
    test_of "$kind: stacks are glibc's" "$tests/dl-$kind"
    test_of "$kind: walks from wherever a timer interrupts reach the start" "$tests/dl_interrupted-$kind" 5000
    test_of "$kind: the example stack beside gdb" compared stack-$kind 40
    test_of "$kind: the example crash beside gdb" compared crash-$kind 14
    test_of "$kind: the example core beside gdb" core_example $kind
    test_of "$kind: the example attach beside gdb" live "$tests/attach-$kind"
    test_of "$kind: dwcheck-elf stack of a core file beside gdb" core_of_threads $kind
    test_of "$kind: dwcheck-elf stack through a signal's handler beside gdb" through_handler $kind
    test_of "$kind: dwcheck-elf profile of a recording of perf" profiled $kind
done
test_of "signed: stacks, also where a return address is in its register, are glibc's" "$tests/dl_signed-signed"
test_of "libunwind's calls beside libunwind" "$tests/unwind" /usr/lib/aarch64-linux-gnu/libunwind.so.8
test_of "libunwind's calls for other processes beside libunwind" "$tests/unwind_remote" /usr/lib/aarch64-linux-gnu/libunwind-aarch64.so.8
test_of "libunwind's calls with accessors that fail, lie, step and leave" "$tests/unwind_remote_input"
test_of "dwcheck-elf stack of a process that runs beside gdb" live "$elf" stack --no-inline --pid
test_of "dwcheck-elf checks the C library" "$elf" check /lib/aarch64-linux-gnu/libc.so.6
