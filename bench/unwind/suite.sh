#!/usr/bin/env bash
# Runs the tests of libunwind itself, unchanged, with our libraries in the place of its own.
#   bench/unwind/suite.sh FOLDER     FOLDER has our libunwind.so.8 (build/unwind)
#   ARCH=aarch64 bench/unwind/suite.sh build/aarch64/unwind   those for aarch64, under qemu-user, with build/arm64-root
# A minute. The tests are compiled from Debian's source, which apt fetches. These variables may be set:
#   WORK      a folder in which the source stays; else it is fetched each time
#   SOURCE    a folder with the unpacked source, which isn't fetched then
# This needs libunwind-dev; for aarch64 what `make packages ARCH=aarch64` installs, and g++-aarch64-linux-gnu for tests in C++.
# A test that fails is run with Debian's libunwind8, too: if it passes there, it has to pass here. Prints a line `ok NAME`
# or `FAILED NAME` for each, and `left out NAME: REASON` for those that aren't of the stack of their own process.
set -u
folder=$(realpath "$1")
here=$(dirname "$(realpath "$0")")
. "$here/../../tools/each_test.sh"
work=${WORK:-$(mktemp -d)}
mkdir -p "$work" && work=$(realpath "$work")
[ -n "${WORK:-}" ] || trap 'rm -rf "$work"' EXIT

arch=${ARCH:-x86_64}
root=$(realpath "$here/../../build")/arm64-root
libraries=$root/usr/lib/aarch64-linux-gnu
case $arch in
x86_64) prefix= flags= emulator= ;;
aarch64)
    prefix=aarch64-linux-gnu-
    flags="-idirafter $root/usr/include/aarch64-linux-gnu -L$libraries -Wl,-rpath-link,$libraries"
    emulator="qemu-aarch64 -cpu max,pauth-impdef=on -L $root"
    ;;
*) echo "ARCH is x86_64 or aarch64" >&2 && exit 2 ;;
esac

# Lists of sources of its own, since most systems have none.
fetch() {
    rm -rf "$work/unpacked" "$work/source"
    mkdir -p "$work/lists/partial" "$work/archives/partial" "$work/parts" "$work/unpacked"
    sed -s 's/^Types: deb$/Types: deb-src/' /etc/apt/sources.list.d/debian*.sources > "$work/parts/debian.sources" 2> /dev/null
    sed -n 's/^deb /deb-src /p' /etc/apt/sources.list > "$work/parts/debian.list" 2> /dev/null
    local options="-q -o Acquire::Retries=5 -o Dir::Etc::SourceList=/dev/null -o Dir::Etc::SourceParts=$work/parts -o Dir::State::Lists=$work/lists -o Dir::Cache=$work"
    (cd "$work" && apt-get $options update && apt-get $options source --download-only libunwind) > "$work/fetch.log" 2>&1 &&
        tar -C "$work/unpacked" --strip-components=1 -xf "$work"/libunwind_*.orig.tar.*z && mv "$work/unpacked" "$work/source"
}

# Compiles a test as libunwind's Makefile does, and links it to those of Debian's libraries that it needs.
build() { # TEST
    local more= libraries= compiler="${prefix}gcc -std=gnu11" file
    case $1 in
    *test-bt | *test-trace | test-ptrace-misc) more=ident.c ;;
    test-ptrace)
        mkdir -p "$work/config" && : > "$work/config/config.h"
        more="-I$work/config $(printf -- '-DHAVE_DECL_PTRACE_%s=1 ' TRACEME CONT SINGLESTEP SYSCALL)" libraries=-lunwind-ptrace
        ;;
    *dwarf-expressions) more=x64-test-dwarf-expressions.S ;;
    Ltest-init-local-signal) more=Ltest-init-local-signal-lib.c ;;
    esac
    file=$(cd "$source/tests" && ls "$1.c" "$1.cxx" 2> /dev/null)
    case $file in *.cxx) compiler=${prefix}g++ ;; esac
    (cd "$source/tests" && $compiler -w -g -O2 -fno-optimize-sibling-calls -fexceptions -D_GNU_SOURCE -DHAVE_EXECINFO_H=1 \
        -DHAVE_SYS_PTRACE_H=1 -I../include "$file" $more $flags -Wl,--as-needed $libraries "-lunwind-$arch" -lunwind -lpthread -ldl -o "$work/$1") > "$work/build.log" 2>&1
}

run() { # LIBRARIES TEST WORD..: runs a test with the libraries of a folder, or with the system's
    local libraries=$1 test=$2
    shift 2
    local path=${libraries:+LD_LIBRARY_PATH=$libraries}
    if [ "$arch" = aarch64 ]; then
        timeout 1800 $emulator ${path:+-E "$path"} "$work/$test" "$@" > "$work/$test.log" 2>&1
    else
        env ${path:+"$path"} timeout 900 "$work/$test" "$@" > "$work/$test.log" 2>&1
    fi
}

passes() { # TEST WORD..
    build "$1" || { tail -n 3 "$work/build.log"; return 1; }
    run "$folder" "$@" && return 0
    tail -n 5 "$work/$1.log"
    ! run "" "$@" && echo "it fails with libunwind, too"
}

# What the scripts run-ptrace-mapper and run-ptrace-misc do: test-ptrace takes the stack of a program after each instruction,
# where the program asks for that.
follows() { # WORD.. PROGRAM
    local program=${*: -1}
    build "$program" && passes test-ptrace -c "${@:1:$#-1}" -t "$work/$program"
}

leave_out() { # REASON TEST..
    local reason=$1 test
    shift
    for test in "$@"; do echo "left out $test: $reason"; done
}

source=${SOURCE:-$work/source}
[ -d "$source/tests" ] || fetch || { echo "FAILED libunwind's source can't be fetched: $(tail -n 1 "$work/fetch.log")"; exit 1; }

tests="test-strerror Gtest-bt Ltest-bt Gtest-exc Ltest-exc Gtest-init Ltest-init Gtest-concurrent Ltest-concurrent
    Gtest-resume-sig Ltest-resume-sig Gtest-resume-sig-rt Ltest-resume-sig-rt Gtest-trace Ltest-trace Ltest-init-local-signal
    Ltest-mem-validate test-async-sig test-flush-cache test-init-remote test-mem test-reg-state Ltest-varargs Ltest-nomalloc
    Ltest-nocalloc Lrs-race Ltest-cxx-exceptions"
of_x86_64="Gx64-test-dwarf-expressions Lx64-test-dwarf-expressions x64-unwind-badjmp-signal-frame"
for test in $tests; do test_of "$test" passes "$test"; done
if [ "$arch" = x86_64 ]; then
    for test in $of_x86_64 test-proc-info test-ptrace; do test_of "$test" passes "$test"; done
    test_of run-ptrace-mapper follows -n mapper
    test_of run-ptrace-misc follows test-ptrace-misc
else
    leave_out "it is for x86-64" $of_x86_64
    leave_out "there are no calls for other processes" test-proc-info test-ptrace run-ptrace-mapper run-ptrace-misc
fi
leave_out "it walks a core file, and fails with libunwind" run-coredump-unwind run-coredump-unwind-mdi
leave_out "it is linked statically, so it would not run with ours" test-static-link
leave_out "libunwind-setjmp has libunwind in itself" test-setjmp
leave_out "it compares names with those of libunwind's own build; c/tests/run.sh does that for ours" run-check-namespace
exit $status
