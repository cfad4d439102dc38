#!/bin/bash
# Tests what `make ARCH=aarch64` has built, in build/aarch64, under qemu-user: with Debian 12's libraries for arm64, and with
# Debian 13's, whose return addresses are signed. Both are unpacked in build/, and nothing is installed.
# Prints a line `ok NAME` or `FAILED NAME` for each test, and ends with status 1 if one failed. As many run side by side as
# there are processors.
set -u
top=$(dirname "$(dirname "$(dirname "$(realpath "$0")")")")
built=$top/build/aarch64
root=$top/build/arm64-root
newer=$top/build/arm64-root-13
out=$(mktemp -d)
trap 'rm -rf "$out"' EXIT
. "$top/tools/each_test.sh"
version=$(sed -n 's/^version := //p' "$top/Makefile")
libraries=usr/lib/aarch64-linux-gnu
strict="-Wall -Wextra -pedantic -Werror -I$top/c/include"
without_rows="-fno-asynchronous-unwind-tables -fno-unwind-tables -g" # but in .debug_frame
# Signatures of return addresses are computed as qemu likes, and not as the architecture does, which is slow.
emulator="qemu-aarch64 -cpu max,pauth-impdef=on -L"

compile() { # PROGRAM FLAG..: compiles a program with the libraries
    local program=$1
    shift
    aarch64-linux-gnu-gcc -std=gnu11 $strict -O2 -g -fno-optimize-sibling-calls -fno-omit-frame-pointer "$@" \
        -x none "$built/libdwcheck-dl.a" "$built/libdwcheck.a" -o "$out/$program" -pthread -ldl
}

# Runs a program, and again, twice at most, if qemu says that an assertion of its own failed: qemu 7.2 sometimes does, for
# programs that unload libraries beside other threads, and such a run tells nothing of the libraries.
emulate() { # ROOT PROGRAM WORD..
    local root=$1 program=$2 run result
    shift 2
    for run in 1 2 3; do
        result=0
        timeout 900 $emulator "$root" "$out/$program" "$@" > "$out/said" 2> "$out/errors" || result=$?
        grep -q '^ERROR:.*/accel/.*assertion failed' "$out/errors" || break
        echo "note: run $run of $program ended with a failed assertion of qemu's own" >&2
    done
    cat "$out/errors" >&2
    cat "$out/said"
    return $result
}

c_test() { # PROGRAM FLAG..: builds a test of c/tests, and runs it
    local program=$1
    shift
    compile "$program" "$@" "$top/c/tests/$program.c" && emulate "$root" "$program"
}

c_test_with() { # WORD PROGRAM FLAG..: the same with a word for the program
    local word=$1 program=$2
    shift 2
    compile "$program" "$@" "$top/c/tests/$program.c" && emulate "$root" "$program" "$word"
}

in_both() { # PROGRAM FLAG..: the same, also with Debian 13's libraries
    c_test "$@" && emulate "$newer" "$1"
}

is_protected() { # LIBRARY: whether its note says that return addresses are signed, and jumps protected
    aarch64-linux-gnu-readelf -n "$1" | grep -q 'AArch64 feature: BTI, PAC'
}

# For libraries that the loader marks, each address to which an indirect jump leads begins with one of these.
are_protected() {
    local library
    for library in "$built/libdwcheck.so.$version" "$built/libdwcheck-dl.so.$version" "$built"/unwind/*.so.?; do
        is_protected "$library" || return 1
    done
}

exported() { # LIBRARY
    nm -D --defined-only "$1" | cut -d ' ' -f 3 | sort
}

export_the_same() {
    local name
    for name in libdwcheck libdwcheck-dl; do
        diff <(exported "$top/build/$name.so.$version") <(exported "$built/$name.so.$version") || return 1
        [ "$(exported "$built/$name.so.$version" | grep -c '^dwcheck_')" -gt 5 ] || return 1
    done
}

# Each function of the library has an FDE.
have_rows() {
    local functions rows
    functions=$(readelf -sW "$built/libdwcheck_c.a" 2> /dev/null | awk '$4 == "FUNC" && $3 > 0 && $7 != "UND"' | wc -l)
    rows=$(readelf -W --debug-dump=frames "$built/libdwcheck_c.a" 2> /dev/null | grep -c ' FDE ')
    [ "$functions" -gt 100 ] && [ "$rows" -ge "$functions" ]
}

first_call() { # FLAG..
    aarch64-linux-gnu-gcc -O2 -fPIC -shared "$@" "$top/c/tests/chosen.c" -o "$out/chosen.so" &&
        c_test dl_first_call "$@" -Wl,-z,lazy,--no-as-needed "$out/chosen.so"
}

shadow() { # a chain of calls whose return addresses are also on a shadow call stack
    clang-16 --target=aarch64-linux-gnu -isystem /usr/aarch64-linux-gnu/include -std=gnu11 $strict -O2 -g -fsanitize=shadow-call-stack \
        -ffixed-x18 -fasynchronous-unwind-tables -c "$top/c/tests/dl_shadow.c" -o "$out/dl_shadow.o" &&
        compile dl_shadow "$out/dl_shadow.o" && emulate "$root" dl_shadow
}

modules() { # FLAG..: builds libraries that come and go, and runs the tests with them
    local library size i
    printf 'void call_back(void (*f)(void)); void call_back(void (*f)(void)) { f(); __asm__ volatile(""); }\n' > "$out/called.c"
    aarch64-linux-gnu-gcc -O2 -fPIC -shared "$@" "$out/called.c" -o "$out/called.so" || return 1
    for size in small:1000 large:4000; do
        printf 'void call_back(void (*f)(void));\nvoid call_back(void (*f)(void)) { volatile char bytes[%s]; bytes[0] = 1; f(); bytes[1] = 2; }\n' "${size#*:}" |
            aarch64-linux-gnu-gcc -O2 -fPIC -shared "$@" -x c - -o "$out/${size%:*}.so" || return 1
    done
    for i in $(seq 70); do cp "$out/called.so" "$out/copy$i.so"; done
    compile dl_modules "$@" -DROUNDS=200 "$top/c/tests/dl_modules.c" &&
        emulate "$root" dl_modules "$out/called.so" "$out/small.so" "$out/large.so" "$out"/copy*.so
}

prepared() { # a library with rows in .debug_frame that comes and goes
    printf 'void call_back(void (*f)(void)); void call_back(void (*f)(void)) { f(); __asm__ volatile(""); }\n' |
        aarch64-linux-gnu-gcc -O2 -fPIC -shared $without_rows -x c - -o "$out/called.so" && c_test_with "$out/called.so" prepared
}

write_linked() { # a program with many functions, which says how many frames it finds
    {
        printf '#include "dwcheck-dl.h"\n#include <stdio.h>\nint main(void) {\n    void *frames[9];\n    dwcheck_dl_prepare();\n'
        printf '    return printf("%%d frames\\n", dwcheck_dl_backtrace(frames, 9)) < 0;\n}\n'
        seq 900 | sed 's/.*/int f&(int x); int f&(int x) { return x + &; }/'
    } > "$out/linked.c"
}

linked() { # FLAG..: whether it finds its four frames
    write_linked
    compile linked "$@" "$out/linked.c" && [ "$(emulate "$root" linked)" = "4 frames" ]
}

shared() { # over the shared libraries
    write_linked
    ln -sf "$built/libdwcheck.so.$version" "$out/libdwcheck.so.2" && ln -sf "$built/libdwcheck-dl.so.$version" "$out/libdwcheck-dl.so.2" &&
        aarch64-linux-gnu-gcc -std=gnu11 $strict "$out/linked.c" "$out/libdwcheck-dl.so.2" "$out/libdwcheck.so.2" -Wl,-rpath,"$out" \
            -o "$out/over_shared" && [ "$(emulate "$root" over_shared)" = "4 frames" ]
}

in_place() { # look-ups in the C library's own section
    compile in_place -D_GNU_SOURCE "$top/c/tests/in_place.c" -Wl,--wrap=malloc,--wrap=realloc &&
        emulate "$root" in_place "$root/usr/lib/aarch64-linux-gnu/libc.so.6" 16
}

# The library's own return addresses aren't signed there: qemu would take twice as long.
rows() { # ROOT [--signed]: rows of its libraries beside readelf's
    local folder=$1/$libraries emulator="qemu-aarch64 -cpu cortex-a57 -L"
    shift
    aarch64-linux-gnu-gcc -std=gnu11 -D_GNU_SOURCE $strict -O2 "$top/tests/arm64/rows.c" "$built/libdwcheck.a" -o "$out/rows" &&
        "$top/tests/arm64/rows.py" "$@" "$folder"/{libc.so.6,libstdc++.so.6,libcrypto.so.3} "$folder/ld-linux-aarch64.so.1" -- \
            $emulator "$root" "$out/rows"
}

# Where return addresses of frames are signed, beside gdb. The rows are read on this machine, as any other data. The program
# isn't position-independent, since qemu writes no code to a core file, and so not the headers by which gdb finds where such
# a program lies. It has no debug information, by which gdb would show inlined calls as frames.
signed_frames() {
    aarch64-linux-gnu-gcc -std=gnu11 $strict -O1 -no-pie -mbranch-protection=standard -fno-optimize-sibling-calls -shared-libgcc \
        "$top/tests/arm64/signed_frames.c" -o "$out/signed_frames" -pthread &&
        cc -std=gnu11 -D_GNU_SOURCE $strict -O2 "$top/tests/arm64/rows.c" "$top/build/libdwcheck.a" -o "$out/rows" &&
        "$top/tests/arm64/signed_frames.py" "$out/signed_frames" "$root" "$newer" -- "$out/rows"
}

names_in() { # LIBRARY..: the names that they export
    nm -D --defined-only "$@" | awk 'NF == 3 { print $3 }' | sort -u
}

# Each name that the three libraries of libunwind's export, but for one that programs find in the C library, and one of 1.8.
unwind_names() {
    local folder
    for folder in "$root" "$newer"; do
        names_in "$folder/$libraries"/{libunwind.so.8,libunwind-aarch64.so.8,libunwind-ptrace.so.0} |
            grep -vx 'backtrace\|_UPT_get_elf_filename' > "$out/wanted"
        [ "$(wc -l < "$out/wanted")" -gt 60 ] && [ -z "$(comm -13 <(names_in "$built"/unwind/*.so.?) "$out/wanted")" ] || return 1
    done
}

# The headers of libunwind and ours have the sizes and places for which the libraries are compiled.
unwind_layouts() {
    local compile="aarch64-linux-gnu-gcc -std=gnu11 -c $top/c/tests/unwind_layout.c -o $out/layout.o"
    $compile -DWITH_LIBUNWIND -idirafter "$root/usr/include/aarch64-linux-gnu" && $compile -I"$top/c/include"
}

unwind() { # PROGRAM FLAG..: builds a test of libunwind's calls, and runs it beside libunwind 1.6 and 1.8
    local program=$1 folder
    shift
    aarch64-linux-gnu-gcc -std=gnu11 -D_GNU_SOURCE $strict -O2 -g "$@" "$top/c/tests/$program.c" "$built/unwind/libunwind.so.8" \
        -Wl,-rpath,"$built/unwind" -Wl,-z,lazy -o "$out/$program" -pthread -ldl || return 1
    for folder in ${roots:-"$root" "$newer"}; do
        emulate "$folder" "$program" "$folder/$libraries/libunwind.so.8" || return 1
    done
}

# Tests of these calls for other processes, beside libunwind 1.6 and 1.8. qemu-user has no ptrace: the process is the test's own.
unwind_remote() { # PROGRAM
    local folder
    aarch64-linux-gnu-gcc -std=gnu11 -D_GNU_SOURCE -DEMULATED $strict -O2 -g "$top/c/tests/$1.c" "$built/unwind/libunwind-ptrace.so.0" \
        "$built/unwind/libunwind.so.8" -Wl,-rpath,"$built/unwind" -Wl,-rpath-link,"$built/unwind" -o "$out/$1" -pthread -ldl || return 1
    for folder in "$root" "$newer"; do
        emulate "$folder" "$1" "$folder/$libraries/libunwind-aarch64.so.8" || return 1
    done
}

# libunwind 1.6 takes no signatures off return addresses.
unwind_signed() {
    local roots=$newer
    unwind unwind -mbranch-protection=standard
}

# With pages of 64 KB. Of those the C library doesn't find the main thread's stack, since qemu's list of mappings is wrong then:
# bench/arm64/vm.sh has a kernel with pages of 16 KB for the other tests.
large_pages() { # COMMAND..
    local emulator="qemu-aarch64 -p 65536 -cpu max,pauth-impdef=on -L"
    "$@"
}

# The cases of the program dwcheck, all of them.
program() {
    printf '#!/bin/sh\nexec %s %s %s "$@"\n' "$emulator" "$root" "$built/dwcheck" > "$out/dwcheck" && chmod +x "$out/dwcheck" &&
        "$top/tests/dwcheck/run.py" "$out/dwcheck" > "$out/cases" 2>&1 || grep -A 5 '^FAILED' "$out/cases" | head -n 20
    grep -c '^ok ' "$out/cases"
    [ "$(grep -c '^ok ' "$out/cases")" -gt 1000 ] && ! grep -q '^FAILED' "$out/cases"
}

# dwcheck-elf, which is compiled here without optimization, reads the tables of dwcheck and of the C library.
elf_program() {
    local program=$built/cargo-test/aarch64-unknown-linux-gnu/debug/dwcheck-elf
    (cd "$top/rust/dwcheck-command" && DWCHECK_LIB_DIR=$built CARGO_TARGET_DIR=$built/cargo-test CARGO_PROFILE_DEV_DEBUG=0 \
        ../cross.sh build --quiet --bin dwcheck-elf) || return 1
    $emulator "$root" "$program" check "$built/dwcheck" "$root/usr/lib/aarch64-linux-gnu/libc.so.6" > "$out/checked" &&
        [ "$(grep -c '\.eh_frame: accepted' "$out/checked")" = 2 ]
}

"$top/tools/packages.sh" install_arm64 && "$top/tools/arm64_root.sh" "$newer" trixie libc6 libgcc-s1 libstdc++6 libssl3t64 libunwind8 liblzma5 || exit 1
(cd "$top" && make -s ARCH=aarch64 but_elf) || exit 1

# The longest come first.
test_beside "arm64: dwcheck-elf checks programs" elf_program
test_beside "arm64: the cases of the program dwcheck" program
test_beside "arm64: rows of Debian 13's libraries, which sign return addresses, are readelf's" rows "$newer" --signed
test_beside "arm64: rows of Debian 12's libraries are readelf's" rows "$root"
test_beside "arm64: the signed state of frames is gdb's" signed_frames
test_beside "arm64: libunwind's calls bear accessors that fail, lie, step and leave" unwind_remote unwind_remote_input
test_beside "arm64: libunwind's calls answer cursors and contexts of any bytes" unwind unwind_input
test_beside "arm64: frames by libunwind's calls are those of libunwind" unwind unwind
test_beside "arm64: frames by libunwind's calls, with signed return addresses" unwind_signed
test_beside "arm64: look-ups in place" in_place
test_beside "arm64: frames of other processes are those of libunwind" unwind_remote unwind_remote
test_beside "arm64: the shared libraries are marked as protected" are_protected
test_beside "arm64: the shared libraries export what those for x86-64 do" export_the_same
test_beside "arm64: each function of the library has unwind rows" have_rows
test_beside "arm64: cases over the library for C" c_test cases -D_GNU_SOURCE
test_beside "arm64: cases while allocations fail in turn" c_test cases -D_GNU_SOURCE -DREFUSING
test_beside "arm64: steps of a cursor" c_test cursor -D_GNU_SOURCE
test_beside "arm64: walks with a cache" c_test cache -D_GNU_SOURCE
test_beside "arm64: calls that read one process at once" c_test readers -D_GNU_SOURCE -DROUNDS=100
test_beside "arm64: stacks of dwcheck-dl are glibc's, with nothing called before" in_both dl
test_beside "arm64: stacks of dwcheck-dl, with signed return addresses" in_both dl -mbranch-protection=standard
test_beside "arm64: stacks with signed return addresses, also where one is in its register" in_both dl_signed -mbranch-protection=standard
test_beside "arm64: stacks with return addresses signed by the key B" in_both dl_signed -mbranch-protection=pac-ret+leaf+b-key
test_beside "arm64: a stack with a shadow call stack" shadow
test_beside "arm64: walks from wherever a timer interrupts reach the start" c_test_with 1500 dl_interrupted
test_beside "arm64: walks from wherever a timer interrupts, with signed return addresses" c_test_with 1500 dl_interrupted -mbranch-protection=standard
test_beside "arm64: walks from where a symbol is looked up for the first time reach the start" first_call
test_beside "arm64: walks from contexts of any registers end" c_test dl_contexts
test_beside "arm64: stacks are glibc's, while libraries come and go" modules
test_beside "arm64: stacks while libraries come and go, with signed return addresses" modules -mbranch-protection=standard
test_beside "arm64: a stack of a static program" linked -static
test_beside "arm64: a stack whose rows are in .debug_frame" linked $without_rows
test_beside "arm64: a stack whose rows are in .debug_frame, with signed return addresses" linked $without_rows -mbranch-protection=standard
test_beside "arm64: rows of .debug_frame come before those of .eh_frame" c_test both_rows "$top/c/tests/both_rows.S"
test_beside "arm64: a library with rows in .debug_frame that comes and goes" prepared
test_beside "arm64: a stack over the shared libraries" shared
test_beside "arm64: the header says how much stack walks take" "$top/tools/stack_use.py" --aarch64
test_beside "arm64: types of libunwind have the same layout" unwind_layouts
test_beside "arm64: the libraries with libunwind's names export all of them" unwind_names
test_beside "arm64: walks from contexts of any registers, with pages of 64 KB" large_pages c_test dl_contexts
test_beside "arm64: stacks with pages of 64 KB, while libraries come and go" large_pages modules
wait_for_tests
exit $status
