#!/bin/bash
# Builds the tests with the static library build/libdwcheck.a, or the one that LIBRARY names, and runs
# them: those of readers.c, frozen.c, cursor.c, cache.c, dl.c, dl_modules.c, dl_contexts.c, dl_left.c, own_rows.c, both.c, both_rows.c,
# prepared.c, prepared_once.c and changed.c; those of in_place.c, kept_rows.c and kept_rows_of_stacks.c, plainly, with sanitizers and under valgrind; those of
# wrapper.cc, as C++17, as C++20 and over the module; and those of cases.c while allocations fail in turn,
# with sanitizers, and under valgrind. Before that, the headers are compiled as C11, C17 and C++17; passing
# a pointer of a wrong type must be an error.
# The tests of libunwind's calls take the libraries of build/unwind, or of the folder that UNWIND names, and run beside
# Debian's libunwind8.
# Prints a line `ok NAME` or `FAILED NAME` for each, and ends with status 1 if one failed.
set -u
top=$(dirname "$(dirname "$(dirname "$(realpath "$0")")")")
library=${LIBRARY:-$top/build/libdwcheck.a}
dl_library=${DL_LIBRARY:-$top/build/libdwcheck-dl.a}
unwind=${UNWIND:-$top/build/unwind}
out=$(mktemp -d)
trap 'rm -rf "$out"' EXIT
strict="-Wall -Wextra -pedantic -Werror -I$top/c/include"
. "$top/tools/each_test.sh"

header() { # COMPILER STANDARD LANGUAGE
    printf '#include "dwcheck-dl.h"\n' | $1 "-std=$2" $strict -x "$3" -c - -o "$out/header.o"
}

frame() { # TYPE: writes a C function that passes a pointer to this type as the frame section
    printf '#include "dwcheck.h"\nuint32_t call(const %s *frame, dwcheck_fault *fault);\n' "$1"
    printf 'uint32_t call(const %s *frame, dwcheck_fault *fault) { return dwcheck_check(frame, 1, NULL, 0, 0, 8, fault); }\n' "$1"
}

refuses_wrong_pointers() { # LANGUAGE
    frame uint8_t | cc $strict -x "$1" -c - -o "$out/right.o" &&
        ! frame uint16_t | cc $strict -x "$1" -c - -o "$out/wrong.o" 2> /dev/null
}

build() { # PROGRAM FLAG..: builds the tests as this program
    local program=$1
    shift
    cc -std=gnu11 -D_GNU_SOURCE $strict -O2 -g "$@" "$top/c/tests/cases.c" "$library" -o "$out/$program" -pthread -ldl
}

cases() { # FLAG..: builds the tests and runs them
    build cases "$@" && "$out/cases"
}

readers() { # PROGRAM: builds the tests of calls that read one process at once, and runs them
    cc -std=gnu11 -D_GNU_SOURCE $strict -O2 -g "$top/c/tests/$1.c" "$library" -o "$out/$1" -pthread -ldl && "$out/$1"
}

build_in_place() { # FLAG..: builds the tests of look-ups in place, which count requests for memory
    cc -std=gnu11 -D_GNU_SOURCE $strict -O2 -g "$@" "$top/c/tests/in_place.c" "$library" -Wl,--wrap=malloc,--wrap=realloc -o "$out/in_place"
}

in_place() { # FLAG..: builds these tests and runs them
    build_in_place "$@" && "$out/in_place" "$(cc -print-file-name=libc.so.6)"
}

in_place_under_valgrind() {
    build_in_place && valgrind -q --error-exitcode=1 "$out/in_place" "$(cc -print-file-name=libc.so.6)" 37
}

build_kept_rows() { # FLAG..: builds the tests of walks with kept rows, which count requests for memory
    cc -std=gnu11 -D_GNU_SOURCE $strict -O2 -g "$@" "$top/c/tests/kept_rows.c" "$library" -Wl,--wrap=malloc,--wrap=realloc \
        -o "$out/kept_rows"
}

kept_rows() { # FLAG..: builds these tests and runs them
    build_kept_rows "$@" && "$out/kept_rows"
}

kept_rows_under_valgrind() {
    build_kept_rows && valgrind -q --error-exitcode=1 "$out/kept_rows" 1000
}

build_kept_rows_of_stacks() { # FLAG..: builds the tests of such walks up its own stacks, and a library that calls back
    build_called &&
        cc -std=gnu11 -D_GNU_SOURCE $strict -O2 -g "$@" "$top/c/tests/kept_rows_of_stacks.c" "$library" \
            -o "$out/kept_rows_of_stacks" -pthread -ldl
}

kept_rows_of_stacks() { # FLAG..: builds these tests and runs them
    build_kept_rows_of_stacks "$@" && "$out/kept_rows_of_stacks" "$out/called.so"
}

kept_rows_of_stacks_under_valgrind() {
    build_kept_rows_of_stacks && valgrind -q --error-exitcode=1 "$out/kept_rows_of_stacks" "$out/called.so"
}

compile_module() { # OBJECT COMMAND..: compiles the module of LLVM as the kit does, and takes its code apart
    local object=$1
    shift
    "$@" -ffunction-sections -no-canonical-prefixes -Werror -c -x ir "$out/module.bc" -o "$object" -fPIC -O3 &&
        objcopy -O binary --only-section='.text*' "$object" "$object.code"
}

padding=()
[ "$(uname -m)" != x86_64 ] || padding=(-mbranches-within-32B-boundaries)

rows_of_modules() { # whether tools/clang_with_rows.sh gives each function an FDE, and only pads the code
    printf 'int f(int *); int g(int x) { int y[9] = {x}; return f(y) + y[3]; } int h(int x) { return g(x) + 1; }' |
        clang-16 -O1 -fno-asynchronous-unwind-tables -emit-llvm -c -x c - -o "$out/module.bc" &&
        compile_module "$out/plain.o" clang-16 "${padding[@]}" &&
        compile_module "$out/rows.o" "$top/tools/clang_with_rows.sh" clang-16 &&
        [ "$(readelf --debug-dump=frames "$out/plain.o" | grep -c ' FDE ')" = 0 ] &&
        [ "$(readelf --debug-dump=frames "$out/rows.o" | grep -c ' FDE ')" = 2 ] &&
        [ -s "$out/rows.o.code" ] && cmp "$out/plain.o.code" "$out/rows.o.code"
}

modules_without_attributes() {
    printf 'target triple = "x86_64-pc-linux-gnu"\ndefine i32 @f() {\n  ret i32 1\n}\n' > "$out/module.bc" &&
        compile_module "$out/plain.o" clang-16 -mbranches-within-32B-boundaries &&
        compile_module "$out/rows.o" "$top/tools/clang_with_rows.sh" clang-16 &&
        cmp "$out/plain.o.code" "$out/rows.o.code"
}

# Everything else goes to clang as it is; and if the module is none, one line says what failed.
other_words() {
    local script="$top/tools/clang_with_rows.sh"
    [ "$("$script" clang-16 --version)" = "$(clang-16 --version)" ] &&
        printf 'int x;' | "$script" clang-16 -c -x c - -o "$out/x.o" && nm "$out/x.o" | grep -q ' x$' || return 1
    printf 'no module' > "$out/module.bc"
    ! ROWS_LOG=$out/why compile_module "$out/rows.o" "$script" clang-16 2> "$out/errors" &&
        [ "$(cat "$out/why")" = "tools/clang_with_rows.sh: the module can't be written as text by clang-16" ] &&
        [ "$(tail -n 1 "$out/errors")" = "$(cat "$out/why")" ]
}

own_rows() { # builds the tests of walks that interrupt the library, and runs them
    cc -std=gnu11 $strict -O2 -g -fno-optimize-sibling-calls "$top/c/tests/own_rows.c" "$dl_library" "$library" -o "$out/own_rows" -pthread -ldl &&
        "$out/own_rows"
}

first_call() {
    cc -O2 -fPIC -shared "$top/c/tests/chosen.c" -o "$out/chosen.so" && dl dl_first_call -Wl,-z,lazy,--no-as-needed "$out/chosen.so"
}

build_called() { # FLAG..: a library whose only function calls back
    printf 'void call_back(void (*f)(void)); void call_back(void (*f)(void)) { f(); __asm__ volatile(""); }\n' |
        cc -O2 -fPIC -shared "$@" -x c - -o "$out/called.so"
}

build_dl() { # PROGRAM FLAG..: builds tests of dwcheck-dl
    local program=$1
    shift
    cc -std=gnu11 $strict -O2 -g -fno-optimize-sibling-calls -fno-omit-frame-pointer "$@" "$top/c/tests/$program.c" "$dl_library" "$library" \
        -o "$out/$program" -pthread -ldl
}

dl() { # PROGRAM FLAG..: builds such tests, and runs them
    build_dl "$@" && "$out/$1"
}

calls_back() { # LIBRARY BYTES FLAG..: a library whose function calls back, and takes so much stack
    local library=$1 bytes=$2
    shift 2
    printf 'void call_back(void (*f)(void));\nvoid call_back(void (*f)(void)) { volatile char bytes[%s]; bytes[0] = 1; f(); bytes[1] = 2; }\n' "$bytes" |
        cc -O2 -fPIC -shared "$@" -x c - -o "$out/$library"
}

run_dl_modules() { # FLAG..: runs the tests of libraries that come and go, with libraries that are compiled so
    build_called && calls_back small.so 1000 "$@" && calls_back large.so 4000 "$@" &&
        for i in $(seq 70); do cp "$out/called.so" "$out/copy$i.so"; done &&
        "$out/dl_modules" "$out/called.so" "$out/small.so" "$out/large.so" "$out"/copy*.so
}

dl_modules() { # FLAG..: builds these tests, and runs them with libraries that are compiled so
    build_dl dl_modules && run_dl_modules "$@"
}

linked() { # FLAG..: builds a program that prints how many frames its stack has, with many other functions
    {
        printf '#include "dwcheck-dl.h"\n#include <stdio.h>\nint main(void) {\n    void *frames[9];\n    dwcheck_dl_prepare();\n'
        printf '    return printf("%%d frames\\n", dwcheck_dl_backtrace(frames, 9)) < 0;\n}\n'
        seq 900 | sed 's/.*/int f&(int x); int f&(int x) { return x + &; }/'
    } | cc -std=gnu11 $strict -O2 "$@" -x c - -x none "$dl_library" "$library" -o "$out/linked" -pthread -ldl &&
        [ "$("$out/linked")" = "4 frames" ]
}

build_checked() { # PROGRAM FLAG..: builds tests of dwcheck-dl with its sources, all of which are compiled so
    local program=$1
    shift
    mkdir -p "$out/checked" && (cd "$out/checked" && rm -f ./* && cc -std=gnu11 -O1 -g -fPIC -fasynchronous-unwind-tables "$@" \
        "-I$top/c/include" -c "$top"/c/dl/*.c && ar rcs checked.a *.o) &&
        dl_library=$out/checked/checked.a build_dl "$program" "$@"
}

dl_modules_checked() { # FLAG..
    build_checked dl_modules "$@" && run_dl_modules
}

prepared() { # FLAG..: builds so the tests of a library with rows in .debug_frame that comes and goes, and runs them
    build_called -fno-asynchronous-unwind-tables -g && build_checked prepared "$@" && "$out/prepared" "$out/called.so"
}

# Without _dl_find_object, walks know the modules that were listed.
by_list() { # TEST: runs a test with such a library
    mkdir -p "$out/list" && (cd "$out/list" && cc -std=gnu11 -O2 -fPIC -fasynchronous-unwind-tables -Wall -Wextra -Werror \
        -DDWCHECK_DL_WITH_LIST "-I$top/c/include" -c "$top"/c/dl/*.c && ar rcs list.a *.o) &&
        dl_library=$out/list/list.a "$1"
}

prepared_once() { # a library with rows in .debug_frame keeps them, also if its code is changed in memory
    build_called -fno-asynchronous-unwind-tables -g -Wl,--build-id && build_dl prepared_once && "$out/prepared_once" "$out/called.so"
}

signal_frame() { # an object whose .debug_frame has a function with an augmentation in its CIE
    printf '.cfi_sections .debug_frame\n.text\n.cfi_startproc\n.cfi_signal_frame\nnop\n.cfi_endproc\n.section .note.GNU-stack\n' |
        cc -x assembler -c - -o "$out/signal_frame.o"
}

prepared_beside_signal_frame() { # a function of which no row is read doesn't cost the others theirs
    signal_frame && printf 'void call_back(void (*f)(void)); void call_back(void (*f)(void)) { f(); __asm__ volatile(""); }\n' |
        cc -O2 -fPIC -shared -fno-asynchronous-unwind-tables -g -Wl,--build-id -x c - -x none "$out/signal_frame.o" -o "$out/called.so" &&
        build_dl prepared_once && "$out/prepared_once" "$out/called.so"
}

prepared_without_id() { # has them only while its code is that of its file, if it has no build id
    build_called -fno-asynchronous-unwind-tables -g -Wl,--build-id=none && build_dl prepared_once && "$out/prepared_once" "$out/called.so" no-id
}

# Over the shared library, which exports what its header declares and nothing else.
shared() {
    local dl=$(ls "$top"/build/libdwcheck-dl.so.*.*.*) all=$(ls "$top"/build/libdwcheck.so.*.*.*)
    ln -sf "$all" "$out/libdwcheck.so.2" && ln -sf "$dl" "$out/libdwcheck-dl.so.2" &&
        LD_LIBRARY_PATH=$out dl_library=$dl library=$all linked &&
        diff <(nm -D --defined-only "$dl" | sed -n 's/.* T \(dwcheck_[a-z_]*\).*/\1/p' | sort) \
            <(cc -E -P "$top/c/include/dwcheck-dl.h" | grep -o 'dwcheck_dl_[a-z_]*(' | tr -d '(' | sort -u)
}

# The program of docs/OWN_STACKS.md, whose handler makes one call, and which makes none before, prints gdb's frames.
handler_of_page() {
    sed -n '/^```c$/,/^```$/p' "$top/docs/OWN_STACKS.md" | grep -v '^```' > "$out/page.c"
    printf 'frame = gdb.newest_frame()\nwhile frame:\n    print("gdb %%#x" %% frame.pc())\n    frame = frame.older()\n' > "$out/frames.py"
    cc -O1 -g "-I$top/c/include" "$out/page.c" "$dl_library" "$library" -o "$out/page" -pthread -ldl || return 1
    if [ -n "${DWCHECK_NO_PTRACE:-}" ]; then
        [ "$("$out/page" 2>&1 | grep -c '\[0x')" = 4 ]
        return
    fi
    gdb -q -batch -ex 'set backtrace past-main on' -ex run -x "$out/frames.py" -ex continue "$out/page" > "$out/shown" 2>&1
    [ "$(grep -c '^gdb 0x' "$out/shown")" = 4 ] &&
        diff <(sed -n 's/^gdb //p' "$out/shown") <(sed -n 's/.*\[\(0x[0-9a-f]*\)\]$/\1/p' "$out/shown")
}

link_both() { # OBJECT..: prints what both.c prints with other objects
    cc -std=gnu11 $strict -O1 -fno-optimize-sibling-calls -c "$top/c/tests/both.c" -o "$out/both.o" &&
        cc $links "$out/both.o" "$@" "$dl_library" "$library" -o "$out/both" -pthread -ldl && "$out/both"
}

other_object() { # FLAG..: the same with an object of many functions that is compiled so
    {
        printf 'int through(int (*f)(void)); int through(int (*f)(void)) { return f() + 1; }\n'
        seq 300 | sed 's/.*/int f&(int x); int f&(int x) { volatile int y[&]; y[0] = x; return y[0] + y[1]; }/'
    } | cc -O1 -ffunction-sections "$@" -x c -c - -o "$out/other.o" && link_both "$out/other.o" $last
}

# The same with two objects that have the same function. The linker keeps one, and all FDEs of .debug_frame.
same_function() { # FLAG..
    local name
    for name in through other; do
        printf 'inline __attribute__((noinline)) int same(int (*f)()) { return f() + 1; }\nextern "C" int %s(int (*f)()) { return same(f) + 1; }\n' "$name" |
            c++ -O1 -fno-exceptions "$@" -x c++ -c - -o "$out/$name.o" || return 1
    done
    link_both "$out/through.o" "$out/other.o"
}

# Both stacks have the frames that glibc finds if all functions have rows in .eh_frame.
both_sections() { # OBJECTS FLAG..: with these objects and flags for the link
    local objects=$1 last= want have
    shift
    local links=$*
    want=$($objects | cut -d ' ' -f 2) &&
        have=$($objects -fno-asynchronous-unwind-tables -g | cut -d ' ' -f 1) &&
        readelf -SW "$out/both" | grep -q ' \.debug_frame ' && [ "$have" = "$want" ] || { printf '%s\nnot\n%s\n' "$have" "$want"; return 1; }
}

changed_section() { # builds the test of a section that changes while it is copied, and runs it
    cc -std=gnu11 $strict -O1 -g -fsanitize=address,undefined -fno-sanitize-recover=all "$top/c/tests/changed.c" "$library" -o "$out/changed" &&
        "$out/changed"
}

overlap() { # an object whose .debug_frame is refused, since two of its FDEs share addresses
    printf '.text\nboth: nop\nnop\n.section .debug_frame\n.Lcie: .long 15, -1\n.byte 4, 0, 8, 0, 1, 0x78, 16, 0x0c, 7, 8, 0\n
        .long 20, .Lcie\n.quad both, 2\n.long 20, .Lcie\n.quad both + 1, 1\n.section .note.GNU-stack\n' | cc -x assembler -c - -o "$out/overlap.o"
}

# Such a section takes no rows of .eh_frame away.
refused_section() {
    local links= last="$out/overlap.o" want have
    overlap && have=$(other_object | cut -d ' ' -f 1) && want=$("$out/both" | cut -d ' ' -f 2) && [ "$have" = "$want" ]
}

both_rows() { # [OBJECT]: tests which rows come first; with an object for which .debug_frame is refused, only those of .eh_frame come
    build_dl both_rows "$top/c/tests/both_rows.S" "$@" && "$out/both_rows" ${1:+refused}
}

refused_rows() {
    overlap && both_rows "$out/overlap.o"
}

walks_under_valgrind() { # valgrind says nothing of a walk
    linked && valgrind -q --error-exitcode=1 "$out/linked" > "$out/shown" 2>&1 && [ "$(cat "$out/shown")" = "4 frames" ]
}

exports() { # FLAG..: prints the names that a shared object with both archives exports, but for its own
    printf '#include "dwcheck-dl.h"\nint own(void **a);\nint own(void **a) { return dwcheck_dl_update(0) ? 0 : dwcheck_dl_backtrace(a, 9); }\n' |
        cc -shared -fPIC $strict -x c - -x none "$@" "$dl_library" "$library" -o "$out/own.so" -pthread -ldl &&
        nm -D --defined-only "$out/own.so" | cut -d ' ' -f 3 | grep -vx own
}

# By itself it exports only names of the headers; and by the words of pkg-config's files, none.
exports_nothing_else() {
    local words
    words=$(sed -n 's/^Libs: //p' "$top/c/dwcheck.pc.in" "$top/c/dwcheck-dl.pc.in" | tr ' ' '\n' | grep '^-Wl,')
    [ "$(exports | grep -c '^dwcheck_')" -gt 20 ] && [ -z "$(exports | grep -v '^dwcheck_')" ] && [ -z "$(exports $words)" ]
}

wrapper() { # STANDARD: builds the tests of the header for C++, and runs them
    c++ "-std=$1" $strict -O1 -g -fno-exceptions -fno-rtti -fsanitize=address,undefined -fno-sanitize-recover=all \
        "$top/c/tests/wrapper.cc" "$library" -o "$out/wrapper" && "$out/wrapper"
}

as_module() { # builds the tests of the header for C++ over the module, and runs them
    local compiler="clang++-16 -std=c++20 $strict -O1 -g"
    $compiler --precompile "$top/c/include/dwcheck.cppm" -o "$out/dwcheck.pcm" &&
        clang++-16 -std=c++20 -c "$out/dwcheck.pcm" -o "$out/module.o" &&
        $compiler -DAS_MODULE "-fmodule-file=dwcheck=$out/dwcheck.pcm" "$top/c/tests/wrapper.cc" "$out/module.o" "$library" \
            -o "$out/wrapper" && "$out/wrapper"
}

module_has_all_names() { # compares the names that dwcheck.h declares with those that the module exports
    cc -E -P "$top/c/include/dwcheck.h" | grep -ow 'dwcheck_[a-z_]*\|DWCHECK_[A-Z0-9_]*' | sort -u > "$out/declared"
    grep -o '::dwcheck_[a-z_]*\|::DWCHECK_[A-Z0-9_]*' "$top/c/include/dwcheck.cppm" | cut -c 3- | sort -u > "$out/exported"
    diff "$out/declared" "$out/exported"
}

of_libunwind() { # NAME: the path of a library of libunwind's
    /sbin/ldconfig -p | sed -n "s/^[[:space:]]*$(printf %s "$1" | sed 's/[.]/[.]/g') .*=> //p" | head -n 1
}

unwind_header() { # COMPILER STANDARD LANGUAGE
    printf '#include "dwcheck-unwind.h"\n' | $1 "-std=$2" $strict -x "$3" -c - -o "$out/header.o"
}

unwind_layouts() { # libunwind's header and ours have the sizes and places for which the libraries are compiled
    cc -std=gnu11 -DWITH_LIBUNWIND -c "$top/c/tests/unwind_layout.c" -o "$out/layout.o" &&
        cc -std=gnu11 "-I$top/c/include" -c "$top/c/tests/unwind_layout.c" -o "$out/layout.o"
}

names_in() { # LIBRARY..: the names that they export
    nm -D --defined-only "$@" | awk 'NF == 3 { print $3 }' | sort -u
}

# Each name that libunwind's three libraries export, but for those that programs find in libgcc_s and the C library, and three
# helpers of libunwind's own; and each one that our header declares.
unwind_names() {
    names_in "$unwind"/*.so.? > "$out/ours"
    {
        names_in "$(of_libunwind libunwind.so.8)" "$(of_libunwind libunwind-x86_64.so.8)" "$(of_libunwind libunwind-ptrace.so.0)" |
            grep -vx 'backtrace\|_Unwind_.*\|_ReadULEB\|_ReadSLEB\|__libunwind_Unwind_GetBSP'
        cc -E -P -I"$top/c/include" -include dwcheck-unwind.h -x c /dev/null | grep -o '\b_Ux86_64_[a-z_0-9]*\|\b_ULx86_64_[a-z_0-9]*\|\b_U_dyn_[a-z_]*(\|\b_UPT_[a-z_]*' | tr -d '('
    } | sort -u > "$out/wanted"
    comm -13 "$out/ours" "$out/wanted" > "$out/absent"
    cat "$out/absent"
    [ ! -s "$out/absent" ] && [ "$(wc -l < "$out/wanted")" -gt 60 ]
}

build_unwind() { # FLAG..: builds the tests of libunwind's calls. Its PLT has no rows, so that these are guessed
    cc -std=gnu11 -D_GNU_SOURCE $strict -O2 -g "$@" "$top/c/tests/unwind.c" "$unwind/libunwind.so.8" "-Wl,-rpath,$unwind" \
        -Wl,--no-ld-generated-unwind-info -Wl,-z,lazy -fcf-protection=none -fplt -o "$out/unwind" -pthread -ldl
}

unwind_input() { # builds the tests of these calls with bad input, and runs them
    cc -std=gnu11 -D_GNU_SOURCE $strict -O2 -g "$top/c/tests/unwind_input.c" "$unwind/libunwind.so.8" "-Wl,-rpath,$unwind" -o "$out/unwind_input" &&
        "$out/unwind_input"
}

build_unwind_remote() { # PROGRAM FLAG..: builds tests of these calls for other processes
    local program=$1
    shift
    cc -std=gnu11 -D_GNU_SOURCE $strict -O2 -g "$@" "$top/c/tests/$program.c" "$unwind/libunwind-ptrace.so.0" \
        "$unwind/libunwind.so.8" "-Wl,-rpath,$unwind" -o "$out/$program" -pthread -ldl
}

unwind_remote() {
    build_unwind_remote unwind_remote && "$out/unwind_remote" "$(of_libunwind libunwind-x86_64.so.8)"
}

unwind_remote_input() {
    build_unwind_remote unwind_remote_input && "$out/unwind_remote_input"
}

unwind() { # builds these tests and runs them beside libunwind
    build_unwind "$@" && "$out/unwind" "$(of_libunwind libunwind.so.8)"
}

cases_under_valgrind() {
    build plain && valgrind -q --error-exitcode=1 --leak-check=full "$out/plain"
}

test_of "the header as C11" header cc c11 c
test_of "the header as C17" header cc c17 c
test_of "the header as C++17" header c++ c++17 c++
test_of "pointers of wrong types in C" refuses_wrong_pointers c
test_of "pointers of wrong types in C++" refuses_wrong_pointers c++
test_of "calls that read one process at once" readers readers
test_of "the same with the process in memory that can't be written" readers frozen
test_of "steps of a cursor" readers cursor
test_of "walks with a cache" readers cache
test_of "look-ups in place" in_place
test_of "the same with ASan and UBSan" in_place -fsanitize=address,undefined -fno-sanitize-recover=all
test_of "the same under valgrind" in_place_under_valgrind
test_of "walks with kept rows" kept_rows
test_of "walks with kept rows, with ASan and UBSan" kept_rows -fsanitize=address,undefined -fno-sanitize-recover=all
test_of "walks with kept rows under valgrind" kept_rows_under_valgrind
test_of "walks with kept rows up own stacks" kept_rows_of_stacks
test_of "walks with kept rows up own stacks, with ASan and UBSan" kept_rows_of_stacks -fsanitize=address,undefined -fno-sanitize-recover=all
test_of "walks with kept rows up own stacks under valgrind" kept_rows_of_stacks_under_valgrind
test_of "stacks of dwcheck-dl are glibc's, with nothing called before" dl dl
test_of "stacks of dwcheck-dl are glibc's, while libraries come and go" dl_modules
test_of "stacks of dwcheck-dl are glibc's, while libraries without build ids come and go" dl_modules -Wl,--build-id=none
test_of "the same with TSan" dl_modules_checked -fsanitize=thread
test_of "the same with ASan and UBSan" dl_modules_checked -fsanitize=address,undefined -fno-sanitize-recover=all
test_of "a library with rows in .debug_frame that comes and goes, with TSan" prepared -fsanitize=thread
test_of "the same with ASan and UBSan" prepared -fsanitize=address,undefined -fno-sanitize-recover=all
test_of "walks from contexts of any registers end" dl dl_contexts
test_of "walks from where a symbol is looked up for the first time reach the start" first_call
test_of "walks that interrupt walks, or come after walks that were left" dl dl_left
test_of "the handler of docs/OWN_STACKS.md prints gdb's stack" handler_of_page
test_of "stacks over the shared library" shared
test_of "a stack where modules are listed" by_list linked
test_of "rows of .debug_frame stay" prepared_once
test_of "rows of .debug_frame of a module without a build id" prepared_without_id
test_of "rows of .debug_frame beside those of a signal frame" prepared_beside_signal_frame
test_of "rows of .debug_frame stay where modules are listed" by_list prepared_once
test_of "the header says how much stack walks take" env "LIBRARY=$library" "DL_LIBRARY=$dl_library" "$top/tools/stack_use.py"
test_of "rows are given to the code of a module, which stays the same" rows_of_modules
test_of "a module without attributes is compiled" modules_without_attributes
test_of "other calls of clang stay as they are, and a failure is one line" other_words
test_of "walks that interrupt the library reach the start of the program" own_rows
test_of "a stack of a static program" linked -static
test_of "a stack whose rows are in .debug_frame" linked -fno-asynchronous-unwind-tables -g
test_of "a shared object with the archives exports only what it should" exports_nothing_else
test_of "a stack under valgrind" walks_under_valgrind
test_of "a stack whose rows are in both sections" both_sections other_object
test_of "a stack whose rows are in both sections, of a program without functions that aren't used" both_sections other_object -Wl,--gc-sections
test_of "the same, of a program whose headers and code are in one segment" both_sections other_object -Wl,--gc-sections -Wl,-z,noseparate-code
test_of "a stack whose rows are in both sections, of two objects with the same function" both_sections same_function
test_of "a stack of a program whose .debug_frame is refused" refused_section
test_of "rows of .debug_frame come before those of .eh_frame" both_rows
test_of "rows of a .debug_frame that is refused aren't used" refused_rows
test_of "a .debug_frame that changes while it is copied" changed_section
test_of "the header with libunwind's names as C11" unwind_header cc c11 c
test_of "the header with libunwind's names as C++17" unwind_header c++ c++17 c++
test_of "types of libunwind have the same layout" unwind_layouts
test_of "the libraries with libunwind's names export all of them" unwind_names
test_of "frames by libunwind's calls are those of libunwind" unwind
test_of "libunwind's calls answer cursors and contexts of any bytes" unwind_input
test_of "frames of other processes are those of libunwind" unwind_remote
test_of "libunwind's calls bear accessors that fail, lie, step and leave" unwind_remote_input
test_of "the header for C++ as C++17, beside that for C" wrapper c++17
test_of "the header for C++ as C++20, whose frames are a range" wrapper c++20
test_of "the header for C++ as a module of C++20" as_module
test_of "the module exports every name of dwcheck.h" module_has_all_names
test_of "cases while allocations fail in turn" cases -DREFUSING
# The sanitizers check only the C code of the tests, because only that is compiled with them.
test_of "cases with ASan and UBSan" cases -fsanitize=address,undefined -fno-sanitize-recover=all
test_of "cases with TSan" cases -fsanitize=thread
test_of "cases under valgrind" cases_under_valgrind
exit $status
