#!/usr/bin/env bash
# Proves and builds what is written in Rattle, and copies the results into the folder build/.
#   tools/build.sh          build/dwcheck and build/libdwcheck_c.a
#   tools/build.sh archive  build/libdwcheck_c.a alone, over what an `rt ci` has proved so far
#   tools/build.sh sum      prints a checksum of everything that is proved
# With ARCH=aarch64 in the environment, it makes build/aarch64/libdwcheck_c.a, and
# build/aarch64/dwcheck-program.o, which is still to be linked, from the same proofs.
# The crates are proved by `rt ci`, side by side, on a copy without tests and wrong bodies. It keeps
# what it has proved on this machine, so only what has changed is proved again, here and in
# `make test`. If `make test` has just proved these very files, which the checksum in build/proved
# says, its results are taken. The library is proved while it is built: `rt ci` builds no static
# libraries. It is kept too, in ~/.cache/dwcheck/libraries, and so is the other processor's program.
# Its code gets unwind rows by tools/clang_with_rows.sh. What its proof has checked is left in
# build/checked for the other processor, for which the library is checked again, since the processor is
# a part of the verdict: but each module of the proof is found there, and none is proved again. The
# program's own crate is small, and proved once more.
set -eu
top=$(dirname "$(dirname "$(realpath "$0")")")
cd "$top"

case ${ARCH:-x86_64} in
x86_64) out=build ;;
aarch64) out=build/aarch64 ;;
*) echo "tools/build.sh: ARCH is x86_64 or aarch64" >&2 && exit 2 ;;
esac
target=${ARCH:-x86_64}-unknown-linux-gnu

sum() {
    find crates -name out -prune -o -type f \( -name '*.rt' -o -name '*.antt' \) -print | LC_ALL=C sort |
        cat - <(printf 'crates.txt\n') | xargs sha256sum | sha256sum | cut -d ' ' -f 1
}

names() { # the crates that the program and the library are made of, but the library's own
    sed -n 's/^\([a-z_]*\)\( staticlib\)\?:.*/\1/p' crates.txt | grep -vxE 'dw_tests|dw_times|worked_rows|dwcheck_c'
}

stop() { # LOG: shows why a command failed
    grep -v '^note: ' "$1" | tail -n 5 >&2
    exit 1
}

# How many jobs the library's proof gets: one on each processor, with 3 GB of memory for each, but at
# most four.
library_jobs() {
    local fit=$(($(sed -n 's/^MemTotal: *\([0-9]*\) kB/\1/p' /proc/meminfo) / 3000000))
    printf '%s\n' "$(nproc)" "$fit" 4 | sort -n | head -n 1 | sed 's/^0$/1/'
}

# Nothing else runs, so a proof for which no other one waits gets the processors that are free.
prove_copy() { # FOLDER: proves a copy of the crates there
    mkdir "$1/crates"
    for name in $(names); do
        mkdir "$1/crates/$name"
        find "crates/$name" -mindepth 1 -maxdepth 1 ! -name out ! -name wrong-bodies -exec cp -r {} "$1/crates/$name/" \;
    done
    grep -E "^($(names | tr '\n' '|')none)( staticlib)?:" crates.txt > "$1/crates.txt"
    cp HANDLES "$1/"
    echo "proving $(names | wc -l) crates, but for those that were proved on this machine before; in all about an hour on 4 processors"
    (cd "$1" && rt ci 2>&1 < /dev/null) | tee build/log |
        sed -un 's/^rt: \([a-z_]*\) \(proved\|NOT PROVED\)$/\1 \2/p' || stop build/log
}

take_proved() { # FOLDER NAME..: copies what `make test` has proved; `rt ci` may put other libraries in its place
    local folder=$1 name
    shift
    for name in "$@"; do
        mkdir -p "$folder/crates/$name/out"
        cp -r "crates/$name/out/." "$folder/crates/$name/out/"
    done
}

library_names() { # the crates and the kit's libraries that the library uses
    sed -n 's/^dwcheck_c staticlib: //p' crates.txt | tr ' ' '\n' | sed '/^$/d'
}

# Makes a folder as the kit's `toolchain`, but with tools/clang_with_rows.sh in clang's place, so that the library's
# code has unwind rows of its own. If the script fails, the file `why` there says so.
link_toolchain() { # TOOLCHAIN FOLDER
    local clang=$2/bin/clang
    cp -rs "$1/." "$2" && rm "$clang"
    printf '#!/usr/bin/env bash\nROWS_LOG=%q exec %q %q "$@"\n' "$2/why" "$top/tools/clang_with_rows.sh" "$1/bin/clang" > "$clang"
    chmod +x "$clang"
}

# Says how many functions of an archive have no unwind rows, if there are any: then a later kit makes its code in another
# way than tools/clang_with_rows.sh expects.
note_without_rows() { # ARCHIVE
    local functions rows
    functions=$(readelf -sW "$1" 2> /dev/null | awk '$4 == "FUNC" && $3 > 0 && $7 != "UND"' | wc -l)
    rows=$(readelf -W --debug-dump=frames "$1" 2> /dev/null | grep -c ' FDE ') || true
    [ "$rows" -ge "$functions" ] || echo "note: $((functions - rows)) of the library's $functions functions have no unwind rows, so walks that interrupt them are cut" >&2
}

# Checks and compiles a crate, over those in a folder.
compile() { # FOLDER JOBS NAME OUT WORD..
    local folder=$1 jobs=$2 name=$3 result=$4 kit
    shift 4
    kit=$(dirname "$(rt doc)")
    [ -d "$folder/toolchain" ] || link_toolchain "$kit/toolchain" "$folder/toolchain"
    (cd "crates/$name" && "$kit/bin/rattle" build --crate-name "$name" "$@" \
        -L "dependency=$kit/rlibs" --antt-project "$kit/rattle/logic/antt-project.json" \
        --logic-built "$kit/logic_built" --toolchain "$folder/toolchain" --backend llvm --jobs "$jobs" \
        --target "$target" -o "$result") > "$out/log" 2>&1 < /dev/null || {
        [ ! -s "$folder/toolchain/why" ] || stop "$folder/toolchain/why"
        stop "$out/log"
    }
}

build_library() { # FOLDER JOBS
    local kit words=() name
    kit=$(dirname "$(rt doc)")
    for name in $(library_names) std; do
        if [ -d "crates/$name" ]; then
            words+=(--extern "$name=$1/crates/$name/out/rlib/$name.rlib" -L "dependency=$1/crates/$name/out/rlib")
        else
            words+=(--extern "$name=$kit/rlibs/$name.rlib")
        fi
    done
    [ "$out" != build ] || rm -rf build/checked
    compile "$1" "$2" dwcheck_c "$1/libdwcheck_c.a" src/lib.rt --crate-type staticlib "${words[@]}" --incremental "$top/build/checked"
    note_without_rows "$1/libdwcheck_c.a"
}

# The program for another processor than this machine's, whose own `rt ci` links. Its crate, a few functions, is checked
# again.
build_program() { # FOLDER JOBS
    local kit words=() name
    kit=$(dirname "$(rt doc)")
    for name in $(names); do
        words+=(-L "dependency=$1/crates/$name/out/rlib")
    done
    compile "$1" "$2" dwcheck "$1/dwcheck-program.o" src/main.rt --extern "dw_check=$1/crates/dw_check/out/rlib/dw_check.rlib" \
        --extern "std=$kit/rlibs/std.rlib" "${words[@]}"
}

put() { # FILE TO: copies a file, unless it is there already with the same bytes
    cmp -s "$1" "$2" || cp "$1" "$2"
}

is_of_now() { # FILE CHECKSUM: whether the file has the checksum
    [ -f "$1" ] && [ "$(cat "$1")" = "$2" ]
}

sum_for() { # NAME: a checksum of all that a file is made from
    { sum && rt version && echo "$target $1" && cat tools/build.sh tools/clang_with_rows.sh; } | sha256sum | cut -d ' ' -f 1
}

begin() {
    mkdir -p "$out"
    work=$(mktemp -d)
    trap 'rm -rf "$work"' EXIT
}

# Where libraries are kept on this machine, as `rt ci` keeps proofs: by a checksum of all that one is made from.
kept=${XDG_CACHE_HOME:-$HOME/.cache}/dwcheck/libraries

keep() { # FILE CHECKSUM: keeps a file, and the eight that were used last besides
    mkdir -p "$kept" && cp "$1" "$kept/new-$$" && mv "$kept/new-$$" "$kept/$2" || true
    ls -t "$kept" | tail -n +10 | (cd "$kept" && xargs -r rm -f)
}

# Puts a file into the output's folder that a command makes in $work, unless it was made on this machine before.
take_or_make() { # NAME COMMAND..
    local name=$1 now
    shift
    now=$(sum_for "$name")
    if [ -f "$kept/$now" ]; then
        echo "$name was proved and built on this machine before"
        touch "$kept/$now"
        put "$kept/$now" "$out/$name"
    else
        "$@"
        put "$work/$name" "$out/$name"
        keep "$out/$name" "$now"
    fi
}

archive() { # JOBS: builds the library over the crates in $work
    rm -f "$out/archive.sum"
    take_or_make libdwcheck_c.a build_library "$work" "$1"
    sum_for libdwcheck_c.a > "$out/archive.sum"
}

build_archive() { # Proofs of other crates keep the other processors busy.
    begin
    take_proved "$work" $(library_names | grep -xF "$(names)")
    archive 1
}

build() {
    begin
    if is_of_now build/proved "$(sum)" && [ -f crates/dwcheck/out/dwcheck ]; then
        take_proved "$work" $(names)
    else
        prove_copy "$work"
    fi
    if ! { [ -f "$out/libdwcheck_c.a" ] && is_of_now "$out/archive.sum" "$(sum_for libdwcheck_c.a)"; }; then
        echo "proving and building dwcheck_c"
        archive "$(library_jobs)"
    fi
    if [ "$out" = build ]; then
        put "$work/crates/dwcheck/out/dwcheck" build/dwcheck
    else
        take_or_make dwcheck-program.o build_program "$work" "$(library_jobs)"
    fi
}

set -o pipefail
case ${1:-} in
"") build ;;
archive) build_archive ;;
sum) sum ;;
*) echo "usage: tools/build.sh [archive|sum]" >&2 && exit 2 ;;
esac
