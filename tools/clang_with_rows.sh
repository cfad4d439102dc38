#!/usr/bin/env bash
# Takes clang's place in the kit, so that the code of the library gets unwind rows of its own.
#   tools/clang_with_rows.sh CLANG WORD..   runs CLANG with these words
# If they compile a module of LLVM (`-c -x ir MODULE -o OBJECT`), each of its functions first gets the attribute
# `uwtable`. So the object has .eh_frame. Its code is the same but for padding on x86-64: no jump crosses 32 bytes.
# Many processors of Intel don't keep such a jump once it is decoded, so a walk would take a quarter longer or not by
# where a linker puts it. On aarch64 return addresses are signed, and places to which indirect jumps lead are marked
# (-mbranch-protection=standard), which the object's note says. Everything else goes to CLANG as it is. If something
# fails, the last line of errors says what, also in the file that ROWS_LOG names, if any.
set -u

fail() { # WHAT
    echo "tools/clang_with_rows.sh: $1" | tee -a "${ROWS_LOG:-/dev/null}" >&2
    exit 1
}

[ $# -gt 0 ] || fail "a clang must be named"
clang=$1
shift

# Where the module is among the words, counted from 1; 0 if no module is compiled into an object.
place_of_module() { # WORD..
    local place=0 is_compiled=0 i
    for ((i = 1; i <= $#; i++)); do
        case ${!i} in
        -c) is_compiled=1 ;;
        -x) local language=$((i + 1)) module=$((i + 2))
            if [ "${!language:-}" = ir ] && [ -f "${!module:-}" ]; then place=$module; fi ;;
        esac
    done
    echo $((place * is_compiled))
}

# The words with which clang writes a module as text, and changes nothing: those of the call, but for the object.
words_for_text() { # TEXT WORD..
    local text=$1
    shift
    words=()
    while [ $# -gt 0 ]; do
        case $1 in
        -c) ;;
        -o) shift ;;
        *) words+=("$1") ;;
        esac
        shift
    done
    words+=(-S -emit-llvm -O0 -Xclang -disable-llvm-passes -o "$text")
}

place=$(place_of_module "$@")
[ "$place" -gt 0 ] || exec "$clang" "$@"
folder=$(mktemp -d) || fail "there is no temporary folder"
trap 'rm -rf "$folder"' EXIT
words_for_text "$folder/module.ll" "$@"
"$clang" "${words[@]}" || fail "the module can't be written as text by $clang"

# What clang writes for -mbranch-protection=standard: attributes of functions, and two flags of the module.
protect() { # MODULE
    local attributes='"branch-target-enforcement" "sign-return-address"="non-leaf" "sign-return-address-key"="a_key"'
    local first=900000001 second=900000002
    grep -q '^!llvm.module.flags = ' "$1" || echo '!llvm.module.flags = !{}' >> "$1"
    printf '!%s = !{i32 8, !"%s", i32 2}\n' $first branch-target-enforcement $second sign-return-address >> "$1"
    sed -i -e "s/^\(attributes #[0-9]* = {\)/\1 $attributes/" \
        -e "s/^\(!llvm.module.flags = !{\)\(..*}\)\$/\1!$first, !$second, \2/" \
        -e "s/^\(!llvm.module.flags = !{\)}\$/\1!$first, !$second}/" "$1"
}

sed -i 's/^\(attributes #[0-9]* = {\)/\1 uwtable/' "$folder/module.ll" || fail "the text of the module can't be changed"
padding=()
case $(sed -n 's/^target triple = "\([^"-]*\).*/\1/p' "$folder/module.ll") in
x86_64) padding=(-mbranches-within-32B-boundaries) ;;
aarch64*) protect "$folder/module.ll" || fail "the text of the module can't be changed" ;;
esac
"$clang" "${@:1:place-1}" "$folder/module.ll" "${@:place+1}" "${padding[@]}" || fail "the module with rows can't be compiled by $clang"
