#!/usr/bin/env bash
# Counts the instructions of a frame of a walk by kept rows, on x86-64 and on aarch64, and prints their ratio. Both are
# counted by qemu-user, which writes a line for each instruction: time isn't worth anything there.
#   bench/arm64/instructions.sh
# Needs what `make` and `make ARCH=aarch64` have built.
set -eu
top=$(dirname "$(dirname "$(dirname "$(realpath "$0")")")")
out=$(mktemp -d)
trap 'rm -rf "$out"' EXIT

build() { # COMPILER FOLDER PROGRAM
    "$1" -O1 -fno-optimize-sibling-calls -I"$top/c/include" "$top/bench/arm64/walks.c" "$2/libdwcheck-dl.a" "$2/libdwcheck.a" \
        -o "$out/$3" -pthread -ldl
}

lines() { # EMULATOR.. PROGRAM COUNT: how many instructions it executes
    "${@:1:$#-2}" -singlestep -d exec,nochain -D /dev/stderr "$out/${@: -2:1}" "${@: -1}" 2>&1 > "$out/frames" | wc -l
}

per_frame() { # EMULATOR.. PROGRAM
    local few=10 many=60 first
    first=$(lines "$@" $few)
    echo $((($(lines "$@" $many) - first) * 100 / ((many - few) * $(cat "$out/frames"))))
}

build gcc "$top/build" x86-64
build aarch64-linux-gnu-gcc "$top/build/aarch64" aarch64
here=$(per_frame qemu-x86_64 x86-64)
there=$(per_frame qemu-aarch64 -cpu max -L "$top/build/arm64-root" aarch64)
awk -v here="$here" -v there="$there" 'BEGIN {
    printf "instructions of a frame: x86-64 %.1f, aarch64 %.1f, ratio %.2f\n", here / 100, there / 100, there / here }'
