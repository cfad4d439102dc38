#!/usr/bin/env bash
# Makes the samples of one version of binutils, and what its objdump says of them: make.sh FOLDER [PREFIX]. PREFIX is
# put before the names of the tools, such as x86_64-linux-gnu-as, to run those of another version. FOLDER is the version:
# 2.40, 2.44 or 2.47.50.
set -eu
cd "$(dirname "$0")"
folder=$1 prefix=${2-}
mkdir -p "$folder"
options="-shared -z noseparate-code -z max-page-size=4096 --build-id=none --hash-style=gnu"
for name in hard plt remember silent hard-aarch64; do
    machine=x86_64 source=src/$name.s
    case $name in
    hard) source=src/hard-x86-64.s ;;
    hard-aarch64) machine=aarch64 ;;
    esac
    # gas says of some functions that it leaves them out.
    $prefix $machine-linux-gnu-as --gsframe "$source" -o "$folder/$name.o" 2> /dev/null
    # A library's linker options, but what they leave in a small file.
    $prefix $machine-linux-gnu-ld $options --eh-frame-hdr "$folder/$name.o" -o "$folder/$name.so"
    $prefix $machine-linux-gnu-strip -g "$folder/$name.so"
    $prefix $machine-linux-gnu-objdump --sframe=.sframe "$folder/$name.so" > "$folder/$name.txt"
    case $name in
    remember | silent) ;;
    *) rm "$folder/$name.o" ;;
    esac
done
