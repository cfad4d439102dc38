#!/usr/bin/env bash
# Runs what `make ARCH=aarch64` has built on Debian's kernel for arm64, in a virtual machine: ptrace, core files of the
# kernel, its vDSO and perf, none of which qemu-user has. Frames are compared with gdb's.
#   bench/arm64/vm.sh [FOLDER]
#   KEEP=TO bench/arm64/vm.sh [FOLDER]   makes instead what tests of dwcheck-elf keep (keep.sh), in the folder TO
# FOLDER (build/arm64-vm) keeps Debian's packages, some 700 MB. Prints a line `ok NAME` or `FAILED NAME` for each
# comparison (bench/arm64/in_vm.sh), and ends with status 1 if one failed or the machine didn't come to its end. With
# SVE=on in the environment the processor has these registers, and perf then refuses to record stacks; with PAGES=16 the
# kernel is one of Debian 13 that has pages of 16 KB. Needs qemu-system-arm and cpio, which it installs (tools/packages.sh),
# and no rights besides.
set -eu
top=$(dirname "$(dirname "$(dirname "$(realpath "$0")")")")
folder=$(realpath -m "${1:-$top/build/arm64-vm}")
built=$top/build/aarch64
root=$folder/root
seconds=1200

# The programs that the machine has, beside those that are tested.
packages="linux-image-cloud-arm64 bash coreutils grep sed gawk diffutils mount procps gdb libc6-dbg linux-perf
    libzydis4.0 libzstd1 liblz4-1 libsqlite3-0 liblzma5 libstdc++6 libssl3 libunwind8"

cross() { # PROGRAM FLAG..: compiles a program for the machine
    local program=$1
    shift
    aarch64-linux-gnu-gcc -std=gnu11 -D_GNU_SOURCE -Wall -Wextra -I"$top/c/include" -O2 -g -fno-optimize-sibling-calls \
        -fno-omit-frame-pointer -rdynamic "$@" -x none "$built/libdwcheck-dl.a" "$built/libdwcheck.a" -o "$folder/test/$program" -pthread -ldl
}

# Each test and example, with return addresses as they are and signed.
compile() {
    local kind signing with program
    printf 'void call_back(void (*f)(void)); void call_back(void (*f)(void)) { f(); __asm__ volatile(""); }\n' > "$folder/called.c"
    aarch64-linux-gnu-gcc -O2 -fPIC -shared "$folder/called.c" -o "$folder/test/called.so"
    for kind in plain signed; do
        signing=
        if [ $kind = signed ]; then signing=-mbranch-protection=standard; fi
        for program in dl dl_signed dl_interrupted; do
            if [ $program-$kind = dl_signed-plain ]; then continue; fi
            cross $program-$kind $signing "$top/c/tests/$program.c"
        done
        for program in stack crash attach core profiler; do
            with=
            case $program in attach | core) with="$top/examples/c/remote.c $top/examples/c/state.c" ;; esac
            cross $program-$kind $signing "$top/examples/c/$program.c" $with
        done
        aarch64-linux-gnu-gcc -g -O0 -pthread $signing "$top/examples/rust/crash.c" -o "$folder/test/dies-$kind"
        aarch64-linux-gnu-gcc -g -O1 $signing -fno-optimize-sibling-calls "$top/bench/arm64/handler.c" -o "$folder/test/handler-$kind"
    done
    for program in unwind unwind_remote unwind_remote_input; do
        aarch64-linux-gnu-gcc -std=gnu11 -D_GNU_SOURCE -Wall -Wextra -I"$top/c/include" -O2 -g "$top/c/tests/$program.c" \
            -Wl,--as-needed "$built/unwind/libunwind-ptrace.so.0" "$built/unwind/libunwind.so.8" -Wl,-rpath-link,"$built/unwind" \
            -Wl,-rpath,/test -Wl,-z,lazy -o "$folder/test/$program" -pthread -ldl
    done
    cp "$built"/unwind/libunwind*.so.? "$folder/test/"
    cp "$top/bench/arm64/in_vm.sh" "$top/bench/arm64/init" "$top/examples/c/compare.py" "$built/dwcheck-elf" "$folder/test/"
}

# What is kept: a program without a C library, whose return addresses are signed, and what keep.sh makes with it.
compile_kept() {
    (cd "$top/bench/arm64" && aarch64-linux-gnu-gcc -g -O1 -fno-optimize-sibling-calls -fno-stack-protector -nostdlib -static \
        -mbranch-protection=standard -Wl,--build-id=sha1 -Wl,-z,max-page-size=4096 -ffile-prefix-map="$PWD=/src" kept.c -o "$folder/test/kept")
    cp "$top/bench/arm64/keep.sh" "$folder/test/in_vm.sh"
    cp "$top/bench/arm64/init" "$folder/test/"
}

take_kept() { # NAME: from what the machine has printed
    mkdir -p "$KEEP"
    sed -n "s/^KEEP $1 //p" "$folder/log" | base64 -d > "$KEEP/$1"
    [ -s "$KEEP/$1" ]
}

# The file system that the machine starts with, in memory: Debian's programs without the kernel's modules, and the tests.
pack() {
    (cd "$root" && find . -path ./usr/lib/modules -prune -o -path ./boot -prune -o -path ./usr/share/doc -prune -o -print0 |
        cpio --null -o -H newc --quiet)
    (cd "$folder" && find test -print0 | cpio --null -o -H newc --quiet)
    (cd "$folder/test" && echo init | cpio -o -H newc --quiet)
}

# The kernel with pages of 16 KB: a package of Debian's says which one is the latest.
fetch_kernel() {
    local version
    "$top/tools/arm64_root.sh" "$folder/latest" trixie linux-image-arm64-16k
    version=$(sed -n 's/^linux-image-arm64-16k \(.*\)-[^-]*$/\1/p' "$folder/latest/versions")
    "$top/tools/arm64_root.sh" "$folder/kernel" trixie "linux-image-$version+deb13-arm64-16k"
}

"$top/tools/packages.sh" install vm arm64
"$top/tools/arm64_root.sh" --whole "$root" bookworm $packages
kernel=$root
if [ "${PAGES:-4}" = 16 ]; then fetch_kernel && kernel=$folder/kernel; fi
rm -rf "$folder/test" && mkdir -p "$folder/test"
if [ -n "${KEEP:-}" ]; then compile_kept; else compile; fi
pack > "$folder/files"
timeout $seconds qemu-system-aarch64 -M virt -cpu max,pauth-impdef=on,sve=${SVE:-off} -m 3G -smp 2 -nographic -no-reboot -nic none \
    -kernel "$kernel"/boot/vmlinuz-* -initrd "$folder/files" -append "console=ttyAMA0 panic=-1 quiet" < /dev/null | sed -u 's/\r//g' | tee "$folder/log" | grep --line-buffered -v '^KEEP '
if [ -n "${KEEP:-}" ]; then
    for name in arm64.core arm64.perf arm64.script; do take_kept $name; done
    cp "$folder/test/kept" "$KEEP/"
fi
grep -q '^END' "$folder/log" && ! grep -q '^FAILED' "$folder/log"
