#!/usr/bin/env bash
# The Debian 12 packages that this repository uses.
#   tools/packages.sh missing GROUP..   prints those that aren't installed, one a line
#   tools/packages.sh install GROUP..   installs them, which needs root, or sudo without a password
#   tools/packages.sh missing_arm64     prints arm64's libraries, unless they are in build/arm64-root
#   tools/packages.sh install_arm64     unpacks them there, and installs nothing
# The groups: `rust`, the libraries that dwcheck-elf uses; `cargo`; `arm64`, the cross compiler for
# aarch64; `arm64_run`, what runs its programs here, which write their completions for `make dist` and
# debian/; and `test`, what `make test` needs besides. If packages can't be installed, `install` says
# in one line what to do, and its status is 1. Then none has been installed.
set -u

rust="librust-object-dev librust-gimli-dev librust-addr2line-dev librust-flate2-dev librust-crc32fast-dev
    librust-clap-dev librust-clap-complete-dev librust-rayon-dev librust-indicatif-dev librust-memchr-dev librust-memmap2-dev librust-nix-dev librust-libc-dev
    librust-serde-json-dev librust-typed-arena-dev librust-rustc-demangle-dev librust-cpp-demangle-dev
    librust-glob-dev librust-xz2-dev librust-smallvec-dev librust-rustc-hash-dev librust-once-cell-dev librust-cc-dev
    librust-rusqlite-dev librust-sha2-dev librust-tar-dev
    libzydis-dev libzstd-dev liblz4-dev gcc"
cargo="cargo rustc"
arm64="gcc-aarch64-linux-gnu libc6-dev-arm64-cross binutils-aarch64-linux-gnu"
arm64_run="qemu-user"
# Those with which dwcheck-elf is linked and runs, two more whose rows tests read, and libunwind, which they compare with.
arm64_libraries="libstd-rust-dev libzydis-dev libzydis4.0 libzycore1.4 libzstd-dev libzstd1 liblz4-dev liblz4-1
    libsqlite3-dev libsqlite3-0 liblzma-dev liblzma5 libc6 libgcc-s1 libstdc++6 libssl3 libunwind-dev libunwind8"
# What bench/arm64/vm.sh needs, and bench/arm64/install.sh.
vm="qemu-system-arm cpio"
arm64_system="debootstrap qemu-user-static debhelper $arm64_run"
# The last two lines are assemblers of other machines, which tests of dwcheck-elf use.
test="gcc g++ libc6-dev make binutils pkg-config python3 python3-pyelftools rust-clippy rustfmt valgrind libc6-dbg gdb elfutils xz-utils zstd lz4 sqlite3 parallel slurmctld slurmd slurm-client
    libunwind-dev heaptrack libgoogle-perftools4 libgoogle-glog-dev xvfb libgstreamer1.0-0 strace clang clang-16 lld llvm golang-go gdb-multiarch linux-perf libc6-dev-i386 lib32gcc-12-dev
    $arm64 $arm64_run gcc-arm-linux-gnueabihf libc6-dev-armhf-cross
    $(printf 'binutils-%s-linux-gnu ' i686 alpha hppa mips powerpc powerpc64 powerpc64le riscv64 s390x sparc64)
    binutils-arm-linux-gnueabihf"

missing() { # GROUP..
    for group in "$@"; do
        for package in ${!group}; do
            dpkg-query -W -f '${db:Status-Status}\n' "$package" 2> /dev/null | grep -qx installed || echo "$package"
        done
    done
}

stop() { # WHY
    echo "$1" >&2
    exit 1
}

install() { # GROUP..
    packages=$(missing "$@" | tr '\n' ' ')
    [ -n "$packages" ] || return 0
    line="apt-get install --no-install-recommends $packages"
    command -v apt-get > /dev/null || stop "some programs are missing, and there is no apt-get; install what these Debian 12 packages have: $packages"
    as_root=
    if [ "$(id -u)" -ne 0 ]; then
        sudo -n true 2> /dev/null || stop "some packages are missing; as root, run: $line"
        as_root="sudo -n"
    fi
    log=$(mktemp)
    # apt-get fetches all packages before it installs the first one.
    if ! { $as_root apt-get -o Acquire::Retries=5 -o APT::Update::Error-Mode=any update &&
        $as_root env DEBIAN_FRONTEND=noninteractive apt-get -o Acquire::Retries=5 install -y --no-install-recommends $packages; } \
        > "$log" 2>&1 < /dev/null; then
        stop "some packages can't be installed ($(grep -m 1 '^E: ' "$log" || echo "see $log")); with a network, run: $line"
    fi
    rm "$log"
}

top=$(dirname "$(dirname "$(realpath "$0")")")

missing_arm64() {
    [ -f "$top/build/arm64-root/packages" ] || printf '%s\n' $arm64_libraries
}

install_arm64() {
    "$top/tools/arm64_root.sh" "$top/build/arm64-root" bookworm $arm64_libraries
}

case ${1:-} in
missing | install | missing_arm64 | install_arm64) "$@" ;;
*) stop "usage: tools/packages.sh missing|install rust|cargo|arm64|test .., or missing_arm64|install_arm64" ;;
esac
