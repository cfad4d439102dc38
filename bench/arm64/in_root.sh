#!/bin/bash
# What install.sh runs in the new system: a line `ok NAME` or `FAILED NAME` for each trial.
set -u
export PATH=/usr/sbin:/usr/bin:/sbin:/bin LC_ALL=C HOME=/root DEBIAN_FRONTEND=noninteractive
cd /trial
out=$(mktemp -d)
. ./each_test.sh

install() { # PACKAGE..: prints the end of what apt says if it fails
    apt-get -q -y -o APT::Sandbox::User=root install --no-install-recommends "$@" > "$out/install" 2>&1 || { tail -n 5 "$out/install"; return 1; }
}

# The README's lines for a program that everybody has.
check_of_readme() {
    dwcheck-elf check /bin/ls > "$out/checked" && head -n 2 "$out/checked" && grep -q '^/bin/ls: .eh_frame: accepted$' "$out/checked"
}

# The stack of a core file of Linux for arm64: a signal has interrupted the program, whose return addresses are signed.
stack_of_core() {
    gunzip -c arm64.core.gz > core && dwcheck-elf stack --strict --no-source ./kept core > "$out/stack" && head -n 4 "$out/stack" &&
        [ "$(sed -n 's/^#[0-9]* 0x[0-9a-f]* \([a-z_]*\)+.*/\1/p' "$out/stack" | paste -sd ' ')" = "reads handles raises raises raises main_of _start" ]
}

uname -srm
apt-get -q -o APT::Sandbox::User=root update > "$out/update" 2>&1 || tail -n 3 "$out/update"
test_of "neither rt nor gcc is there" eval '! command -v rt && ! command -v gcc'
test_of "apt-get install ./dwcheck*_arm64.deb" install ./dwcheck*_arm64.deb
test_of "dwcheck-elf check /bin/ls" check_of_readme
test_of "dwcheck-elf stack of a core file" stack_of_core
test_of "the test programs of the packages" tests/programs
test_of "apt-get install ./libdwcheck*_arm64.deb" install ./libdwcheck*_arm64.deb
test_of "apt-get install of a compiler" install gcc g++ libc6-dev pkg-config libunwind-dev
test_of "the test compile-c of the packages" tests/compile-c
[ ! -e /usr/lib/aarch64-linux-gnu/dwcheck/libunwind.so.8 ] || test_of "the test libunwind-path of the packages" tests/libunwind-path
test_of "apt-get install of the crates and cargo" install ./librust-dwcheck-dev_*_arm64.deb cargo
test_of "the test build-rust of the packages" tests/build-rust
exit $status
