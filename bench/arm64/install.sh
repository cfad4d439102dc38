#!/usr/bin/env bash
# Builds the packages for arm64, and installs them on a new Debian 12 for arm64, which has neither the kit nor a compiler, and
# tries them there (bench/arm64/in_root.sh). It is a folder, whose programs qemu-user runs.
#   bench/arm64/install.sh [PACKAGES [FOLDER]]
# PACKAGES has the packages. Without it, or if it is empty, dpkg-buildpackage makes them in build/aarch64/packages, from what
# make ARCH=aarch64 has built. FOLDER (build/arm64-system) keeps Debian's, 230 MB; to make it takes some 5 minutes. Prints a
# line `ok NAME` or `FAILED NAME` for each trial, and ends with status 1 if one failed. Needs root, and Linux 6.7 or later: then
# programs for arm64 are run by qemu in a namespace, and everywhere else as before.
set -eu
top=$(dirname "$(dirname "$(dirname "$(realpath "$0")")")")
packages=$(realpath -m "${1:-$top/build/aarch64/packages}")
folder=$(realpath -m "${2:-$top/build/arm64-system}")
work=$(mktemp -d)
trap 'rm -rf "$work"' EXIT
. "$top/tools/each_test.sh"

# dpkg-buildpackage puts packages beside the tree.
build_packages() {
    local file
    (cd "$top" && dpkg-buildpackage -us -uc -b -d -aarm64 > "$work/log" 2>&1) || { tail -n 12 "$work/log" && return 1; }
    rm -rf "$packages" && mkdir -p "$packages"
    for file in $(cut -d ' ' -f 1 "$top/debian/files"); do mv "$top/../$file" "$packages/"; done
    rm -f "$top"/../dwcheck_*_arm64.changes
    (cd "$top" && debian/rules clean > "$work/log" 2>&1)
}

# The programs, and the libraries in the system's folder, are for aarch64, and no path is in them by which the dynamic linker
# would look for libraries.
without_paths() {
    local package file count=0
    for package in "$packages"/{dwcheck,libdwcheck2}_*_arm64.deb; do dpkg-deb -x "$package" "$work/unpacked"; done
    for file in "$work"/unpacked/usr/bin/* "$work"/unpacked/usr/lib/aarch64-linux-gnu/*.so.*.*; do
        readelf -h "$file" | grep -q 'Machine: *AArch64' || { echo "$file isn't for aarch64" && return 1; }
        ! readelf -d "$file" | grep -E '\((RPATH|RUNPATH)\)' || { echo "$file" && return 1; }
        count=$((count + 1))
    done
    [ $count = 4 ]
}

# In the namespace: `elf` files for aarch64 are run by qemu, and the root has devices and processes.
cat > "$work/enter" << 'END'
set -eu
root=$1
shift
mount -t proc proc /proc
mount -t binfmt_misc binfmt_misc /proc/sys/fs/binfmt_misc
x='\x00' f='\xff'
printf '%s' ":qemu-aarch64:M::\x7fELF\x02\x01\x01$x$x$x$x$x$x$x$x$x\x02$x\xb7$x:$f$f$f$f$f$f$f\xfc$f$f$f$f$f$f$f$f\xfe$f$f$f:$(command -v qemu-aarch64-static):F" \
    > /proc/sys/fs/binfmt_misc/register
mount --rbind /dev "$root/dev"
mount -t proc proc "$root/proc"
exec chroot "$root" "$@"
END

# Runs a command in a root. The namespace has all users, whom only a process outside can give it.
run_in() { # ROOT COMMAND..
    exec 3>&1
    coproc inside { exec unshare --user --mount --pid --fork --kill-child bash -c 'read -r go && exec bash "$@" < /dev/null' - "$work/enter" "$@" 1>&3; }
    local pid=$inside_PID
    while [ "$(readlink "/proc/$pid/ns/user")" = "$(readlink /proc/self/ns/user)" ]; do sleep 0.1; done
    echo "0 0 65536" > "/proc/$pid/uid_map"
    echo "0 0 65536" > "/proc/$pid/gid_map"
    echo go >&"${inside[1]}"
    wait "$pid"
}

# debootstrap makes no devices if it is told that it is in such a container.
make_system() {
    rm -rf "$folder" && mkdir -p "$folder"
    debootstrap --arch=arm64 --foreign --variant=minbase bookworm "$folder/root" http://deb.debian.org/debian > "$folder/log"
    rm -f "$folder/root/proc" && mkdir -p "$folder/root/proc"
    container=lxc run_in "$folder/root" /debootstrap/debootstrap --second-stage >> "$folder/log"
    touch "$folder/done"
}

"$top/tools/packages.sh" install arm64_system
[ -n "${1:-}" ] || test_of "dpkg-buildpackage -us -uc -b -d -aarm64" build_packages
test_of "programs and libraries of the packages have no RUNPATH" without_paths
[ $status = 0 ] || exit 1
[ -f "$folder/done" ] || make_system
cp -a "$folder/root" "$work/root"
mkdir "$work/root/trial"
cp "$packages"/*_arm64.deb "$top/bench/arm64/in_root.sh" "$top/tools/each_test.sh" "$work/root/trial/"
cp -r "$top/debian/tests" "$work/root/trial/tests"
cp "$top"/rust/dwcheck-command/tests/{cores/arm64.core.gz,recordings/test/kept} "$work/root/trial/"
run_in "$work/root" /bin/bash /trial/in_root.sh || status=1
exit $status
