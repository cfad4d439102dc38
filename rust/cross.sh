#!/usr/bin/env bash
# Runs cargo as cargo.sh does, but for aarch64: with Debian's rustc, its cross compiler, and the libraries for arm64 that
# `tools/packages.sh install_arm64` has unpacked in build/arm64-root. Tests run under qemu-user.
#   ../cross.sh build --release
set -eu
here=$(dirname "$(realpath "$0")")
root=$(dirname "$here")/build/arm64-root
target=aarch64-unknown-linux-gnu
command=$1
shift

# rustc looks for a target's library where its own is: so here are both, under the names that it expects.
sysroot=$root/rust
mkdir -p "$sysroot/lib/rustlib"
ln -sfn "$root/usr/lib/rustlib/$target" "$sysroot/lib/rustlib/$target"
for library in /usr/lib/rustlib/*-linux-gnu; do
    [ "$(basename "$library")" = $target ] || ln -sfn "$library" "$sysroot/lib/rustlib/$(basename "$library")"
done

# Build scripts ask rustc what it compiles for the target, without flags. rustix makes its crate anew at each run if that fails.
if [ ! -x "$sysroot/rustc" ]; then
    cat > "$sysroot/rustc-$$" << END
#!/bin/sh
case "\$*" in
*--sysroot*) exec rustc "\$@" ;;
*) exec rustc "--sysroot=$sysroot" "\$@" ;;
esac
END
    chmod +x "$sysroot/rustc-$$" && mv "$sysroot/rustc-$$" "$sysroot/rustc"
fi
export RUSTC=$sysroot/rustc

export CARGO_TARGET_AARCH64_UNKNOWN_LINUX_GNU_LINKER=aarch64-linux-gnu-gcc
export CARGO_TARGET_AARCH64_UNKNOWN_LINUX_GNU_RUSTFLAGS="--sysroot=$sysroot -L native=$root/usr/lib/aarch64-linux-gnu"
export CARGO_TARGET_AARCH64_UNKNOWN_LINUX_GNU_RUNNER="qemu-aarch64 -L $root"
export CC_aarch64_unknown_linux_gnu=aarch64-linux-gnu-gcc AR_aarch64_unknown_linux_gnu=aarch64-linux-gnu-ar
export CFLAGS_aarch64_unknown_linux_gnu="-idirafter $root/usr/include"
export PKG_CONFIG=pkg-config PKG_CONFIG_ALLOW_CROSS=1 PKG_CONFIG_SYSROOT_DIR=$root PKG_CONFIG_LIBDIR=$root/usr/lib/aarch64-linux-gnu/pkgconfig
PATH=/usr/bin:$PATH exec "$here/cargo.sh" "$command" --target $target "$@"
