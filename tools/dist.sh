#!/usr/bin/env bash
# Makes build/dist/dwcheck-VERSION-x86_64-linux.tar.xz, or with ARCH=aarch64 in the environment
# build/aarch64/dist/dwcheck-VERSION-aarch64-linux.tar.xz: what a machine without the kit can use. It has the
# programs, the C libraries with header, pkg-config and CMake files, the Python module, manual pages,
# completions, docs, checksums, and a page that says what was proved, by which kit, from which commit.
# Debian has no static Zydis, so the programs come with the shared libraries that they need, libc and its
# loader among them. Two runs from the same commit give the same bytes. The tree must be clean, and `make` must have built it.
set -eu
top=$(dirname "$(dirname "$(realpath "$0")")")
cd "$top"
version=$(sed -n 's/^version := //p' Makefile)
arch=${ARCH:-x86_64}
case $arch in
x86_64)
    built=build loader=ld-linux-x86-64.so.2
    unwind="unwind/libunwind.so.8 unwind/libunwind-x86_64.so.8 unwind/libunwind-ptrace.so.0"
    run=
    ;;
aarch64)
    built=build/aarch64 loader=ld-linux-aarch64.so.1
    unwind="unwind/libunwind.so.8 unwind/libunwind-aarch64.so.8 unwind/libunwind-ptrace.so.0"
    root=build/arm64-root
    run="qemu-aarch64 -L $root"
    ;;
*) echo "ARCH is x86_64 or aarch64" >&2 && exit 2 ;;
esac
name=dwcheck-$version-$arch-linux
out=$built/dist/$name

[ -z "$(git status --porcelain)" ] || { echo "the tree has changes that aren't committed" >&2; exit 1; }
for file in dwcheck dwcheck-elf libdwcheck.a "libdwcheck.so.$version" libdwcheck-dl.a "libdwcheck-dl.so.$version" \
    $unwind man/dwcheck.1 man/dwcheck-elf.1 man/dwcheck.3; do
    [ -f "$built/$file" ] || { echo "$built/$file isn't there: run make first" >&2; exit 1; }
done

put() { # MODE FOLDER FILE..
    local mode=$1 folder=$2
    shift 2
    install -d "$out/$folder"
    install -m "$mode" "$@" "$out/$folder/"
}

libraries_of() { # PROGRAM: prints the paths of the shared libraries that it needs
    if [ "$arch" = x86_64 ]; then
        ldd "build/$1" | sed -n 's|^[^/]*\(/[^ ]*\) (.*|\1|p'
    else
        tools/arm64_libraries.sh paths "$built/$1"
    fi
}

packages_of() { # PROGRAM: prints the packages of these libraries, each with its version
    if [ "$arch" = x86_64 ]; then
        for library in $(libraries_of "$1"); do
            dpkg -S "$library" 2> /dev/null || dpkg -S "/usr$library"
        done | sed 's/: .*//' | LC_ALL=C sort -u | xargs dpkg-query -W -f '${Package} ${Version}\n'
    else
        tools/arm64_libraries.sh packages "$built/$1"
    fi
}

# A program, its shared libraries, and a script that starts it with these.
put_program() { # NAME
    put 755 lib/dwcheck "$built/$1" $(libraries_of "$1")
    install -d "$out/bin"
    cat > "$out/bin/$1" << END
#!/bin/sh
# Starts the program with the libraries that came with it, whatever this system has.
libraries=\$(dirname "\$(readlink -f "\$0")")/../lib/dwcheck
exec "\$libraries/$loader" --library-path "\$libraries" "\$libraries/$1" "\$@"
END
    chmod 755 "$out/bin/$1"
}

# The pkg-config files of an installed library, but relative to where the archive is unpacked.
relocatable() { # NAME
    sed -e 's|@PREFIX@|${pcfiledir}/../..|' -e 's|@LIBDIR@|${prefix}/lib|' -e 's|@INCLUDEDIR@|${prefix}/include|' \
        -e "s|@VERSION@|$version|" "c/$1.pc.in" > "$out/lib/pkgconfig/$1.pc"
}

completions() { # SHELL FILE
    install -d "$(dirname "$out/share/$2")"
    $run "$built/dwcheck-elf" completions "$1" > "$out/share/$2"
}

# What was proved: the commit, the kit, and a checksum of everything that a proof reads.
provenance() {
    echo "dwcheck $version"
    echo "commit $(git rev-parse HEAD)"
    echo "kit $(rt version)"
    echo "proved files, sha256 $(tools/build.sh sum)"
    echo
    echo "Each function of these crates is proved to meet its contract (docs/PROVED.md):"
    sed -n 's/^\([a-z_]*\)\( staticlib\)\?:.*/\1/p' crates.txt
    echo
    echo "Debian's packages of the libraries in lib/dwcheck:"
    packages_of dwcheck-elf
    echo
    [ -z "$unwind" ] || echo "Not proved: libunwind's calls (lib/unwind)."
    echo "Not proved: dwcheck-elf, libdwcheck-dl, dwcheck.hpp, dwcheck.cppm, dwcheck.py, and the C files of c/."
}

# The licenses of what the programs and libraries contain beside this project's own files: crates of the
# kit, crates of Debian, and the shared libraries.
licenses() {
    local kit to=$out/share/doc/dwcheck/licenses file name
    kit=$(dirname "$(rt doc)")
    for name in $(sed 's/^[^:]*://' crates.txt | tr ' ' '\n' | LC_ALL=C sort -u) std; do
        for file in "$kit/rattle/$name"/LICENSE*; do
            [ ! -f "$file" ] || install -D -m 644 "$file" "$to/kit/$name/$(basename "$file")"
        done
    done
    { sed -n 's/^name = "\(.*\)"/librust-\1-dev/p' rust/Cargo.lock | tr _ -
      packages_of dwcheck-elf | cut -d ' ' -f 1
    } | LC_ALL=C sort -u | while read -r name; do
        for file in "${root:-}/usr/share/doc/$name/copyright" "/usr/share/doc/$name/copyright"; do
            if [ -f "$file" ]; then install -D -m 644 "$file" "$to/debian/$name" && break; fi
        done
    done
}

rm -rf "$built/dist"
put_program dwcheck
put_program dwcheck-elf
put 644 lib "$built/libdwcheck.a" "$built/libdwcheck-dl.a"
for library in libdwcheck libdwcheck-dl; do
    put 755 lib "$built/$library.so.$version"
    ln -s "$library.so.$version" "$out/lib/$library.so.2"
    ln -s "$library.so.2" "$out/lib/$library.so"
done
for library in $unwind; do put 755 lib/unwind "$built/$library"; done
put 644 include c/include/dwcheck.h c/include/dwcheck.hpp c/include/dwcheck.cppm c/include/dwcheck-dl.h c/include/dwcheck-unwind.h
install -d "$out/lib/pkgconfig"
relocatable dwcheck
relocatable dwcheck-dl
put 644 lib/cmake/dwcheck c/dwcheckConfig.cmake
sed "s/@VERSION@/$version/" c/dwcheckConfigVersion.cmake.in > "$out/lib/cmake/dwcheck/dwcheckConfigVersion.cmake"
put 644 share/python python/dwcheck.py
put 644 share/man/man1 "$built/man/dwcheck.1" "$built/man/dwcheck-elf.1"
put 644 share/man/man3 "$built/man/dwcheck.3"
put 644 share/doc/dwcheck README.md CHANGES.md LICENSE-MIT LICENSE-APACHE docs/*.md
licenses
completions bash bash-completion/completions/dwcheck-elf
completions zsh zsh/site-functions/_dwcheck-elf
completions fish fish/vendor_completions.d/dwcheck-elf.fish
provenance > "$out/share/doc/dwcheck/PROVENANCE"
(cd "$out" && find . -type f ! -name SHA256SUMS -print0 | LC_ALL=C sort -z | xargs -0 sha256sum > SHA256SUMS)
# No date, owner or order of this machine goes into the archive.
tar --sort=name --owner=0 --group=0 --numeric-owner --mtime="@$(git log -1 --format=%ct)" --format=gnu \
    -C "$built/dist" -cf - "$name" | xz -T1 -6 > "$built/dist/$name.tar.xz"
(cd "$built/dist" && sha256sum "$name.tar.xz" | tee "$name.tar.xz.sha256")
