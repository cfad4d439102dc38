#!/usr/bin/env bash
# Unpacks Debian's packages for arm64 into a folder, where a cross compiler and qemu-user find libraries. Nothing is
# installed, so packages of this machine that conflict with them stay.
#   tools/arm64_root.sh FOLDER RELEASE PACKAGE..   as tools/arm64_root.sh build/arm64-root bookworm libc6 libssl3
#   tools/arm64_root.sh --whole FOLDER ..          the same with all packages that those depend on
# The mirrors are those that apt uses on this machine. If the folder has these packages already, it does nothing. If
# something fails, one line says what, the status is 1, and the folder isn't there.
set -u

stop() { # WHY
    echo "tools/arm64_root.sh: $1" >&2
    exit 1
}

whole=
if [ "${1:-}" = --whole ]; then whole=1 && shift; fi
[ $# -ge 3 ] || stop "usage: tools/arm64_root.sh [--whole] FOLDER RELEASE PACKAGE.."
folder=$1 release=$2
shift 2
names=$(printf '%s\n' "$release" "$@")
if [ -f "$folder/packages" ] && [ "$(cat "$folder/packages")" = "$names" ]; then exit 0; fi
command -v apt-get > /dev/null && command -v dpkg-deb > /dev/null || stop "there is no apt-get, or no dpkg-deb"

# A line for each of Debian's repositories that this machine uses, but for arm64 and this release.
sources() {
    local keys=/usr/share/keyrings/debian-archive-keyring.gpg
    apt-get indextargets --format '$(REPO_URI) $(RELEASE)' 'Created-By: Packages' 'Component: main' | sort -u |
        sed -n "s|^\([^ ]*\) bookworm\(.*\)\$|deb [arch=arm64 signed-by=$keys] \1 $release\2 main|p"
}

# apt-get with lists and packages of its own, so that this machine's stay as they are.
apt() { # WORD..
    apt-get -o "Dir::State=$work/state" -o Dir::State::status=/dev/null -o "Dir::Cache=$work/cache" \
        -o "Dir::Etc::sourcelist=$work/sources.list" -o Dir::Etc::sourceparts=/dev/null \
        -o APT::Architecture=arm64 -o APT::Architectures=arm64 -o APT::Sandbox::User=root -o Acquire::Retries=5 \
        "$@" >> "$work/log" 2>&1
}

work=$(mktemp -d) || stop "there is no temporary folder"
trap 'rm -rf "$work"' EXIT
mkdir -p "$work"/state/lists/partial "$work"/cache/archives/partial "$work/packages/partial" "$work/root"
sources > "$work/sources.list"
[ -s "$work/sources.list" ] || stop "apt knows no repository of Debian 12"
apt -o APT::Update::Error-Mode=any update || stop "no lists of arm64 packages: $(grep -m 1 '^E: ' "$work/log")"
if [ -n "$whole" ]; then
    apt -o "Dir::Cache::archives=$work/packages" install -y --download-only --no-install-recommends "$@"
else
    (cd "$work/packages" && apt download "$@")
fi || stop "no packages: $(grep -m 1 '^E: ' "$work/log")"
# Which version of each package it is, and which package each library is of.
for package in "$work"/packages/*.deb; do
    dpkg-deb -x "$package" "$work/root" || stop "$(basename "$package") can't be unpacked"
    dpkg-deb -W --showformat '${Package} ${Version}\n' "$package" >> "$work/root/versions"
    dpkg-deb -c "$package" | sed -n "s|^[^d].* \./\(.*/\)\?\([^/ ]*\.so[.0-9]*\)\( -> .*\)\?\$|\2 $(basename "$package" | cut -d _ -f 1)|p" >> "$work/root/libraries"
done
# Libraries lie in /usr/lib in each release, so that one path leads to them.
if [ -d "$work/root/lib" ] && [ ! -L "$work/root/lib" ]; then
    cp -a "$work/root/lib/." "$work/root/usr/lib/" && rm -r "$work/root/lib"
fi
[ -e "$work/root/lib" ] || ln -s usr/lib "$work/root/lib"
printf '%s\n' "$names" > "$work/root/packages"
rm -rf "$folder" && mkdir -p "$(dirname "$folder")" && cp -a "$work/root" "$folder" || stop "$folder can't be written"
