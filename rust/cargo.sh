#!/usr/bin/env bash
# Runs cargo, offline, on the crate in the current folder. All dependencies come from Debian 12's
# librust-*-dev packages (tools/packages.sh):
#   ../cargo.sh build --release
#   ../cargo.sh test
# The variable CARGO is the cargo program to run (`cargo` if not set). JOBS is the number of its
# parallel jobs (all processors if not set).
set -eu
command=$1
shift
registry=$(dpkg -L librust-object-dev | sed -n 's#/object-[0-9.]*/Cargo.toml$##p')
exec "${CARGO:-cargo}" "$command" --offline -j "${JOBS:-$(nproc)}" \
  --config 'source.crates-io.replace-with="debian"' --config "source.debian.directory=\"$registry\"" "$@"
