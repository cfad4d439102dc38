#!/usr/bin/env bash
# Builds a program that calls dwcheck's libraries and gimli 0.27, and runs it to compare their speed
# or their results. Nothing is written into the checkout.
#   bench/beside_gimli/run.sh times SECTION ..   prints the processor times of both, each the least
#                                                of several runs, and their ratio
#   bench/beside_gimli/run.sh in_place PROGRAM ..
#                                                prints what a look-up in .eh_frame where it lies takes,
#                                                by .eh_frame_hdr, beside gimli's by the same
#   bench/beside_gimli/run.sh read SECTION       lets only gimli read all rows or list entries, so
#                                                that the process can be timed
#   bench/beside_gimli/run.sh differ FRAMES LISTS EXPRESSIONS SEED SECTION ..
#                                                makes this many random cases of each kind from the
#                                                sections, reads them with both, and counts the
#                                                differences; for the sections and for accepted
#                                                cases also compares the rows in compiled tables
# Sections are raw and little-endian with addresses of 8 bytes: .debug_loclists if the name ends
# with .lists, else .debug_frame. `times` also takes .eh_frame sections, whose names end with
# .eh_frame: it prints what the check takes with the table, beside the check alone. If the variable
# WORK names a folder, what is built stays there.
# This needs gcc, cargo and Debian's librust-gimli-dev and librust-object-dev.
set -eu
here=$(cd "$(dirname "$0")" && pwd)
checkout=$(cd "$here" && git rev-parse --show-toplevel)
work=${WORK:-$(mktemp -d)}
mkdir -p "$work" && work=$(cd "$work" && pwd)
kit=$(dirname "$(rt doc)")

# Build dwcheck's libraries as one static library.
if [ ! -d "$work/src" ]; then git clone -q "$checkout" "$work/src"; else git -C "$work/src" pull -q; fi
(cd "$work/src/crates/dw_times" && rt lib) >"$work/lib.log" 2>&1 </dev/null || { tail -n 5 "$work/lib.log" >&2; exit 1; }

# Build the program that calls both libraries. gimli comes from where Debian's package puts it.
registry=$(dpkg -L librust-gimli-dev | sed -n 's#/gimli-[0-9.]*/Cargo.toml$##p')
mkdir -p "$work/beside" && cp -r "$here/Cargo.toml" "$here/src" "$work/beside/"
(cd "$work/beside" && CARGO_TARGET_DIR=$work/target RUSTFLAGS="-L $work/src/crates/dw_times/out -l static=dw_times -L $kit/c -l static=libc_c" \
  cargo build -q --release --offline \
  --config 'source.crates-io.replace-with="debian"' --config "source.debian.directory=\"$registry\"")
exec "$work/target/release/beside" "$@"
