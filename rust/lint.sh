#!/bin/bash
# Runs rustfmt and clippy on each crate in Rust, and sees that each file of tests is compiled. Prints a
# line `ok NAME` or `FAILED NAME` for each, and ends with status 1 if one failed. Nothing is linked, so
# empty libraries stand in for those of C, which take long to build.
set -u
top=$(dirname "$(dirname "$(realpath "$0")")")
export DWCHECK_LIB_DIR=$top/build/no-library
mkdir -p "$DWCHECK_LIB_DIR"
ar rcs "$DWCHECK_LIB_DIR/libdwcheck.a"
ar rcs "$DWCHECK_LIB_DIR/libdwcheck-dl.a"
. "$top/tools/each_test.sh"

for crate in rust/dwcheck-sys rust/dwcheck-types rust/dwcheck rust/dwcheck-lint rust/dwcheck-minidump rust/dwcheck-symbols rust/dwcheck-debuginfod rust/dwcheck-zstd rust/dwcheck-lz4 rust/dwcheck-store rust/dwcheck-package rust/dwcheck-elf rust/dwcheck-profile rust/dwcheck-trace \
    rust/dwcheck-command examples/rust; do
    cd "$top/$crate"
    test_of "rustfmt of $crate" cargo fmt --check
    # Later versions of clippy leave out format_push_string unless it is asked for.
    test_of "clippy of $crate" "$top/rust/cargo.sh" clippy --quiet --all-targets --all-features -- -D warnings -A clippy::format-push-string
done

tests_are_modules() { # A file in tests/all that main.rs doesn't name would be left out in silence.
    local file name
    for file in "$top"/rust/*/tests/all/*.rs; do
        name=$(basename "$file" .rs)
        [ "$name" = main ] || grep -qx "mod $name;" "$(dirname "$file")/main.rs" || { echo "$file is no module"; return 1; }
    done
}
test_of "files of tests" tests_are_modules
exit $status
