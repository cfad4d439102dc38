#!/bin/sh
# Runs the tests and documentation examples of this crate and of dwcheck-sys, those of the feature `dl`, and then this
# crate's tests a second time under valgrind. The C library is build/libdwcheck.a, which make builds, or the one in
# the folders that DWCHECK_LIB_DIR lists.
set -eu
here=$(dirname "$(realpath "$0")")
DWCHECK_LIB_DIR=${DWCHECK_LIB_DIR:-$(dirname "$(dirname "$here")")/build}
export DWCHECK_LIB_DIR
cd "$here/../dwcheck-sys"
../cargo.sh test
../cargo.sh test --features dl --lib
cd "$here"
../cargo.sh test
../cargo.sh test --features dl --test here
../cargo.sh test --features dl --doc here
host=$(rustc -vV | sed -n 's/^host: //p' | tr 'a-z-' 'A-Z_')
leaks=definite,indirect
export "CARGO_TARGET_${host}_RUNNER=valgrind -q --error-exitcode=1 --leak-check=full --show-leak-kinds=$leaks --errors-for-leak-kinds=$leaks"
DWCHECK_ROUNDS=50 ../cargo.sh test --tests
