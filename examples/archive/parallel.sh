#!/bin/bash
# The nightly job by GNU parallel: parallel.sh N ARCHIVE STORES. PARALLEL.md describes it.
set -eu
here=$(dirname "$(realpath "$0")") of=$1 archive=$2 stores=$3
mkdir -p "$stores"
seq "$of" | parallel --jobs "${JOBS:-$(nproc)}" --retries 3 --joblog "$stores/joblog" \
    "$here/worker.sh" {} "$of" "$archive" "$stores"
"$here/merge.sh" "$of" "$stores"
