#!/bin/bash
# The nightly job by Slurm: slurm.sh N ARCHIVE STORES. SLURM.md describes it.
set -eu
here=$(dirname "$(realpath "$0")") of=$1 archive=$2 stores=$3
mkdir -p "$stores"
workers=$(sbatch --parsable --array="1-$of" --requeue --ntasks=1 --output="$stores/slurm-%a.log" \
    "$here/slurm_worker.sh" "$here/worker.sh" "$of" "$archive" "$stores")
sbatch --wait --dependency="afterok:$workers" --kill-on-invalid-dep=yes --output="$stores/slurm-merge.log" \
    --wrap "$here/merge.sh $of $stores"
