#!/bin/bash
# One task of the array job of slurm.sh: runs the worker for the task's shard, up to three times.
#   slurm_worker.sh WORKER N ARCHIVE STORES
set -u
worker=$1
shift
for _ in 1 2 3; do
    "$worker" "$SLURM_ARRAY_TASK_ID" "$@" && exit 0
done
exit 1
