#!/bin/bash
# Lints one shard of an archive, and keeps what is found in a store of the shard. It may be stopped and started again at
# any time: what stands in the store isn't done again. The status is 0 when the shard is done.
#   worker.sh K N ARCHIVE STORES
set -u
shard=$1 of=$2 archive=$3 stores=$4
dwcheck-elf lint --jobs 1 --store "$stores/shard-$shard.store" --shard "$shard/$of" "$archive" \
    > "$stores/shard-$shard.txt" 2> "$stores/shard-$shard.err"
status=$?
# 1 says that something is found. 3 may say that a file of the archive can't be read, which another try doesn't change.
case $status in
0 | 1) exit 0 ;;
3) grep -q '^dwcheck-elf: the store ' "$stores/shard-$shard.err" || exit 0 ;;
esac
exit "$status"
