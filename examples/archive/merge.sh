#!/bin/bash
# Joins the stores of all shards, says what is new since the last night, and exports all.
#   merge.sh N STORES
set -eu
of=$1 stores=$2
parts=$(seq -f "$stores/shard-%.0f.store" "$of")
rm -f "$stores/night.store"
# Names with spaces would need an array.
dwcheck-elf store merge "$stores/night.store" $parts
dwcheck-elf store export "$stores/night.store" -o "$stores/night.jsonl"
if [ -f "$stores/last.store" ]; then
    dwcheck-elf store diff "$stores/last.store" "$stores/night.store" > "$stores/new.txt" || [ $? -eq 1 ]
fi
cp "$stores/night.store" "$stores/last.store.part"
mv "$stores/last.store.part" "$stores/last.store"
