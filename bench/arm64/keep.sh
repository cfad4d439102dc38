#!/bin/bash
# What vm.sh runs in the virtual machine if KEEP is set: makes the core file and the recording that tests of dwcheck-elf keep,
# and prints each in base64, by lines `KEEP NAME TEXT`. With them goes what perf prints of the recording: when samples were
# taken, and where. perf 6.1 takes no signatures off return addresses, so the stacks that it prints are short.
set -u
cd "$(mktemp -d)"
ulimit -c unlimited

print() { # NAME
    base64 -w 2000 "$1" | sed "s/^/KEEP $1 /"
}

/test/kept > /dev/null 2>&1
[ -f core ] || mv core.* core
mv core arm64.core
perf record -q -e cpu-clock:u -F 5 --call-graph dwarf,512 -o arm64.perf /test/kept work > /dev/null
perf script --no-inline -i arm64.perf > arm64.script
for name in arm64.core arm64.perf arm64.script; do print $name; done
