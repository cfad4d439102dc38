#!/bin/sh
# Runs a program that a signal ends, and leaves its core file as `core` in the current folder:
#   tools/make_core.sh PROGRAM [ARGUMENT]..
# gdb writes the core file. Where the machine forbids ptrace, gdb can't run programs; then the kernel
# writes it, if core files are plain files in the current folder there.
set -u
rm -f core core.*
gdb --batch -ex 'set startup-with-shell off' -ex 'handle SIGSEGV nostop' -ex run -ex 'gcore core' --args "$@" \
    < /dev/null > gdb.log 2>&1
[ -f core ] && exit 0
(ulimit -c unlimited && "$@") > /dev/null 2>&1 < /dev/null
[ -f core ] || mv core.* core
