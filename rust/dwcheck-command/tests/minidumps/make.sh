#!/usr/bin/env bash
# Makes the kept minidumps again: builds crashes.c for x86-64 and i386, and has Chromium's Crashpad handler and LLDB
# write minidumps of the programs, which LLDB then reads. It needs gcc, gcc-multilib-x86-64-linux-gnux32, chromium-common
# and lldb-19. LLDB stops at the signal frames of these programs, which no row describes.
set -eu
cd "$(dirname "$(readlink -f "$0")")"
built=/tmp/crashes
rm -rf $built; mkdir -p $built
cp crashes.c $built/
flags="-O1 -g -nostdlib -pie -fpie -ffreestanding -fno-stack-protector -Wl,--no-dynamic-linker,--build-id=sha1,-z,noseparate-code"
kept() { gzip -9nc "$1" > "$2.gz"; }
frames() { lldb-19 -b -o 'bt all' -c "$1" 2> /dev/null | grep -E 'thread #|frame #' | sed 's/ at crashes.*//'; }
for machine in "x86-64 gcc -m64" "i386 x86_64-linux-gnux32-gcc -m32"; do
    set -- $machine
    (cd $built && $2 $3 $flags crashes.c -o $1)
    kept $built/$1 $1
    for how in null handler overflow; do
        mkdir $built/database
        env -i $built/$1 $how $built/database /usr/lib/chromium/chrome_crashpad_handler 2> /dev/null || true
        mv $built/database/pending/*.dmp $built/$1-crashpad-$how.dmp
        rm -r $built/database
    done
done
for how in null handler; do
    signals='process handle -s false -p true -n false SIGUSR1'
    env -i PATH=/usr/bin:/bin lldb-19 -b -o "$signals" -o run \
        -k "process save-core --plugin-name=minidump --style=stack $built/x86-64-lldb-$how.dmp" -k kill -- $built/x86-64 $how > /dev/null 2>&1
done
for file in $built/*.dmp; do
    name=$(basename $file .dmp)
    kept $file $name
    frames $file > $name.lldb.txt
done
rm -rf $built
