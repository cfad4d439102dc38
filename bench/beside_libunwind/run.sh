#!/usr/bin/env bash
# Compares walks by dwcheck's compiled tables with libunwind's, in one process. The addresses and
# CFAs of the frames must agree, and the nanoseconds per frame are printed. The stack is 600 frames
# deep. A third of the frames belong to a shared library that calls back into the program.
# libunwind's unw_step caches what it found for an address. unw_backtrace also caches where the
# frame with a given return address saves its registers, so it needs no rules the next time.
#   bench/beside_libunwind/run.sh [SECTION]..    some seconds once crates/dw_times is built
# Each SECTION is a raw .debug_frame section. It becomes another module, which every look-up of
# bench_walk searches before the modules of the program. If Debian's libdw-dev is installed, elfutils'
# dwfl_getthread_frames is timed on the same stack. These variables may be set:
#   PREFIX   the folder to which `make install` installed libdwcheck: then dwcheck_backtrace,
#            dwcheck_backtrace_cached and dwcheck_row_at are timed too, and kept_rows.c times walks with
#            kept rows beside unw_backtrace
#   WORK     a folder; what is built stays there
#   LIBRARY  a file to link instead of building crates/dw_times
# This needs the kit (rt), x86-64, gcc and Debian's libunwind-dev (apt-get install libunwind-dev).
set -eu
here=$(cd "$(dirname "$0")" && pwd)
checkout=$(cd "$here" && git rev-parse --show-toplevel)
work=${WORK:-$(mktemp -d)}
mkdir -p "$work" && work=$(cd "$work" && pwd)
kit=$(dirname "$(rt doc)")

library=${LIBRARY:-$work/src/crates/dw_times/out/libdw_times.a}
if [ -z "${LIBRARY:-}" ]; then
    if [ ! -d "$work/src" ]; then git clone -q "$checkout" "$work/src"; else git -C "$work/src" pull -q; fi
    (cd "$work/src/crates/dw_times" && rt lib) >"$work/lib.log" 2>&1 </dev/null || { tail -n 5 "$work/lib.log" >&2; exit 1; }
fi
nm "$library" 2> /dev/null | grep -q ' T bench_walk$' || { echo "no bench_walk in $library" >&2; exit 1; }

flags=(-std=gnu11 -Wall -Wextra -O2 -g)
through_c=()
if [ -n "${PREFIX:-}" ]; then
    through_c=(-DTHROUGH_C "-I$PREFIX/include" "-L$PREFIX/lib" -ldwcheck "-Wl,-rpath,$PREFIX/lib")
fi
elfutils=()
if echo '#include <elfutils/libdwfl.h>' | gcc -E - > /dev/null 2>&1; then
    elfutils=(-DWITH_ELFUTILS "$here/elfutils.c" -ldw)
fi
gcc "${flags[@]}" -shared -fPIC "$here/through.c" -o "$work/libthrough.so"
gcc "${flags[@]}" -pie -fPIE "$here/walks.c" "$library" "$kit/c/liblibc_c.a" -L"$work" -lthrough -Wl,-rpath,"$work" -lunwind -pthread \
    "${elfutils[@]}" "${through_c[@]}" -o "$work/walks"
for file in walks libthrough.so; do
    objcopy --dump-section ".debug_frame=$work/$file.frame" "$work/$file" /dev/null
done
if [ -n "${PREFIX:-}" ]; then
    gcc "${flags[@]}" -pie -fPIE "$here/kept_rows.c" "${through_c[@]}" -lunwind -pthread -ldl -o "$work/kept_rows"
    "$work/kept_rows"
fi
exec "$work/walks" "$work/walks.frame" "$work/libthrough.so.frame" "$@"
