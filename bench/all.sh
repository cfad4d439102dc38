#!/usr/bin/env bash
# Runs each comparison in this folder briefly. dwcheck's output for random input is compared with
# the models in bench/models, and its walks up the stacks of real programs with gdb's and perf's,
# and on nine targets under qemu with gdb's. Bad input is tried, and the commands that the
# documentation shows. If DWCHECK_ELF is given, the rows that it prints are compared with readelf's,
# and it reads damaged files. For each comparison, a line says whether it passed and how long it
# took. If one fails, the line names the file that has its output.
#     bench/all.sh DWCHECK [DWCHECK_ELF]        some ten minutes on a busy machine
# This needs the packages that pages.py and walk/targets.py name. These variables may be set:
#     LIBRARY  crates/dw_times/out/libdw_times.a, which `rt lib` in crates/dw_times makes: then
#              walks are compared with libunwind's too
#     TESTS    crates/dw_tests/out/dw_tests_tests, which `rt test` in crates/dw_tests makes: then
#              there are also runs in which each request for memory fails in turn
#     ANSWERS  eh_frame_answers, an example of rust/dwcheck: then what the library finds in .eh_frame
#              sections is compared with a model
#     DAMAGED  damaged_eh_frame, an example of rust/dwcheck-command: then damaged .eh_frame sections are
#              checked, and compared with gimli
#     SEED     a number that chooses the random cases; 1 if not set
#     COUNT    the number of random cases of each kind; 2000 if not set
set -u
program=$(realpath "$1") elf=${2:+$(realpath "$2")} seed=${SEED:-1} count=${COUNT:-2000}
here=$(cd "$(dirname "$0")" && pwd)
work=$(mktemp -d)
passed=0 failed=0

run() { # NAME COMMAND..: runs a command, and prints a line about it that begins with the name
    name=$1
    shift
    begun=$SECONDS
    if "$@" > "$work/$name" 2>&1 < /dev/null; then
        said=passed passed=$((passed + 1))
    else
        said="FAILED, see $work/$name" failed=$((failed + 1))
    fi
    printf '%-12s %4d s  %s\n' "$name" $((SECONDS - begun)) "$said"
}

for kind in expressions lists sections pairs; do
    run "$kind" "$here/comparisons/compare_$kind.py" "$program" "$count" "$seed"
done
run walks "$here/comparisons/walks.py" "$program" "$count" "$seed" --jobs 2
run modules "$here/comparisons/modules.py" "$program" "$count" "$seed" --jobs 2
run reference "$here/comparisons/modules.py" "$program" "$count" "$seed" --jobs 2 --reference
run walk "$here/walk/run.sh" "$program" 20
run libraries "$here/walk/modules.sh" "$program" 8
run targets "$here/walk/targets.py" "$program"
run hostile "$here/stress/hostile.py" "$program"
run pages "$here/pages.py" "$program" ${elf:+--elf "$elf"}
if [ -n "$elf" ]; then
    run elf-rows "$here/elf/rows.py" "$elf" 300000 /usr/bin
    run elf-damage "$here/elf/damage.py" "$elf" 1000 "$seed" --jobs 2
    run lint-damage "$here/elf/damage_lint.py" "$elf" 1000 "$seed" --jobs 2
fi
if [ -n "${ANSWERS:-}" ]; then
    run eh-frame "$here/comparisons/compare_eh_frame.py" "$(realpath "$ANSWERS")" "$count" "$seed" --jobs 2 --pieces 1 /bin/ls
fi
if [ -n "${DAMAGED:-}" ]; then
    run eh-damage "$(realpath "$DAMAGED")" $((100 * count)) "$seed" 2 /bin/ls /usr/bin/env
fi
if [ -n "${TESTS:-}" ]; then
    run memory "$here/stress/refused_memory.py" "$(realpath "$TESTS")" "$program"
fi
if [ -n "${LIBRARY:-}" ]; then
    run libunwind env LIBRARY="$(realpath "$LIBRARY")" "$here/beside_libunwind/run.sh"
fi
echo "$passed passed, $failed failed"
if [ "$failed" -eq 0 ]; then rm -r "$work"; else exit 1; fi
