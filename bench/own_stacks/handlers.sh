#!/usr/bin/env bash
# Walks in signal handlers, some 10,000 times a second, in programs in C++, C, Python, JavaScript, Java and Go with cgo
# (handlers.c), while a library comes and goes. Prints a line with counts for each. The exit status is 1 if
# fewer than 99.99 in 100 of the walks that met only code of modules are complete.
#   LIBRARY=libdwcheck.a DL_LIBRARY=libdwcheck-dl.a bench/own_stacks/handlers.sh     half a minute
# This needs x86-64, gcc, g++ and those of sqlite3, python3, node, java and go whose programs are to run.
set -u
here=$(cd "$(dirname "$0")" && pwd)
top=$(cd "$here/../.." && pwd)
library=$(realpath "${LIBRARY:-$top/build/libdwcheck.a}")
dl_library=$(realpath "${DL_LIBRARY:-$top/build/libdwcheck-dl.a}")
work=$(mktemp -d)
trap 'rm -rf "$work"' EXIT
cd "$work" || exit 2
status=0
gcc -std=gnu11 -O2 -Wall -Wextra -shared -fPIC -Wl,-z,now "-I$top/c/include" "$here/handlers.c" "$dl_library" "$library" -o handlers.so -pthread -ldl || exit 2
printf 'int called(int x); int called(int x) { return x + 1; }\n' | gcc -shared -fPIC -x c - -o called.so || exit 2

walked() { # NAME COMMAND..: runs a command with the handler
    local name=$1
    shift
    command -v "$1" > /dev/null || { echo "$name: $1 isn't here"; return; }
    LD_PRELOAD=$work/handlers.so CALLED=$work/called.so "$@" > out.txt 2> err.txt || { echo "$name: FAILED"; tail -n 3 err.txt; status=1; }
    grep -A 8 ' walks, ' err.txt | sed "1s/^/$name: /"
    awk '/ walks, / { if ($(NF - 7) + 0 < 99.99) exit 1 }' err.txt || status=1
}

g++ -O1 "$here/throws.cc" -o throws && walked C++ ./throws
walked sqlite3 sqlite3 :memory: 'with recursive n(i) as (select 1 union all select i + 1 from n limit 4000000) select sum(i * 7 % 11) from n group by i % 13;'
walked python3 /usr/bin/python3 -c 'import json, re
for i in range(300000): re.sub("[0-9]+", lambda m: m[0] + "x", json.dumps({"a": [i] * 9}))'
WITHOUT_ROWS=/node walked node node -e 'let end = Date.now() + 3000, n = 0; while (Date.now() < end) n += JSON.stringify({a: [n, n]}).length; console.log(n > 0)'
javac -d . "$here/Numbers.java" 2> err.txt && walked java java -cp . Numbers
(cd "$work" && cp "$here/calls_c.go" . && CGO_ENABLED=1 GOCACHE=$work/go go build -o calls_c calls_c.go 2> err.txt) &&
    ON_STACK=1 SIGNAL=34 REPORT=2 WITHOUT_ROWS=/calls_c walked "Go with cgo" ./calls_c
exit $status
