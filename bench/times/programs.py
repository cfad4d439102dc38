#!/usr/bin/env python3
"""Writes a C program whose frames gcc describes with expressions. It has N functions, most of them
with local variables for which the stack must be realigned.

    bench/times/programs.py N > FILE.c
    gcc -g -gdwarf-5 -O2 -fno-inline -fno-asynchronous-unwind-tables -fno-unwind-tables -Wa,--gdwarf-cie-version=4 FILE.c -o PROGRAM
    objcopy --dump-section .debug_frame=FILE.frame PROGRAM /dev/null
"""
import sys

HEAD = """#include <stdarg.h>
volatile int sink;
void use(void *p, int n);
void use(void *p, int n) { sink = n + *(volatile char *)p; }
"""
# Parameters and bodies of functions. The first function gets the first of these, the second the
# second, and so on; after the last comes the first again.
BODIES = [
    "(int n, int a, int b, int c, int d, int e, int g) {{ _Alignas(32) char x[64]; x[0] = n; use(x, n + g); return x[1] + {i}; }}",
    "(int n, ...) {{ va_list v; va_start(v, n); _Alignas(64) char x[128]; x[0] = n; use(x, va_arg(v, int)); va_end(v); return x[0] + {i}; }}",
    "(int n) {{ _Alignas(32) char x[64]; char y[n + {i}]; y[0] = x[0] = n; use(y, n); use(x, n); return x[1] + y[0]; }}",
    "(int n) {{ int s = {i}; for (int i = 0; i < n; i++) {{ use(&s, i); if (s > {i}) return s; }} return s + n; }}",
]


def program(count):
    names = [f"int f{i}{BODIES[i % len(BODIES)].format(i=i)}" for i in range(count)]
    calls = "".join(f"    sink += {call(i)};\n" for i in range(count))
    return HEAD + "\n".join(names) + "\nint main(void) {\n" + calls + "    return 0;\n}\n"


def call(i):
    return f"f{i}(1, 2, 3, 4, 5, 6, 7)" if i % len(BODIES) == 0 else f"f{i}(1, 2)" if i % len(BODIES) == 1 else f"f{i}(1)"


if __name__ == "__main__":
    if len(sys.argv) != 2:
        raise SystemExit(__doc__)
    sys.stdout.write(program(int(sys.argv[1])))
