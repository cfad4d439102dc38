/* The shared library that walks.c calls, and that calls back. */
#include "walks.h"

static volatile int sink;

/* keeps values across its calls, so it saves callee-saved registers */
int through(int levels, int (*down)(int))
{
    int a = sink, b = sink, c = sink, d = sink;
    int e = down(levels - 1);
    sink += a + b + c + d + e;
    return a * b + c * d + e;
}
